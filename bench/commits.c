/* Does what a commit of the library asks of the system, and nothing else: commits FILE COUNT LENGTH writes, COUNT times, LENGTH bytes
   after those before, syncs, writes the byte before them, and syncs. The file has to be long enough. */
#include <fcntl.h>
#include <stdio.h>
#include <stdlib.h>
#include <string.h>
#include <unistd.h>

int main(int argc, char **argv) {
    if (argc != 4) { fprintf(stderr, "usage: commits FILE COUNT LENGTH\n"); return 2; }
    int file = open(argv[1], O_RDWR);
    long count = atol(argv[2]), length = atol(argv[3]);
    char *bytes = malloc(length), gate = (char)0xa5;
    if (file < 0 || !bytes) { perror(argv[1]); return 1; }
    memset(bytes, '/', length);
    off_t at = 16;
    for (long i = 0; i < count; i++) {
        if (pwrite(file, bytes, length, at + 1) != length || fdatasync(file)) { perror("first"); return 1; }
        if (pwrite(file, &gate, 1, at) != 1 || fdatasync(file)) { perror("second"); return 1; }
        at += length;
    }
    return 0;
}
