/* Wraps the C library's calls: writes to the file CALLS_TO, one line for each, those that change or sync the file CALLS_OF:
   "write OFFSET HEX", "length BYTES", "room OFFSET BYTES" and "sync". Each line is written once its call has succeeded. */
#define _GNU_SOURCE
#include <dlfcn.h>
#include <fcntl.h>
#include <stdio.h>
#include <stdlib.h>
#include <sys/stat.h>
#include <unistd.h>
#define NEXT(name) ((typeof(&name))dlsym(RTLD_NEXT, #name))

static FILE *told;

static FILE *of(int fd) {
    struct stat given, wanted;
    char *path = getenv("CALLS_OF"), *to = getenv("CALLS_TO");
    if (!path || !to || fstat(fd, &given) || stat(path, &wanted) || given.st_dev != wanted.st_dev || given.st_ino != wanted.st_ino) return 0;
    return told ? told : (told = fopen(to, "a"));
}
static ssize_t wrote(int fd, const unsigned char *bytes, ssize_t count, off_t offset) {
    FILE *file = count > 0 ? of(fd) : 0;
    if (file) {
        fprintf(file, "write %lld ", (long long)offset);
        for (ssize_t i = 0; i < count; i++) fprintf(file, "%02x", bytes[i]);
        fprintf(file, "\n");
        fflush(file);
    }
    return count;
}
static int tell(int status, int fd, const char *what, long long a, long long b) {
    FILE *file = status == 0 ? of(fd) : 0;
    if (file) {
        fprintf(file, what, a, b);
        fflush(file);
    }
    return status;
}
ssize_t pwrite(int fd, const void *bytes, size_t count, off_t at) { return wrote(fd, bytes, NEXT(pwrite)(fd, bytes, count, at), at); }
ssize_t pwrite64(int fd, const void *bytes, size_t count, off64_t at) { return wrote(fd, bytes, NEXT(pwrite64)(fd, bytes, count, at), at); }
ssize_t write(int fd, const void *bytes, size_t count) {
    off_t at = lseek(fd, 0, SEEK_CUR);
    return wrote(fd, bytes, NEXT(write)(fd, bytes, count), at < 0 ? 0 : at);
}
int ftruncate(int fd, off_t size) { return tell(NEXT(ftruncate)(fd, size), fd, "length %lld\n", size, 0); }
int ftruncate64(int fd, off64_t size) { return tell(NEXT(ftruncate64)(fd, size), fd, "length %lld\n", size, 0); }
int fallocate(int fd, int mode, off_t at, off_t size) { return tell(NEXT(fallocate)(fd, mode, at, size), fd, "room %lld %lld\n", at, size); }
int fsync(int fd) { return tell(NEXT(fsync)(fd), fd, "sync\n", 0, 0); }
int fdatasync(int fd) { return tell(NEXT(fdatasync)(fd), fd, "sync\n", 0, 0); }
