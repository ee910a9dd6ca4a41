/* Wraps the C library's calls in a server: writes to the file CALLS_TO, one line for each, the calls that change or sync the file CALLS_OF, as
   calls.c does ("write OFFSET HEX", "length BYTES", "room OFFSET BYTES", "sync"), and each answer that is handed over: "answer ID SCRIPT
   ANSWER", both in hex, when cur/ID.answer becomes done/ID. A line is written, in one piece, after its call and before the wrapper returns. So if one
   of two calls waited for the other, their lines are in the same order. */
#define _GNU_SOURCE
#include <dlfcn.h>
#include <fcntl.h>
#include <pthread.h>
#include <stdio.h>
#include <stdlib.h>
#include <string.h>
#include <sys/stat.h>
#include <unistd.h>
#define NEXT(name) ((typeof(&name))dlsym(RTLD_NEXT, #name))

static pthread_mutex_t one = PTHREAD_MUTEX_INITIALIZER;
static int told = -1;

/* A line that grows. */
struct line { char *text; size_t count, room; };

static void add(struct line *line, const char *bytes, size_t count, int is_hex) {
    static const char digits[] = "0123456789abcdef";
    size_t more = is_hex ? 2 * count : count;
    if (line->count + more > line->room) line->text = realloc(line->text, line->room = 2 * (line->count + more) + 64);
    for (size_t i = 0; i < count; i++) {
        if (is_hex) line->text[line->count++] = digits[(unsigned char)bytes[i] >> 4];
        line->text[line->count++] = is_hex ? digits[bytes[i] & 15] : bytes[i];
    }
}
static void add_text(struct line *line, const char *text) { add(line, text, strlen(text), 0); }

static void tell(struct line *line) {
    char *to = getenv("CALLS_TO");
    add_text(line, "\n");
    pthread_mutex_lock(&one);
    if (told < 0) told = open(to, O_WRONLY | O_CREAT | O_APPEND | O_CLOEXEC, 0644);
    if (NEXT(write)(told, line->text, line->count) != (ssize_t)line->count) abort();
    pthread_mutex_unlock(&one);
    free(line->text);
}
static int is_watched(int fd) {
    struct stat given, wanted;
    char *path = getenv("CALLS_OF");
    return path && fd != told && !fstat(fd, &given) && !stat(path, &wanted) && given.st_dev == wanted.st_dev && given.st_ino == wanted.st_ino;
}
static ssize_t wrote(int fd, const void *bytes, ssize_t count, off_t offset) {
    if (count > 0 && is_watched(fd)) {
        struct line line = {0};
        char head[40];
        snprintf(head, sizeof head, "write %lld ", (long long)offset);
        add_text(&line, head);
        add(&line, bytes, count, 1);
        tell(&line);
    }
    return count;
}
static int did(int status, int fd, const char *what, long long a, long long b) {
    if (status == 0 && is_watched(fd)) {
        struct line line = {0};
        char head[80];
        snprintf(head, sizeof head, what, a, b);
        add_text(&line, head);
        tell(&line);
    }
    return status;
}
ssize_t pwrite(int fd, const void *bytes, size_t count, off_t at) { return wrote(fd, bytes, NEXT(pwrite)(fd, bytes, count, at), at); }
ssize_t pwrite64(int fd, const void *bytes, size_t count, off64_t at) { return wrote(fd, bytes, NEXT(pwrite64)(fd, bytes, count, at), at); }
int ftruncate(int fd, off_t size) { return did(NEXT(ftruncate)(fd, size), fd, "length %lld", size, 0); }
int ftruncate64(int fd, off64_t size) { return did(NEXT(ftruncate64)(fd, size), fd, "length %lld", size, 0); }
int fallocate(int fd, int mode, off_t at, off_t size) { return did(NEXT(fallocate)(fd, mode, at, size), fd, "room %lld %lld", at, size); }
int fsync(int fd) { return did(NEXT(fsync)(fd), fd, "sync", 0, 0); }
int fdatasync(int fd) { return did(NEXT(fdatasync)(fd), fd, "sync", 0, 0); }

/* Adds a file's bytes. */
static void add_file(struct line *line, const char *path) {
    char piece[4096];
    ssize_t count;
    int fd = open(path, O_RDONLY | O_CLOEXEC);
    while (fd >= 0 && (count = read(fd, piece, sizeof piece)) > 0) add(line, piece, count, 1);
    if (fd >= 0) close(fd);
}
int rename(const char *from, const char *to) {
    const char *ending = strstr(from, ".answer"), *done = strstr(to, "/done/");
    struct line line = {0};
    if (ending && done && getenv("CALLS_TO")) {
        /* The answer is read before the call, since a client may remove it as soon as it is there. */
        char script[4096];
        snprintf(script, sizeof script, "%.*s", (int)(ending - from), from);
        add_text(&line, "answer ");
        add_text(&line, done + strlen("/done/"));
        add_text(&line, " ");
        add_file(&line, script);
        add_text(&line, " ");
        add_file(&line, from);
    }
    int status = NEXT(rename)(from, to);
    if (status == 0 && line.text) tell(&line);
    return status;
}
