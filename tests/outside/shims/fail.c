/* Wraps the C library's calls. Among those that name a file below the folder FAIL_IN, or one that is open there, the call with the number FAIL_AT
   (from 1) is refused with the error number FAIL_WITH. With FAIL_DONE the call is done first, as over a network whose answer is lost; with FAIL_KILL
   the process is killed instead. When the call comes, a line goes to the file FAIL_TOLD: "NUMBER CALL FILE". */
#define _GNU_SOURCE
#include <dlfcn.h>
#include <errno.h>
#include <fcntl.h>
#include <signal.h>
#include <stdarg.h>
#include <stdatomic.h>
#include <stdio.h>
#include <stdlib.h>
#include <string.h>
#include <sys/file.h>
#include <sys/stat.h>
#include <unistd.h>
#define NEXT(name) ((typeof(&name))dlsym(RTLD_NEXT, #name))

static atomic_long count;

static int is_in(const char *path) {
    const char *folder = getenv("FAIL_IN");
    return folder && path && !strncmp(path, folder, strlen(folder));
}
/* Whether a call on this path is the one that is refused. */
static int meets(const char *path, const char *call) {
    if (!is_in(path)) return 0;
    long number = atomic_fetch_add(&count, 1) + 1;
    if (number != atol(getenv("FAIL_AT"))) return 0;
    int told = NEXT(open)(getenv("FAIL_TOLD"), O_WRONLY | O_CREAT | O_APPEND | O_CLOEXEC, 0644);
    dprintf(told, "%ld %s %s\n", number, call, path);
    close(told);
    if (getenv("FAIL_KILL")) kill(getpid(), SIGKILL);
    return 1;
}
static int meets_open(int fd, const char *call) {
    char link[40], path[4096];
    snprintf(link, sizeof link, "/proc/self/fd/%d", fd);
    ssize_t length = readlink(link, path, sizeof path - 1);
    path[length < 0 ? 0 : length] = 0;
    return meets(path, call);
}
static int is_done(void) { return getenv("FAIL_DONE") != 0; }
static int refused(void) { errno = atoi(getenv("FAIL_WITH")); return -1; }

#define OVER_PATH(name, path, parameters, ...) \
    int name parameters { if (!meets(path, #name)) return NEXT(name)(__VA_ARGS__); if (is_done()) NEXT(name)(__VA_ARGS__); return refused(); }
#define OVER_FILE(type, name, parameters, ...) \
    type name parameters { if (!meets_open(fd, #name)) return NEXT(name)(__VA_ARGS__); if (is_done()) NEXT(name)(__VA_ARGS__); return refused(); }

OVER_PATH(unlink, path, (const char *path), path)
OVER_PATH(rmdir, path, (const char *path), path)
OVER_PATH(mkdir, path, (const char *path, mode_t mode), path, mode)
OVER_PATH(chmod, path, (const char *path, mode_t mode), path, mode)
OVER_PATH(rename, from, (const char *from, const char *to), from, to)
OVER_PATH(link, from, (const char *from, const char *to), from, to)
OVER_FILE(int, fsync, (int fd), fd)
OVER_FILE(int, fdatasync, (int fd), fd)
OVER_FILE(int, fchmod, (int fd, mode_t mode), fd, mode)
OVER_FILE(int, ftruncate, (int fd, off_t size), fd, size)
OVER_FILE(int, flock, (int fd, int how), fd, how)
OVER_FILE(ssize_t, getdents64, (int fd, void *bytes, size_t size), fd, bytes, size)
OVER_FILE(ssize_t, read, (int fd, void *bytes, size_t size), fd, bytes, size)
OVER_FILE(ssize_t, write, (int fd, const void *bytes, size_t size), fd, bytes, size)
OVER_FILE(ssize_t, pread, (int fd, void *bytes, size_t size, off_t at), fd, bytes, size, at)
OVER_FILE(ssize_t, pwrite, (int fd, const void *bytes, size_t size, off_t at), fd, bytes, size, at)

int statx(int fd, const char *path, int flags, unsigned mask, struct statx *found) {
    if (!(*path ? meets(path, "statx") : meets_open(fd, "statx"))) return NEXT(statx)(fd, path, flags, mask, found);
    return refused();
}
/* A file that was opened or made, but whose number is lost. */
static int opened(int fd, int is_met) {
    if (!is_met) return fd;
    if (fd >= 0) close(fd);
    return refused();
}
int open(const char *path, int flags, ...) {
    va_list rest;
    va_start(rest, flags);
    mode_t mode = flags & O_CREAT ? va_arg(rest, mode_t) : 0;
    va_end(rest);
    int is_met = meets(path, "open");
    return opened(!is_met || is_done() ? NEXT(open)(path, flags, mode) : -1, is_met);
}
int openat(int folder, const char *path, int flags, ...) {
    va_list rest;
    va_start(rest, flags);
    mode_t mode = flags & O_CREAT ? va_arg(rest, mode_t) : 0;
    va_end(rest);
    int is_met = meets(path, "openat");
    return opened(!is_met || is_done() ? NEXT(openat)(folder, path, flags, mode) : -1, is_met);
}
