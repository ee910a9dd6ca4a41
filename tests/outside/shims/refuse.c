/* A malloc that wraps the C library's: it refuses the allocation whose number is in the variable REFUSED, in whichever thread that is made. */
#define _GNU_SOURCE
#include <dlfcn.h>
#include <errno.h>
#include <stdatomic.h>
#include <stdlib.h>
#include <sys/syscall.h>
#include <unistd.h>
static atomic_long count, number = -1;
static int refuse(void) {
    if (number < 0) { char *text = getenv("REFUSED"); number = text ? atol(text) : 0; }
    return atomic_fetch_add(&count, 1) + 1 == number;
}
#define NEXT(type, name, ...) static type (*next)(__VA_ARGS__); if (!next) next = dlsym(RTLD_NEXT, name)
void *malloc(size_t n) { NEXT(void *, "malloc", size_t); return refuse() ? 0 : next(n); }
void *realloc(void *p, size_t n) { NEXT(void *, "realloc", void *, size_t); return refuse() ? 0 : next(p, n); }
void *aligned_alloc(size_t a, size_t n) { NEXT(void *, "aligned_alloc", size_t, size_t); return refuse() ? 0 : next(a, n); }
int posix_memalign(void **p, size_t a, size_t n) { NEXT(int, "posix_memalign", void **, size_t, size_t); return refuse() ? ENOMEM : next(p, a, n); }
/* Writes a word to descriptor 3 if the run ended before the allocation, even if a program with threads ends without its destructors. */
__attribute__((destructor)) static void tell(void) { if (number > 0 && count < number) write(3, "all\n", 4); }
void _exit(int status) { tell(); syscall(SYS_exit_group, status); __builtin_unreachable(); }
