/* Loaded in front of the C library: the allocation with the number in the variable REFUSED, counted from
   1, is refused. If the program ends before it, the status is 77. */
#define _GNU_SOURCE
#include <dlfcn.h>
#include <errno.h>
#include <stddef.h>
#include <stdlib.h>
#include <sys/syscall.h>
#include <unistd.h>

static long calls;

static long refused(void) {
    const char *number = getenv("REFUSED");
    return number ? atol(number) : 0;
}

static int is_refused(void) {
    if (__atomic_add_fetch(&calls, 1, __ATOMIC_SEQ_CST) != refused()) {
        return 0;
    }
    errno = ENOMEM;
    return 1;
}

void *malloc(size_t size) {
    void *(*next)(size_t) = dlsym(RTLD_NEXT, "malloc");
    return is_refused() ? NULL : next(size);
}

void *calloc(size_t count, size_t size) {
    void *(*next)(size_t, size_t) = dlsym(RTLD_NEXT, "calloc");
    return is_refused() ? NULL : next(count, size);
}

void *realloc(void *old, size_t size) {
    void *(*next)(void *, size_t) = dlsym(RTLD_NEXT, "realloc");
    return is_refused() ? NULL : next(old, size);
}

void *aligned_alloc(size_t align, size_t size) {
    void *(*next)(size_t, size_t) = dlsym(RTLD_NEXT, "aligned_alloc");
    return is_refused() ? NULL : next(align, size);
}

int posix_memalign(void **out, size_t align, size_t size) {
    int (*next)(void **, size_t, size_t) = dlsym(RTLD_NEXT, "posix_memalign");
    return is_refused() ? ENOMEM : next(out, align, size);
}

/* The program ends by _exit, and not by exit, if it may start threads. */
void _exit(int status) {
    syscall(SYS_exit_group, calls < refused() ? 77 : status);
    __builtin_unreachable();
}
