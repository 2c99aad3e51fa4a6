/* Refuses one allocation: that of the number in REFUSED_CALL, from 0. It says so on the error output. By which of these
 * calls a program allocates is its toolchain's choice. */
#define _GNU_SOURCE
#include <dlfcn.h>
#include <errno.h>
#include <stdlib.h>
#include <unistd.h>

static long calls;

static int is_refused(void) {
    const char *which = getenv("REFUSED_CALL");
    if (!which || __atomic_fetch_add(&calls, 1, __ATOMIC_SEQ_CST) != atol(which)) return 0;
    (void)!write(2, "refused\n", 8);
    errno = ENOMEM;
    return 1;
}

#define NEXT(name, ...) \
    static void *(*next)(__VA_ARGS__); \
    if (!next) next = dlsym(RTLD_NEXT, name)

void *malloc(size_t size) {
    NEXT("malloc", size_t);
    return is_refused() ? 0 : next(size);
}

void *realloc(void *old, size_t size) {
    NEXT("realloc", void *, size_t);
    return is_refused() ? 0 : next(old, size);
}

void *reallocarray(void *old, size_t count, size_t size) {
    NEXT("reallocarray", void *, size_t, size_t);
    return is_refused() ? 0 : next(old, count, size);
}

void *memalign(size_t alignment, size_t size) {
    NEXT("memalign", size_t, size_t);
    return is_refused() ? 0 : next(alignment, size);
}

void *aligned_alloc(size_t alignment, size_t size) {
    NEXT("aligned_alloc", size_t, size_t);
    return is_refused() ? 0 : next(alignment, size);
}

int posix_memalign(void **made, size_t alignment, size_t size) {
    static int (*next)(void **, size_t, size_t);
    if (!next) next = (int (*)(void **, size_t, size_t))dlsym(RTLD_NEXT, "posix_memalign");
    return is_refused() ? ENOMEM : next(made, alignment, size);
}

/* The dynamic linker may call calloc itself while this one looks up the next: it is then given bytes of these. */
_Alignas(16) static char early[4096];
static size_t early_used;

void *calloc(size_t count, size_t size) {
    static int is_looking;
    static void *(*next)(size_t, size_t);
    if (is_looking && !next) {
        size_t whole = (count * size + 15) / 16 * 16;
        if (whole > sizeof early - early_used) return 0;
        early_used += whole;
        return early + early_used - whole;
    }
    is_looking = 1;
    if (!next) next = dlsym(RTLD_NEXT, "calloc");
    is_looking = 0;
    return is_refused() ? 0 : next(count, size);
}

void free(void *old) {
    static void (*next)(void *);
    if ((char *)old >= early && (char *)old < early + sizeof early) return;
    if (!next) next = (void (*)(void *))dlsym(RTLD_NEXT, "free");
    next(old);
}
