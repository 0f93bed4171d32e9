/* A library for LD_PRELOAD: refuses the requests for memory with the numbers REFUSE_FROM to REFUSE_TO, from 1. */
#define _GNU_SOURCE
#include <dlfcn.h>
#include <errno.h>
#include <stdlib.h>

static void *(*next_malloc)(size_t);
static void *(*next_realloc)(void *, size_t);
static unsigned long from, to, count;

__attribute__((constructor)) static void find_next(void) {
    const char *first = getenv("REFUSE_FROM"), *last = getenv("REFUSE_TO");
    from = first ? strtoul(first, 0, 10) : 0;
    to = last ? strtoul(last, 0, 10) : 0;
    next_malloc = (void *(*)(size_t))dlsym(RTLD_NEXT, "malloc");
    next_realloc = (void *(*)(void *, size_t))dlsym(RTLD_NEXT, "realloc");
    __atomic_store_n(&count, 0, __ATOMIC_SEQ_CST);
}

static int is_refused(void) {
    unsigned long n = __atomic_add_fetch(&count, 1, __ATOMIC_SEQ_CST);
    if (!next_malloc) find_next();
    if (n < from || to < n) return 0;
    errno = ENOMEM;
    return 1;
}

void *malloc(size_t size) { return is_refused() ? 0 : next_malloc(size); }
void *realloc(void *block, size_t size) { return is_refused() ? 0 : next_realloc(block, size); }
