// Preloaded into a program, it lets the allocation with the number REFUSED_GROWTH, counted from 1, fail. If the program makes fewer
// allocations, it ends with status 99.
#include <stdlib.h>
#include <unistd.h>

extern void *__libc_malloc(size_t size);
extern void *__libc_realloc(void *block, size_t size);

static long growths;

static long wanted(void) {
    const char *text = getenv("REFUSED_GROWTH");
    return text ? atol(text) : 0;
}

static int is_refused(void) { return ++growths == wanted(); }

void *malloc(size_t size) { return is_refused() ? NULL : __libc_malloc(size); }

void *realloc(void *block, size_t size) { return is_refused() ? NULL : __libc_realloc(block, size); }

__attribute__((destructor)) static void end(void) {
    if (growths < wanted())
        _exit(99);
}
