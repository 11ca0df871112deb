// Loaded before a program, it lets standard output take FAILING_AFTER bytes. Behind them, as FAILING_AS says, each write fails
// (fail), takes nothing (none) or takes one byte (bytes), or one write is interrupted (interrupt).
#define _GNU_SOURCE
#include <dlfcn.h>
#include <errno.h>
#include <stdlib.h>
#include <string.h>
#include <unistd.h>

static size_t taken;
static int was_interrupted;

static ssize_t passed_on(int file, const void *bytes, size_t count) {
    static ssize_t (*usual)(int, const void *, size_t);
    if (!usual)
        usual = (ssize_t(*)(int, const void *, size_t))dlsym(RTLD_NEXT, "write");
    ssize_t done = usual(file, bytes, count);
    if (file == 1 && done > 0)
        taken += done;
    return done;
}

ssize_t write(int file, const void *bytes, size_t count) {
    const char *text = getenv("FAILING_AFTER"), *as = getenv("FAILING_AS");
    size_t before = text ? strtoul(text, NULL, 10) : 0;
    if (file != 1 || count == 0 || !text || !as)
        return passed_on(file, bytes, count);
    if (taken < before)
        return passed_on(file, bytes, count < before - taken ? count : before - taken);
    if (!strcmp(as, "bytes"))
        return passed_on(file, bytes, 1);
    if (!strcmp(as, "none"))
        return 0;
    if (!strcmp(as, "interrupt")) {
        if (was_interrupted)
            return passed_on(file, bytes, count);
        was_interrupted = 1;
    }
    errno = strcmp(as, "interrupt") ? EIO : EINTR;
    return -1;
}
