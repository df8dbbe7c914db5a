// Refuses one growth of the program that it is laid before: the malloc or realloc of the number in REFUSE, counted from 1. Where it
// does, it writes an R to standard error. Where BUILT names a program, another is let alone: a stand-in of tests/liars runs it.
#include <errno.h>
#include <stdlib.h>
#include <string.h>
#include <unistd.h>

void *__libc_malloc(size_t size);
void *__libc_realloc(void *block, size_t size);

static long left;

__attribute__((constructor)) static void begin(void)
{
    const char *number = getenv("REFUSE"), *built = getenv("BUILT");
    char own[4096];
    ssize_t size = built ? readlink("/proc/self/exe", own, sizeof own - 1) : -1;
    own[size < 0 ? 0 : size] = 0;
    left = number && (!built || strcmp(own, built) == 0) ? atol(number) : 0;
}

static int refuses(void)
{
    if (left == 0 || --left != 0)
        return 0;
    errno = ENOMEM;
    return write(2, "R", 1) == 1;
}

void *malloc(size_t size)
{
    return refuses() ? NULL : __libc_malloc(size);
}

void *realloc(void *block, size_t size)
{
    return refuses() ? NULL : __libc_realloc(block, size);
}
