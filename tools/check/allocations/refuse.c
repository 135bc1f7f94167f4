/* Preloaded below a test: counts the allocations (the calls of malloc and realloc) of the process,
   and refuses the Nth, N standing in REFUSE_ALLOCATION; none where that is 0 or absent. Where it
   refused one, it creates the file that REFUSE_MARK names, so that a caller knows that the Nth
   allocation was reached. At the end it writes their number into the file that COUNT_ALLOCATIONS names. */
#define _GNU_SOURCE
#include <dlfcn.h>
#include <errno.h>
#include <fcntl.h>
#include <stddef.h>
#include <stdio.h>
#include <stdlib.h>
#include <unistd.h>

static unsigned long allocations;
static unsigned long refused_one;
static const char *mark;
static const char *count;

__attribute__((constructor)) static void start(void)
{
    const char *number = getenv("REFUSE_ALLOCATION");
    mark = getenv("REFUSE_MARK");
    count = getenv("COUNT_ALLOCATIONS");
    allocations = 0;
    refused_one = number ? strtoul(number, NULL, 10) : 0;
}

__attribute__((destructor)) static void end(void)
{
    char text[32];
    int length = snprintf(text, sizeof text, "%lu\n", allocations);
    if (count) {
        int file = open(count, O_CREAT | O_WRONLY | O_TRUNC, 0600);
        if (file >= 0) {
            ssize_t written = write(file, text, (size_t)length);
            (void)written;
            close(file);
        }
    }
}

static int refuses(void)
{
    if (++allocations != refused_one)
        return 0;
    if (mark) {
        int file = open(mark, O_CREAT | O_WRONLY, 0600);
        if (file >= 0)
            close(file);
    }
    errno = ENOMEM;
    return 1;
}

void *malloc(size_t size)
{
    static void *(*next)(size_t);
    if (!next)
        next = (void *(*)(size_t))dlsym(RTLD_NEXT, "malloc");
    return refuses() ? NULL : next(size);
}

void *realloc(void *old, size_t size)
{
    static void *(*next)(void *, size_t);
    if (!next)
        next = (void *(*)(void *, size_t))dlsym(RTLD_NEXT, "realloc");
    return refuses() ? NULL : next(old, size);
}
