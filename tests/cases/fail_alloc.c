/* Makes the Nth request for memory of a program fail: preload it with FAIL_ALLOC=N (0: none).
   At the end the count of requests is written to the file that COUNT_ALLOC names, if any. */
#define _GNU_SOURCE
#include <dlfcn.h>
#include <stdio.h>
#include <stdlib.h>

static unsigned long requests;
static unsigned long failing;
static int ready;

__attribute__((constructor)) static void begin(void)
{
    const char *text = getenv("FAIL_ALLOC");
    failing = text ? strtoul(text, NULL, 10) : 0;
    requests = 0;
    ready = 1;
}

__attribute__((destructor)) static void end(void)
{
    const char *name = getenv("COUNT_ALLOC");
    unsigned long count = requests;
    FILE *file;
    ready = 0;
    if (!name || !(file = fopen(name, "w")))
        return;
    fprintf(file, "%lu\n", count);
    fclose(file);
}

static int refused(void)
{
    return ready && ++requests == failing;
}

void *malloc(size_t size)
{
    static void *(*next)(size_t);
    if (!next)
        next = dlsym(RTLD_NEXT, "malloc");
    return refused() ? NULL : next(size);
}

void *realloc(void *old, size_t size)
{
    static void *(*next)(void *, size_t);
    if (!next)
        next = dlsym(RTLD_NEXT, "realloc");
    return refused() ? NULL : next(old, size);
}
