// Each fsync and fdatasync of a program takes so many milliseconds more, as on a slower disk, and
// writes a byte to a file: to be preloaded.

#define _GNU_SOURCE
#include <dlfcn.h>
#include <errno.h>
#include <fcntl.h>
#include <stdlib.h>
#include <time.h>
#include <unistd.h>

static int slowed(const char *name, int file) {
    static int log = -1;
    int (*real)(int) = (int (*)(int))dlsym(RTLD_NEXT, name);
    int answer = real(file), fault = errno;
    long more = atol(getenv("SYNC_MORE"));
    struct timespec left = {more / 1000, more % 1000 * 1000000};
    while (nanosleep(&left, &left) != 0) {
    }
    if (log < 0)
        log = open(getenv("SYNC_LOG"), O_WRONLY | O_CREAT | O_APPEND | O_CLOEXEC, 0600);
    if (log < 0 || write(log, ".", 1) != 1)
        abort();
    errno = fault;
    return answer;
}

int fsync(int file) { return slowed("fsync", file); }

int fdatasync(int file) { return slowed("fdatasync", file); }
