/* Makes a read or a write of a program fail, as a plan says that another process writes: preload it
   with FAIL_IO=FILE, which holds the plan and is shared.

   READ and WRITE are of the next peer that the program accepts: the first `place` bytes go through,
   in as many calls as there are, and the next call fails. CALL is the call number `place` on a file
   by its position (pread, pwrite, fsync, fdatasync, ftruncate), and CALLS that one and all that
   follow. An error of 0 is no error: the call moves nothing. */
#define _GNU_SOURCE
#include <errno.h>
#include <fcntl.h>
#include <stdint.h>
#include <stdlib.h>
#include <sys/mman.h>
#include <sys/socket.h>
#include <sys/syscall.h>
#include <sys/uio.h>
#include <unistd.h>

enum { NONE, READ, WRITE, CALL, CALLS };

struct plan {
    int32_t what, error;
    int64_t place, gone, calls;
    int32_t failures, armed;
};

static struct plan *plan;
static int peer = -1;

__attribute__((constructor)) static void begin(void)
{
    const char *name = getenv("FAIL_IO");
    int file = name ? (int)syscall(SYS_openat, AT_FDCWD, name, O_RDWR | O_CLOEXEC) : -1;
    void *held;
    if (file < 0)
        return;
    held = mmap(NULL, sizeof *plan, PROT_READ | PROT_WRITE, MAP_SHARED, file, 0);
    syscall(SYS_close, file);
    plan = held == MAP_FAILED ? NULL : held;
}

static long fail(void)
{
    plan->failures++;
    errno = plan->error;
    return plan->error ? -1 : 0;
}

/* Whether a plan is of this kind, and of this peer. (While a plan is armed its peer has not come:
   the server may still look at the peer before, whose end it has not seen.) */
static int is_of(int what, int number)
{
    return plan && plan->what == what && !plan->armed && number == peer;
}

/* How many of `most` bytes may go: 0 where the call has to fail. */
static size_t room(int what, int number, size_t most)
{
    size_t left;
    if (!is_of(what, number) || plan->failures)
        return most;
    left = plan->place - plan->gone;
    return most < left ? most : left;
}

static long went(int what, int number, long count)
{
    if (is_of(what, number) && count > 0)
        plan->gone += count;
    return count;
}

/* Whether a call on a file has to fail. */
static int is_call(void)
{
    if (!plan || (plan->what != CALL && plan->what != CALLS) || !plan->armed)
        return 0;
    plan->calls++;
    return plan->what == CALL ? plan->calls == plan->place : plan->calls >= plan->place;
}

static int accepted(int number)
{
    if (plan && number >= 0 && plan->armed && (plan->what == READ || plan->what == WRITE)) {
        plan->armed = 0;
        peer = number;
    }
    return number;
}

int accept4(int socket, struct sockaddr *from, socklen_t *length, int flags)
{
    return accepted((int)syscall(SYS_accept4, socket, from, length, flags));
}

int accept(int socket, struct sockaddr *from, socklen_t *length)
{
    return accepted((int)syscall(SYS_accept, socket, from, length));
}

int close(int number)
{
    if (number == peer)
        peer = -1;
    return (int)syscall(SYS_close, number);
}

ssize_t recvfrom(int number, void *into, size_t most, int flags, struct sockaddr *from,
                 socklen_t *length)
{
    size_t some = room(READ, number, most);
    if (most && !some)
        return fail();
    return went(READ, number, syscall(SYS_recvfrom, number, into, some, flags, from, length));
}

ssize_t recv(int number, void *into, size_t most, int flags)
{
    return recvfrom(number, into, most, flags, NULL, NULL);
}

ssize_t read(int number, void *into, size_t most)
{
    size_t some = room(READ, number, most);
    if (most && !some)
        return fail();
    return went(READ, number, syscall(SYS_read, number, into, some));
}

ssize_t sendto(int number, const void *from, size_t most, int flags, const struct sockaddr *to,
               socklen_t length)
{
    size_t some = room(WRITE, number, most);
    if (most && !some)
        return fail();
    return went(WRITE, number, syscall(SYS_sendto, number, from, some, flags, to, length));
}

ssize_t send(int number, const void *from, size_t most, int flags)
{
    return sendto(number, from, most, flags, NULL, 0);
}

ssize_t write(int number, const void *from, size_t most)
{
    size_t some = room(WRITE, number, most);
    if (most && !some)
        return fail();
    return went(WRITE, number, syscall(SYS_write, number, from, some));
}

ssize_t readv(int number, const struct iovec *into, int count)
{
    if (number == peer && count > 0)
        return read(number, into[0].iov_base, into[0].iov_len);
    return syscall(SYS_readv, number, into, count);
}

ssize_t writev(int number, const struct iovec *from, int count)
{
    if (number == peer && count > 0)
        return write(number, from[0].iov_base, from[0].iov_len);
    return syscall(SYS_writev, number, from, count);
}

ssize_t pread64(int file, void *into, size_t most, off64_t at)
{
    return is_call() ? fail() : syscall(SYS_pread64, file, into, most, at);
}

ssize_t pread(int file, void *into, size_t most, off_t at)
{
    return pread64(file, into, most, at);
}

ssize_t pwrite64(int file, const void *from, size_t most, off64_t at)
{
    return is_call() ? fail() : syscall(SYS_pwrite64, file, from, most, at);
}

ssize_t pwrite(int file, const void *from, size_t most, off_t at)
{
    return pwrite64(file, from, most, at);
}

int fsync(int file)
{
    return is_call() ? (int)fail() : (int)syscall(SYS_fsync, file);
}

int fdatasync(int file)
{
    return is_call() ? (int)fail() : (int)syscall(SYS_fdatasync, file);
}

int ftruncate64(int file, off64_t length)
{
    return is_call() ? (int)fail() : (int)syscall(SYS_ftruncate, file, length);
}

int ftruncate(int file, off_t length)
{
    return ftruncate64(file, length);
}
