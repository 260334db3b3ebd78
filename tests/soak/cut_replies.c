/* Cuts a reply of a program at each of its bytes: preload it with CUT_REPLIES=FILE, which holds a
   plan and the reply that is due, and is shared with the process that writes the plan.

   Behind each write to the next peer that the program accepts, the process is copied once for each
   byte that went out, or each `step`th in the reply. To a copy the write says that it took what
   stands before that byte, and the next one fails; where nothing stands before it, the write itself
   does. A copy goes right if what it writes next to the peer is how the reply goes on, if it writes
   no more after the failure, closes the connection, says H2 on the standard error and nothing
   anywhere else, and comes back to wait for other peers, all within some seconds. There it is
   left: what the kernel shares with the process itself (events, sockets, files) no copy touches.
   The process itself goes on with what its write took.

   `most` bounds what a write takes, and `room` what the kernel keeps of it: so a reply goes out in
   many writes. At the byte `lie` a copy is told one byte too many: it has to be found wrong. */
#define _GNU_SOURCE
#include <errno.h>
#include <fcntl.h>
#include <stdint.h>
#include <stdlib.h>
#include <string.h>
#include <sys/epoll.h>
#include <sys/mman.h>
#include <sys/socket.h>
#include <sys/stat.h>
#include <sys/syscall.h>
#include <sys/uio.h>
#include <sys/wait.h>
#include <time.h>
#include <unistd.h>

/* How a copy is left. */
enum { RIGHT = 77, OTHER, MORE, ELSEWHERE, OPEN, UNFAILED, UNSAID, LOST };

struct plan {
    int64_t armed, step, most, room, lie, length;
    int64_t waits, writes, copies, wrong, place, why;
    unsigned char reply[];
};

#define AT_ONCE 3
#define SECONDS 30

static const char due[] = "H2 WriteFailed\n";
static const int errors[] = {EPIPE, ECONNRESET, EIO, ENOMEM, EINTR, 0};
static struct plan *plan;
static unsigned char *reply; /* of the plan: memory that is not shared is copied without faults */
static int peer = -1;
static int64_t gone; /* of the reply */

/* of the process itself */
static struct {
    pid_t process;
    int64_t place;
} copies[AT_ONCE];
static int64_t spent; /* nanoseconds with copies, which its clock leaves out */

/* of a copy */
static int is_copy, has_failed, is_closed;
static char said[64];
static size_t said_length;

__attribute__((constructor)) static void begin(void)
{
    const char *name = getenv("CUT_REPLIES");
    int file = name ? (int)syscall(SYS_openat, AT_FDCWD, name, O_RDWR | O_CLOEXEC) : -1;
    struct stat about;
    void *held;
    if (file < 0 || fstat(file, &about))
        return;
    held = mmap(NULL, about.st_size, PROT_READ | PROT_WRITE, MAP_SHARED, file, 0);
    syscall(SYS_close, file);
    plan = held == MAP_FAILED ? NULL : held;
}

/* ---- a copy */

static void leave(int how)
{
    syscall(SYS_exit_group, how);
    __builtin_unreachable();
}

/* It waits for other peers. */
static void come_back(void)
{
    if (!has_failed)
        leave(UNFAILED);
    if (!is_closed)
        leave(OPEN);
    leave(said_length == sizeof due - 1 && !memcmp(said, due, said_length) ? RIGHT : UNSAID);
}

static ssize_t fail(void)
{
    has_failed = 1;
    errno = errors[gone % (sizeof errors / sizeof *errors)];
    return errno ? -1 : 0;
}

static ssize_t copy_writes(int number, const void *from, size_t most)
{
    if (number == STDERR_FILENO) {
        if (said_length + most > sizeof said)
            leave(UNSAID);
        memcpy(said + said_length, from, most);
        said_length += most;
        return most;
    }
    if (number != peer)
        leave(ELSEWHERE);
    if (has_failed)
        leave(MORE);
    if ((int64_t)most > plan->length - gone || memcmp(reply + gone, from, most))
        leave(OTHER);
    return fail();
}

/* What the write says to the copy that is cut before this byte, where it began at `first`. */
static ssize_t begin_copy(int64_t first, int64_t place)
{
    is_copy = 1;
    gone = place;
    alarm(SECONDS);
    if (place == plan->lie)
        return place - first + 1;
    return place == first ? fail() : place - first;
}

/* ---- the process itself */

static int64_t now(void)
{
    struct timespec at;
    syscall(SYS_clock_gettime, CLOCK_MONOTONIC, &at);
    return at.tv_sec * 1000000000LL + at.tv_nsec;
}

static void gather(int which)
{
    int status = 0, how = LOST;
    if (!copies[which].process)
        return;
    if (waitpid(copies[which].process, &status, 0) > 0 && WIFEXITED(status))
        how = WEXITSTATUS(status);
    copies[which].process = 0;
    if (how == RIGHT)
        return;
    if (!plan->wrong++) {
        plan->place = copies[which].place;
        plan->why = how;
    }
}

/* Copies the process for the bytes of a write that went out: in a copy, what it says there. */
static ssize_t cut_each(ssize_t took)
{
    int64_t first = gone, begun = now(), place;
    int which = 0;
    for (place = first; place < first + took; place++) {
        if (place % plan->step && place != plan->lie)
            continue;
        gather(which);
        copies[which].place = place;
        copies[which].process = fork();
        if (!copies[which].process)
            return begin_copy(first, place);
        plan->copies++;
        which = (which + 1) % AT_ONCE;
    }
    for (which = 0; which < AT_ONCE; which++)
        gather(which);
    gone += took;
    plan->writes++;
    spent += now() - begun;
    return took;
}

static int accepted(int number)
{
    int room;
    if (plan && number >= 0 && plan->armed) {
        plan->armed = 0;
        peer = number;
        gone = 0;
        free(reply);
        reply = malloc(plan->length);
        memcpy(reply, plan->reply, plan->length);
        room = (int)plan->room;
        if (room)
            setsockopt(number, SOL_SOCKET, SO_SNDBUF, &room, sizeof room);
    }
    return number;
}

/* ---- the calls */

int accept4(int socket, struct sockaddr *from, socklen_t *length, int flags)
{
    if (is_copy)
        come_back();
    return accepted((int)syscall(SYS_accept4, socket, from, length, flags));
}

int accept(int socket, struct sockaddr *from, socklen_t *length)
{
    return accept4(socket, from, length, 0);
}

int epoll_pwait(int number, struct epoll_event *events, int most, int timeout, const sigset_t *mask)
{
    if (is_copy)
        come_back();
    return (int)syscall(SYS_epoll_pwait, number, events, most, timeout, mask, _NSIG / 8);
}

int epoll_wait(int number, struct epoll_event *events, int most, int timeout)
{
    return epoll_pwait(number, events, most, timeout, NULL);
}

int epoll_ctl(int number, int what, int which, struct epoll_event *event)
{
    return is_copy ? 0 : (int)syscall(SYS_epoll_ctl, number, what, which, event);
}

int shutdown(int number, int how)
{
    return is_copy ? 0 : (int)syscall(SYS_shutdown, number, how);
}

int close(int number)
{
    if (number == peer) {
        is_closed = 1;
        peer = -1;
    }
    return (int)syscall(SYS_close, number);
}

int clock_gettime(clockid_t clock, struct timespec *at)
{
    int64_t left;
    if (syscall(SYS_clock_gettime, clock, at))
        return -1;
    if (clock == CLOCK_MONOTONIC) {
        left = at->tv_sec * 1000000000LL + at->tv_nsec - spent;
        at->tv_sec = left / 1000000000;
        at->tv_nsec = left % 1000000000;
    }
    return 0;
}

ssize_t sendto(int number, const void *from, size_t most, int flags, const struct sockaddr *to,
               socklen_t length)
{
    ssize_t took;
    if (is_copy)
        return copy_writes(number, from, most);
    if (!plan || number != peer)
        return syscall(SYS_sendto, number, from, most, flags, to, length);
    if (plan->most && most > (size_t)plan->most)
        most = plan->most;
    took = syscall(SYS_sendto, number, from, most, flags, to, length);
    plan->waits += took < 0;
    return took > 0 ? cut_each(took) : took;
}

ssize_t send(int number, const void *from, size_t most, int flags)
{
    return sendto(number, from, most, flags, NULL, 0);
}

ssize_t write(int number, const void *from, size_t most)
{
    if (is_copy || (plan && number == peer))
        return sendto(number, from, most, MSG_NOSIGNAL, NULL, 0);
    return syscall(SYS_write, number, from, most);
}

ssize_t writev(int number, const struct iovec *from, int count)
{
    if ((is_copy || (plan && number == peer)) && count > 0)
        return write(number, from[0].iov_base, from[0].iov_len);
    return syscall(SYS_writev, number, from, count);
}

ssize_t recvfrom(int number, void *into, size_t most, int flags, struct sockaddr *from,
                 socklen_t *length)
{
    /* (to a copy its peer seems to have closed) */
    return is_copy ? 0 : syscall(SYS_recvfrom, number, into, most, flags, from, length);
}

ssize_t recv(int number, void *into, size_t most, int flags)
{
    return recvfrom(number, into, most, flags, NULL, NULL);
}

ssize_t read(int number, void *into, size_t most)
{
    return is_copy ? 0 : syscall(SYS_read, number, into, most);
}

ssize_t pwrite64(int file, const void *from, size_t most, off64_t at)
{
    if (is_copy)
        leave(ELSEWHERE);
    return syscall(SYS_pwrite64, file, from, most, at);
}

ssize_t pwrite(int file, const void *from, size_t most, off_t at)
{
    return pwrite64(file, from, most, at);
}

int ftruncate64(int file, off64_t length)
{
    if (is_copy)
        leave(ELSEWHERE);
    return (int)syscall(SYS_ftruncate, file, length);
}

int ftruncate(int file, off_t length)
{
    return ftruncate64(file, length);
}
