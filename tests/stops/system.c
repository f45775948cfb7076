/* What a system may do to a server that runs, by files that say it now: a clock that is ahead or behind, connections
   that can't be accepted, and reads of few bytes. Built by tests/system_faults.py and preloaded. */

#define _GNU_SOURCE
#include <errno.h>
#include <fcntl.h>
#include <stdlib.h>
#include <sys/socket.h>
#include <sys/syscall.h>
#include <time.h>
#include <unistd.h>

/* The number at the begin of a file that an environment's name names, or 0. */
static long number_in(const char *name, char *more)
{
    char text[32] = {0};
    const char *path = getenv(name);
    int file = path ? syscall(SYS_openat, AT_FDCWD, path, O_RDONLY | O_CLOEXEC) : -1;
    char *end = text;
    long found;
    if (file < 0)
        return 0;
    syscall(SYS_read, file, text, sizeof text - 1);
    syscall(SYS_close, file);
    found = strtol(text, &end, 10);
    if (more)
        *more = *end;
    return found;
}

/* CLOCK_BY: by how many seconds the clock is ahead. */
int clock_gettime(clockid_t clock, struct timespec *now)
{
    int failed = syscall(SYS_clock_gettime, clock, now);
    if (!failed && clock == CLOCK_REALTIME)
        now->tv_sec += number_in("CLOCK_BY", NULL);
    return failed;
}

/* ACCEPTS: the number of the error by which accepting fails, with a ! behind it where it fails once. ACCEPTS_TRIED gets
   a byte for each time. */
static int may_not_accept(void)
{
    char once = 0;
    long number = number_in("ACCEPTS", &once);
    const char *path = getenv("ACCEPTS"), *tried = getenv("ACCEPTS_TRIED");
    int file;
    if (!number)
        return 0;
    file = tried ? syscall(SYS_openat, AT_FDCWD, tried, O_WRONLY | O_CREAT | O_APPEND | O_CLOEXEC, 0600) : -1;
    if (file >= 0) {
        syscall(SYS_write, file, "x", 1);
        syscall(SYS_close, file);
    }
    if (once == '!')
        syscall(SYS_truncate, path, 0);
    errno = number;
    return 1;
}

int accept4(int file, struct sockaddr *restrict from, socklen_t *restrict length, int flags)
{
    return may_not_accept() ? -1 : syscall(SYS_accept4, file, from, length, flags);
}

int accept(int file, struct sockaddr *restrict from, socklen_t *restrict length)
{
    return accept4(file, from, length, 0);
}

/* RECEIVES: how many bytes are received at a time. */
ssize_t recv(int file, void *bytes, size_t count, int flags)
{
    const char *text = getenv("RECEIVES");
    size_t most = text ? atol(text) : 0;
    return syscall(SYS_recvfrom, file, bytes, most && count > most ? most : count, flags, NULL, NULL);
}
