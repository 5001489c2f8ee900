/* What the system answers a program, as a test orders it: preloaded (LD_PRELOAD), so that it stands before the C library.
 *
 *   SYSTEM_LOG=FILE    gets a line for each call that is watched: the clock's milliseconds, its name, what it was asked, its answer
 *   SYSTEM_READINGS=1  the readings of the clock are watched, too
 *   SYSTEM_CLOCK=N     the clock is the test's own: it begins at 0, goes on by what is slept, by waits in which nothing comes, and by N
 *                      milliseconds behind each reading. `still` never goes on
 *   SYSTEM_GATE=FILE   the first wait for datagrams is held back until there is such a file
 *   SYSTEM_AGAIN=N     the first datagram that comes is there N times again
 *   SYSTEM_LENGTH=N    it has N bytes, zeros behind those that came
 *   SYSTEM_FAIL=NAME:FIRST:COUNT:ERROR,..   of the calls of a name so many fail, from the FIRST on, with that number of an error
 *
 * Watched are bind, accept, sendto, recvfrom, wait (of epoll), sleep, write1, write2 and write3 (to standard output, standard error, and any
 * file), recv and send (of a connection); and in SYSTEM_FAIL alone clock, the readings of the clock, and list and listed, which make the
 * system's list of sockets to wait at and put one into it. */
#define _GNU_SOURCE
#include <errno.h>
#include <fcntl.h>
#include <stdarg.h>
#include <stdio.h>
#include <stdlib.h>
#include <string.h>
#include <sys/epoll.h>
#include <sys/socket.h>
#include <sys/syscall.h>
#include <time.h>
#include <unistd.h>

#include "../support/ports.h"

enum call { BIND, ACCEPT, SENDTO, RECVFROM, WAIT, SLEEP, CLOCK, WRITE1, WRITE2, WRITE3, RECV, SEND, LIST, LISTED, CALLS };
static const char *const names[CALLS] = {
    "bind", "accept", "sendto", "recvfrom", "wait", "sleep", "clock", "write1", "write2", "write3", "recv", "send", "list", "listed"};
static long counts[CALLS];
static long now_ms;

/* The moment by the test's own clock, or else by the system's. */
static long moment(void)
{
    struct timespec time = {0};
    if (getenv("SYSTEM_CLOCK")) return now_ms;
    syscall(SYS_clock_gettime, CLOCK_MONOTONIC, &time);
    return time.tv_sec * 1000 + time.tv_nsec / 1000000;
}

static void note(enum call call, const char *format, ...)
{
    static int file = -2;
    char line[256];
    int error = errno;
    int length = snprintf(line, sizeof line, "%ld %s ", moment(), names[call]);
    va_list values;
    if (file == -2) file = getenv("SYSTEM_LOG") ? open(getenv("SYSTEM_LOG"), O_WRONLY | O_CREAT | O_APPEND | O_CLOEXEC, 0600) : -1;
    if (file < 0) return (void)(errno = error);
    va_start(values, format);
    length += vsnprintf(line + length, sizeof line - length, format, values);
    va_end(values);
    line[length++] = '\n';
    syscall(SYS_write, file, line, length);
    errno = error;
}

/* Whether a call is one of those that fail; it is counted. */
static int fails(enum call call)
{
    const char *order = getenv("SYSTEM_FAIL");
    long number = ++counts[call];
    for (; order && *order; order = strchr(order, ',') ? strchr(order, ',') + 1 : NULL) {
        char name[16];
        long first, count;
        int error;
        if (sscanf(order, "%15[^:]:%ld:%ld:%d", name, &first, &count, &error) != 4 || strcmp(name, names[call])) continue;
        if (number >= first && number < first + count) return errno = error, 1;
    }
    return 0;
}

int bind(int fd, const struct sockaddr *address, socklen_t length)
{
    long answer;
    if (address->sa_family != AF_INET) return syscall(SYS_bind, fd, address, length);
    answer = fails(BIND) ? -1 : syscall(SYS_bind, fd, address, length);
    note(BIND, "%d = %ld", port_of(address), answer);
    return answer;
}

int accept4(int fd, struct sockaddr *from, socklen_t *size, int flags)
{
    long answer = fails(ACCEPT) ? -1 : syscall(SYS_accept4, fd, from, size, flags);
    note(ACCEPT, "= %ld", answer);
    return answer;
}

ssize_t sendto(int fd, const void *bytes, size_t length, int flags, const struct sockaddr *to, socklen_t size)
{
    long answer = fails(SENDTO) ? -1 : syscall(SYS_sendto, fd, bytes, length, flags, to, size);
    note(SENDTO, "%d %d %zu = %ld", port_at(fd), port_of(to), length, answer);
    return answer;
}

/* The first datagram that came, and how often it is still there. */
static struct { char bytes[65536]; struct sockaddr_in from; long length; int port; long left; } first = {.left = -1};

static long number_of(const char *order) { return getenv(order) ? atol(getenv(order)) : 0; }

static void keep_first(int port, const void *bytes, long length, const struct sockaddr *from)
{
    memcpy(first.bytes, bytes, length);
    memcpy(&first.from, from, sizeof first.from);
    first.length = number_of("SYSTEM_LENGTH") ? number_of("SYSTEM_LENGTH") : length;
    first.port = port;
    first.left = number_of("SYSTEM_AGAIN") + 1;
}

static long receive(int fd, void *bytes, size_t room, int flags, struct sockaddr *from, socklen_t *size)
{
    if (first.left <= 0 || first.port != port_at(fd)) {
        long answer = syscall(SYS_recvfrom, fd, bytes, room, flags, from, size);
        if (answer < 0 || first.left >= 0) return answer;
        keep_first(port_at(fd), bytes, answer, from);
    }
    first.left--;
    memcpy(bytes, first.bytes, first.length < (long)room ? first.length : (long)room);
    memcpy(from, &first.from, *size = sizeof first.from);
    return first.length;
}

ssize_t recvfrom(int fd, void *bytes, size_t room, int flags, struct sockaddr *from, socklen_t *size)
{
    long answer = fails(RECVFROM) ? -1 : receive(fd, bytes, room, flags, from, size);
    note(RECVFROM, "%d %zu = %ld", port_at(fd), room, answer);
    return answer;
}

static void pause_for(long ms)
{
    struct timespec span = {ms / 1000, ms % 1000 * 1000000};
    syscall(SYS_nanosleep, &span, NULL);
}

static void go_on(long ms)
{
    if (strcmp(getenv("SYSTEM_CLOCK"), "still")) now_ms += ms;
}

int epoll_create1(int flags) { return fails(LIST) ? -1 : syscall(SYS_epoll_create1, flags); }

int epoll_ctl(int set, int order, int fd, struct epoll_event *event)
{
    return fails(LISTED) ? -1 : syscall(SYS_epoll_ctl, set, order, fd, event);
}

int epoll_wait(int set, struct epoll_event *events, int most, int limit)
{
    const char *gate = getenv("SYSTEM_GATE");
    int own = getenv("SYSTEM_CLOCK") != NULL;
    long answer;
    while (gate && counts[WAIT] == 0 && access(gate, F_OK)) pause_for(1);
    answer = fails(WAIT) ? -1 : syscall(SYS_epoll_wait, set, events, most, own ? 0 : limit);
    note(WAIT, "%d = %ld", limit, answer);
    if (own && answer == 0) go_on(limit);
    return answer;
}

int nanosleep(const struct timespec *span, struct timespec *left)
{
    long ms = span->tv_sec * 1000 + span->tv_nsec / 1000000;
    note(SLEEP, "%ld = 0", ms);
    if (!getenv("SYSTEM_CLOCK")) return syscall(SYS_nanosleep, span, left);
    go_on(ms);
    return 0;
}

int clock_gettime(clockid_t clock, struct timespec *time)
{
    const char *own = getenv("SYSTEM_CLOCK");
    if (getenv("SYSTEM_READINGS")) note(CLOCK, "= 0");
    if (fails(CLOCK)) return -1;
    if (!own) return syscall(SYS_clock_gettime, clock, time);
    time->tv_sec = now_ms / 1000;
    time->tv_nsec = now_ms % 1000 * 1000000;
    go_on(atol(own));
    return 0;
}

ssize_t write(int fd, const void *bytes, size_t length)
{
    enum call call = fd == 1 ? WRITE1 : fd == 2 ? WRITE2 : WRITE3;
    long answer = fails(call) ? -1 : syscall(SYS_write, fd, bytes, length);
    note(call, "%zu = %ld", length, answer);
    return answer;
}

ssize_t recv(int fd, void *bytes, size_t room, int flags)
{
    long answer = fails(RECV) ? -1 : syscall(SYS_recvfrom, fd, bytes, room, flags, NULL, NULL);
    note(RECV, "%zu = %ld", room, answer);
    return answer;
}

ssize_t send(int fd, const void *bytes, size_t length, int flags)
{
    long answer = fails(SEND) ? -1 : syscall(SYS_sendto, fd, bytes, length, flags, NULL, 0);
    note(SEND, "%zu = %ld", length, answer);
    return answer;
}
