/* What a program asked of the system and what it was answered, as a record: preloaded (LD_PRELOAD), so that it stands before the C library.
 *
 *   RECORD=FILE        gets a line for each call: the nanoseconds of the true clock, the call's name, what was asked, `=`, the answer,
 *                      and the bytes, if some were carried, as hexadecimal digits
 *   CONDUCTOR=SOCKET   the true clock is a conductor's (conductor.py), who listens there. It stands still but for what the conductor says.
 *                      The program never waits by itself: it tells him until when it would, and goes on when he lets it. Else the true
 *                      clock is the system's
 *   RECORD_CUT=N       the program is killed when it has sent its Nth datagram
 *
 * A line is one of
 *
 *   NS clock = 0
 *   NS wait LIMIT = COUNT                    for datagrams and clients, in milliseconds
 *   NS sleep MS = 0
 *   NS sendto PORT TO_PORT = COUNT HEX       before it is sent
 *   NS unsent PORT TO_PORT = COUNT           where it was not sent whole after all
 *   NS recvfrom PORT FROM_PORT = COUNT HEX
 *   NS accept = FD                           a client
 *   NS recv = COUNT HEX, NS send = COUNT HEX its line, and the answer
 *   NS write FD = COUNT HEX
 *
 * The conductor is told the milliseconds of the clock until which the program waits, how many datagrams it sent since it was last let go,
 * and whether it did anything. He answers with the milliseconds of now, and how many of the datagrams that it sends next are lost. The
 * program is not told that. */
#define _GNU_SOURCE
#include <errno.h>
#include <fcntl.h>
#include <signal.h>
#include <stdarg.h>
#include <stdio.h>
#include <stdlib.h>
#include <string.h>
#include <sys/epoll.h>
#include <sys/socket.h>
#include <sys/syscall.h>
#include <sys/un.h>
#include <time.h>
#include <unistd.h>

#include "../../support/ports.h"

enum { LONGEST = 65536 };

static struct { long deadline, sent, did; } told;
static struct { long now, losses; } heard;

/* The conductor's socket, or -1 if the clock is the system's. */
static int conductor(void)
{
    static int opened = -2;
    const char *path = getenv("CONDUCTOR");
    struct sockaddr_un address = {.sun_family = AF_UNIX};
    if (opened != -2) return opened;
    opened = -1;
    if (!path) return opened;
    strncpy(address.sun_path, path, sizeof address.sun_path - 1);
    opened = socket(AF_UNIX, SOCK_SEQPACKET | SOCK_CLOEXEC, 0);
    if (connect(opened, (struct sockaddr *)&address, sizeof address) || read(opened, &heard, sizeof heard) != sizeof heard) _exit(99);
    return opened;
}

/* Waits until the conductor lets it go on. */
static void yield(long deadline, int did)
{
    told.deadline = deadline;
    told.did = did;
    if (syscall(SYS_write, conductor(), &told, sizeof told) != sizeof told || read(conductor(), &heard, sizeof heard) != sizeof heard) _exit(99);
    told.sent = 0;
}

/* The true clock. */
static struct timespec true_time(void)
{
    struct timespec time = {0};
    if (conductor() < 0) syscall(SYS_clock_gettime, CLOCK_MONOTONIC, &time);
    else time = (struct timespec){heard.now / 1000, heard.now % 1000 * 1000000};
    return time;
}

static void note(const void *bytes, long count, const char *format, ...)
{
    static int file = -2;
    static char line[256 + 2 * LONGEST];
    struct timespec time = true_time();
    int error = errno, length = sprintf(line, "%ld%09ld ", time.tv_sec, time.tv_nsec);
    va_list values;
    if (file == -2) file = getenv("RECORD") ? open(getenv("RECORD"), O_WRONLY | O_CREAT | O_APPEND | O_CLOEXEC, 0600) : -1;
    if (file < 0) return (void)(errno = error);
    va_start(values, format);
    length += vsprintf(line + length, format, values);
    va_end(values);
    if (count > 0) line[length++] = ' ';
    for (long at = 0; at < count; at++) length += sprintf(line + length, "%02x", ((const unsigned char *)bytes)[at]);
    line[length++] = '\n';
    syscall(SYS_write, file, line, length);
    errno = error;
}

int clock_gettime(clockid_t clock, struct timespec *time)
{
    (void)clock;
    *time = true_time();
    note(NULL, 0, "clock = 0");
    return 0;
}

int epoll_wait(int set, struct epoll_event *events, int most, int limit)
{
    long answer = syscall(SYS_epoll_wait, set, events, most, conductor() < 0 ? limit : 0);
    if (conductor() >= 0 && limit > 0) {
        long deadline = heard.now + limit;
        for (int did = 1; answer == 0 && heard.now < deadline; did = 0) {
            yield(deadline, did);
            answer = syscall(SYS_epoll_wait, set, events, most, 0);
        }
    }
    note(NULL, 0, "wait %d = %ld", limit, answer);
    return answer;
}

int nanosleep(const struct timespec *span, struct timespec *left)
{
    long ms = span->tv_sec * 1000 + span->tv_nsec / 1000000;
    if (conductor() < 0) syscall(SYS_nanosleep, span, left);
    else for (long deadline = heard.now + ms, did = 1; heard.now < deadline; did = 0) yield(deadline, did);
    note(NULL, 0, "sleep %ld = 0", ms);
    return 0;
}

/* Ends the program if it has sent as many datagrams as it may. */
static void cut(void)
{
    static long sent;
    const char *most = getenv("RECORD_CUT");
    if (most && ++sent == atol(most)) kill(getpid(), SIGKILL);
}

/* The line stands before the datagram can come anywhere. */
ssize_t sendto(int fd, const void *bytes, size_t length, int flags, const struct sockaddr *to, socklen_t size)
{
    long answer = length;
    note(bytes, length, "sendto %d %d = %zu", port_at(fd), port_of(to), length);
    told.sent++;
    if (heard.losses > 0) heard.losses--;
    else answer = syscall(SYS_sendto, fd, bytes, length, flags, to, size);
    if (answer != (long)length) note(NULL, 0, "unsent %d %d = %ld", port_at(fd), port_of(to), answer);
    cut();
    return answer;
}

ssize_t recvfrom(int fd, void *bytes, size_t room, int flags, struct sockaddr *from, socklen_t *size)
{
    long answer = syscall(SYS_recvfrom, fd, bytes, room, flags, from, size);
    note(bytes, answer, "recvfrom %d %d = %ld", port_at(fd), answer < 0 ? 0 : port_of(from), answer);
    return answer;
}

int accept4(int fd, struct sockaddr *from, socklen_t *size, int flags)
{
    long answer = syscall(SYS_accept4, fd, from, size, flags);
    note(NULL, 0, "accept = %ld", answer);
    return answer;
}

ssize_t recv(int fd, void *bytes, size_t room, int flags)
{
    long answer = syscall(SYS_recvfrom, fd, bytes, room, flags, NULL, NULL);
    note(bytes, answer, "recv = %ld", answer);
    return answer;
}

ssize_t send(int fd, const void *bytes, size_t length, int flags)
{
    long answer = syscall(SYS_sendto, fd, bytes, length, flags, NULL, 0);
    note(bytes, answer, "send = %ld", answer);
    return answer;
}

ssize_t write(int fd, const void *bytes, size_t length)
{
    long answer = syscall(SYS_write, fd, bytes, length);
    note(bytes, answer < LONGEST ? answer : 0, "write %d = %ld", fd, answer);
    return answer;
}
