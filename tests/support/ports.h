/* The UDP ports of addresses and of sockets, for the libraries that tests preload. */
#include <errno.h>
#include <netinet/in.h>
#include <sys/socket.h>
#include <sys/syscall.h>
#include <unistd.h>

static int port_of(const void *address) { return ntohs(((const struct sockaddr_in *)address)->sin_port); }

static int port_at(int fd)
{
    struct sockaddr_in address = {0};
    socklen_t length = sizeof address;
    int error = errno;
    syscall(SYS_getsockname, fd, &address, &length);
    errno = error;
    return port_of(&address);
}
