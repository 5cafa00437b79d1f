/*
 * To be loaded before the C library: connect() waits until the connection is made or refused, and says so itself, as it
 * may do for a socket that does not block.
 */
#define _GNU_SOURCE
#include <dlfcn.h>
#include <errno.h>
#include <poll.h>
#include <sys/socket.h>

typedef int connects(int fd, const struct sockaddr *to, socklen_t length);

int connect(int fd, const struct sockaddr *to, socklen_t length) {
    connects *whole;
    *(void **)&whole = dlsym(RTLD_NEXT, "connect");
    if (whole(fd, to, length) == 0) return 0;
    struct pollfd is_done = {.fd = fd, .events = POLLOUT};
    int fault = errno;
    socklen_t size = sizeof fault;
    if (fault == EINPROGRESS && poll(&is_done, 1, -1) == 1) getsockopt(fd, SOL_SOCKET, SO_ERROR, &fault, &size);
    errno = fault;
    return fault == 0 ? 0 : -1;
}
