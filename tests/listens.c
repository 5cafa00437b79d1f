/*
 * To be loaded before the C library: the second connect() asks a server to listen, by a line on file 8, and goes on once the
 * server has said on file 9 that it does. So the first one is refused, and the second is not, however slow the machine is.
 */
#define _GNU_SOURCE
#include <dlfcn.h>
#include <stdlib.h>
#include <sys/socket.h>
#include <unistd.h>

typedef int connects(int fd, const struct sockaddr *to, socklen_t length);

int connect(int fd, const struct sockaddr *to, socklen_t length) {
    static int count;
    connects *whole;
    char said;
    *(void **)&whole = dlsym(RTLD_NEXT, "connect");
    if (++count == 2 && (write(8, "\n", 1) != 1 || read(9, &said, 1) != 1)) abort();
    return whole(fd, to, length);
}
