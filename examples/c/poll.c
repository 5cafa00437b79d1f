/*
 * A retry inside a loop of poll(): it connects to a port of this machine, again and again, while the loop reads standard
 * input. Nothing blocks but poll() itself.
 *
 *     cc poll.c $(pkg-config --cflags --libs hikebox) -o connect && ./connect 8080
 */
#define _POSIX_C_SOURCE 200809L
#include <arpa/inet.h>
#include <errno.h>
#include <fcntl.h>
#include <hikebox.h>
#include <netinet/in.h>
#include <poll.h>
#include <stdio.h>
#include <stdlib.h>
#include <string.h>
#include <sys/socket.h>
#include <time.h>
#include <unistd.h>

/* At most twenty retries, 50 milliseconds apart. */
static const char policy_json[] = "{\"meet\":[{\"recurs\":20},{\"spaced\":50}]}";

static void check(hikebox_status status) {
    if (status == HIKEBOX_OK) return;
    fprintf(stderr, "hikebox: %s\n", hikebox_status_text(status));
    exit(1);
}

/* The whole milliseconds since the machine started. */
static uint64_t now(void) {
    struct timespec at;
    clock_gettime(CLOCK_MONOTONIC, &at);
    return (uint64_t)at.tv_sec * 1000 + (uint64_t)at.tv_nsec / 1000000;
}

/* Begins to connect, and answers the socket. */
static int begin(uint16_t port) {
    struct sockaddr_in to = {.sin_family = AF_INET, .sin_port = htons(port)};
    int fd = socket(AF_INET, SOCK_STREAM, 0);
    to.sin_addr.s_addr = htonl(INADDR_LOOPBACK);
    if (fd < 0 || fcntl(fd, F_SETFL, O_NONBLOCK) < 0) exit(1);
    if (connect(fd, (struct sockaddr *)&to, sizeof to) < 0 && errno != EINPROGRESS && errno != ECONNREFUSED) exit(1);
    return fd;
}

/* How the connecting ended: 0, or the number of its fault. A socket that connect() itself said is refused has no fault
 * left, and no peer. */
static int fault_of(int fd) {
    struct sockaddr_in peer;
    int fault = 0;
    socklen_t size = sizeof fault, room = sizeof peer;
    if (getsockopt(fd, SOL_SOCKET, SO_ERROR, &fault, &size) < 0) fault = errno;
    if (fault == 0 && getpeername(fd, (struct sockaddr *)&peer, &room) < 0) fault = ECONNREFUSED;
    return fault;
}

static void read_input(struct pollfd *input) {
    char text[256];
    ssize_t length = read(input->fd, text, sizeof text);
    if (length > 0)
        printf("heard %.*s", (int)length, text);
    else
        input->fd = -1;
}

/* The milliseconds to wait for, as poll() takes them. */
static int until(const hikebox_next *next) {
    uint64_t at = now();
    if (next->what != HIKEBOX_WAIT) return -1;
    if (next->until <= at) return 0;
    return next->until - at > 60000 ? 60000 : (int)(next->until - at);
}

/* The port that a word of one to five digits spells, or 0 of another word. */
static uint16_t port_in(const char *word) {
    size_t digits = strspn(word, "0123456789");
    long number = digits < 6 && word[digits] == 0 ? strtol(word, NULL, 10) : 0;
    return number < 65536 ? (uint16_t)number : 0;
}

int main(int count, char **words) {
    uint16_t port = count == 2 ? port_in(words[1]) : 0;
    if (port == 0) {
        fprintf(stderr, "connect: expected one port from 1 to 65535, got \"%s\"\n", count > 1 ? words[count - 1] : "");
        return 2;
    }
    static const uint32_t no_words[4]; /* (this policy has no jitter) */
    hikebox_policy policy = HIKEBOX_INIT;
    hikebox_pass pass = HIKEBOX_INIT;
    hikebox_retry retry = HIKEBOX_INIT;
    hikebox_place place;
    hikebox_next next = HIKEBOX_NEXT;
    check(hikebox_policy_read(policy_json, strlen(policy_json), &policy, &place));
    check(hikebox_pass_unlimited(&pass));
    check(hikebox_retry_new(&policy, &pass, HIKEBOX_NO_DEADLINE, &retry));

    struct pollfd fds[2] = {{.fd = 0, .events = POLLIN}, {.fd = -1, .events = POLLOUT}};
    uint32_t report = HIKEBOX_NO_REPORT;
    uint64_t code = 0, due = 0;
    for (;;) {
        if (fds[1].fd < 0 && now() >= due) { /* no run is under way: what is to be done now? */
            /* (a run's end is rounded up to the next millisecond, so that no wait falls short) */
            uint64_t moment = now() + (report != HIKEBOX_NO_REPORT);
            check(hikebox_retry_poll(&retry, moment, no_words, report, code, &next));
            due = next.what == HIKEBOX_WAIT ? next.until : 0;
            report = HIKEBOX_NO_REPORT;
            if (next.what == HIKEBOX_OVER) break;
            if (next.what == HIKEBOX_RUN) fds[1].fd = begin(port);
        }
        fds[0].revents = fds[1].revents = 0;
        poll(fds, 2, until(&next));
        if (fds[0].revents) read_input(&fds[0]);
        if (fds[1].revents) { /* the run is over: the next poll of the retry reports it */
            code = (uint64_t)fault_of(fds[1].fd);
            report = code == 0 ? HIKEBOX_WON : HIKEBOX_LOST;
            close(fds[1].fd);
            fds[1].fd = -1;
        }
        fflush(stdout);
    }
    printf("%s after %s\n", next.how == HIKEBOX_ENDED_WON ? "connected" : strerror((int)code),
           next.granted > 0 ? "retries" : "one run");
    check(hikebox_retry_end(&retry, &pass));
    check(hikebox_pass_free(&pass));
    check(hikebox_policy_free(&policy));
    return next.how == HIKEBOX_ENDED_WON ? 0 : 1;
}
