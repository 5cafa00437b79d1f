/*
 * To be loaded before the C library: the clock stands but for sleeps, LATE nanoseconds past a whole millisecond, and goes on
 * to the same part of a millisecond after each. It prints how long each sleep is, in nanoseconds, on file 9.
 */
#define _GNU_SOURCE
#include <stdio.h>
#include <stdlib.h>
#include <time.h>
#include <unistd.h>

static long long now = 5000000000;

static long long late(void) {
    const char *text = getenv("LATE");
    return text ? atoll(text) : 0;
}

int clock_gettime(clockid_t clock, struct timespec *at) {
    (void)clock;
    at->tv_sec = (now + late()) / 1000000000;
    at->tv_nsec = (now + late()) % 1000000000;
    return 0;
}

int clock_nanosleep(clockid_t clock, int flags, const struct timespec *until, struct timespec *left) {
    long long end = until->tv_sec * 1000000000LL + until->tv_nsec;
    (void)clock, (void)flags, (void)left;
    dprintf(9, "%lld\n", end - (now + late()));
    now = end;
    return 0;
}
