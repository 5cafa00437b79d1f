/*
 * Retries a call that fails twice, by a policy and under a budget, and prints what happens. The clock is the system's.
 *
 *     cc retry.c -I../../include ../../dist/libhikebox.a -o retry && ./retry
 */
#define _POSIX_C_SOURCE 200809L
#include <hikebox.h>
#include <stdio.h>
#include <stdlib.h>
#include <string.h>
#include <time.h>

/* At most five retries, 10, 20, 40.. milliseconds apart, each by up to half longer or shorter. */
static const char policy_json[] = "{\"meet\":[{\"recurs\":5},{\"jitter\":[0,500,1500,{\"exponential\":[10,2]}]}]}";

static void check(hikebox_status status, const char *call) {
    if (status == HIKEBOX_OK) return;
    fprintf(stderr, "%s: %s\n", call, hikebox_status_text(status));
    exit(1);
}

/* The milliseconds since the machine started, rounded up: so a wait that begins as a run ends does not fall short. */
static uint64_t now(void) {
    struct timespec at;
    clock_gettime(CLOCK_MONOTONIC, &at);
    return (uint64_t)at.tv_sec * 1000 + ((uint64_t)at.tv_nsec + 999999) / 1000000;
}

static void sleep_until(uint64_t moment) {
    struct timespec until = {(time_t)(moment / 1000), (long)(moment % 1000) * 1000000};
    while (clock_nanosleep(CLOCK_MONOTONIC, TIMER_ABSTIME, &until, NULL) != 0) {
    }
}

/* Four random words: the same ones in each process, so that this program always waits as long. A program whose processes
 * must not retry all at once takes them from the system, such as by getrandom(). */
static const uint32_t *random_words(void) {
    static uint32_t words[4];
    static uint64_t state = 88172645463325252u;
    for (int lane = 0; lane < 4; lane++) {
        state ^= state << 13;
        state ^= state >> 7;
        state ^= state << 17;
        words[lane] = (uint32_t)(state >> 32);
    }
    return words;
}

/* The call that is retried: it fails with the code 503 twice. */
static bool call(uint64_t *code) {
    static int runs;
    *code = ++runs < 3 ? 503 : 200;
    printf("run %d: %u\n", runs, (unsigned)*code);
    return *code == 200;
}

int main(int count, char **words) {
    if (count > 1) {
        fprintf(stderr, "retry: expected no words, got \"%s\"\n", words[1]);
        return 2;
    }
    hikebox_policy policy = HIKEBOX_INIT;
    hikebox_pass pass = HIKEBOX_INIT;
    hikebox_retry retry = HIKEBOX_INIT;
    hikebox_place place;
    check(hikebox_policy_read(policy_json, strlen(policy_json), &policy, &place), "hikebox_policy_read");
    check(hikebox_budget_fixed(1000, &pass), "hikebox_budget_fixed");
    check(hikebox_retry_new(&policy, &pass, HIKEBOX_NO_DEADLINE, &retry), "hikebox_retry_new");

    hikebox_next next = HIKEBOX_NEXT;
    uint32_t report = HIKEBOX_NO_REPORT;
    uint64_t code = 0;
    for (;;) {
        check(hikebox_retry_poll(&retry, now(), random_words(), report, code, &next), "hikebox_retry_poll");
        report = HIKEBOX_NO_REPORT;
        if (next.what == HIKEBOX_RUN)
            report = call(&code) ? HIKEBOX_WON : HIKEBOX_LOST;
        else if (next.what == HIKEBOX_WAIT)
            sleep_until(next.until);
        else
            break;
    }
    printf("%s after %u runs, %u retries granted\n", next.how == HIKEBOX_ENDED_WON ? "won" : "not won",
           (unsigned)next.runs, (unsigned)next.granted);

    uint64_t tickets;
    check(hikebox_retry_end(&retry, &pass), "hikebox_retry_end");
    check(hikebox_pass_close(&pass, &tickets), "hikebox_pass_close");
    check(hikebox_policy_free(&policy), "hikebox_policy_free");
    printf("%u tickets drawn of the budget\n", (unsigned)tickets);
    return next.how == HIKEBOX_ENDED_WON ? 0 : 1;
}
