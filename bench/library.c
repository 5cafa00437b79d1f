// Does through the library what `bench draw` and `bench retry` do inside:
//   draw DRAWS            draws of one budget
//   breaker REQUESTS      requests that a closed breaker admits, and that succeed and end
//   retry PLAN ROUNDS     a round is a retry whose run fails each time and is granted again, a thousand times: a call each
//   step PLAN ROUNDS      a round is a course of the plan, of a thousand events
//   wait PLAN ROUNDS      a round is a thousand polls of a retry that waits
//   call ON CALLS         a function called with no retry
//   success ON CALLS      calls that succeed at once
//   granted ON CALLS      one call whose retries are granted, with no wait
//   refused ON CALLS      calls that fail, and are refused a retry
// PLAN is spaced or pair, as theirs; ON is nothing, budget or quota, as `bench call`'s. It prints a count and no time; a script measures it from outside.
#include <hikebox.h>
#include <stdio.h>
#include <stdlib.h>
#include <string.h>

#define ROUND 1000
#define CODE 7

static const uint32_t words[4] = {0, 0, 0, 0};

static void check(hikebox_status status) {
    if (status == HIKEBOX_OK) return;
    fprintf(stderr, "status %u\n", status);
    exit(1);
}

static void read_plan(const char *name, hikebox_policy *policy) {
    const char *json = "{\"spaced\":1}";
    if (strcmp(name, "pair") == 0) json = "{\"meet\":[{\"recurs\":4611686018427387903},{\"spaced\":1}]}";
    hikebox_place place;
    check(hikebox_policy_read(json, strlen(json), policy, &place));
}

static uint64_t draw(uint64_t draws) {
    hikebox_pass pass = HIKEBOX_INIT;
    uint64_t ticket, tickets;
    check(hikebox_budget_fixed(draws, &pass));
    for (uint64_t turn = 0; turn < draws; turn++)
        check(hikebox_pass_draw(&pass, 0, &ticket));
    check(hikebox_pass_close(&pass, &tickets));
    return tickets;
}

static uint64_t breaker(uint64_t requests) {
    hikebox_limit limit = HIKEBOX_INIT;
    const hikebox_breaker terms = HIKEBOX_BREAKER;
    const uint64_t open_for = 30000;
    uint64_t number;
    check(hikebox_breaker_new(0, &terms, &open_for, 1, &limit));
    for (uint64_t turn = 0; turn < requests; turn++) {
        check(hikebox_limit_admit(&limit, turn, 0, &number));
        check(hikebox_limit_succeeded(&limit, turn));
        check(hikebox_limit_ended(&limit));
    }
    check(hikebox_limit_free(&limit));
    return requests;
}

static uint64_t retry(hikebox_policy *policy) {
    hikebox_pass pass = HIKEBOX_INIT;
    hikebox_retry machine = HIKEBOX_INIT;
    hikebox_next next = HIKEBOX_NEXT;
    uint64_t tickets;
    check(hikebox_budget_fixed(ROUND, &pass));
    check(hikebox_retry_new(policy, &pass, HIKEBOX_NO_DEADLINE, &machine));
    for (uint64_t now = 0; now < ROUND; now++) {
        const hikebox_run run = {now, now, CODE, HIKEBOX_LOST, {0, 0, 0, 0}};
        check(hikebox_retry_ran(&machine, &run, &next));
    }
    check(hikebox_retry_end(&machine, &pass));
    check(hikebox_pass_close(&pass, &tickets));
    return tickets;
}

static uint64_t step(hikebox_policy *policy) {
    static hikebox_line lines[ROUND];
    const hikebox_course course = {sizeof course, ROUND, 0, 0};
    const hikebox_event event = {CODE, {0, 0, 0, 0}};
    size_t events;
    check(hikebox_policy_course(policy, &course, &event, 1, lines, ROUND, &events));
    return events;
}

static uint64_t wait_for_it(hikebox_policy *policy) {
    hikebox_pass pass = HIKEBOX_INIT;
    hikebox_retry machine = HIKEBOX_INIT;
    hikebox_next next = HIKEBOX_NEXT;
    uint64_t waits = 0;
    check(hikebox_budget_fixed(1, &pass));
    check(hikebox_retry_new(policy, &pass, HIKEBOX_NO_DEADLINE, &machine));
    check(hikebox_retry_poll(&machine, 0, words, HIKEBOX_NO_REPORT, 0, &next));
    check(hikebox_retry_poll(&machine, 0, words, HIKEBOX_LOST, CODE, &next));
    for (uint64_t turn = 0; turn < ROUND; turn++) {
        check(hikebox_retry_poll(&machine, 0, words, HIKEBOX_NO_REPORT, 0, &next));
        waits += next.what == HIKEBOX_WAIT;
    }
    check(hikebox_retry_end(&machine, &pass));
    check(hikebox_pass_free(&pass));
    return waits;
}

// What calls are retried by.
struct on {
    hikebox_policy policy;
    hikebox_pass pass;
    // Whether requests are counted, as on a quota.
    bool counts;
};

// An attempt: it succeeds where none is to fail any more.
__attribute__((noinline)) static bool attempt(uint64_t *state, uint64_t left) {
    *state = *state * UINT64_C(6364136223846793005) + UINT64_C(1442695040888963407);
    return left == 0;
}

// The retry of a call whose first run has failed, which began at moment 0: it fails so often more. How many were granted.
__attribute__((noinline)) static uint64_t retried(struct on *on, uint64_t *state, uint64_t left) {
    hikebox_retry machine = HIKEBOX_INIT;
    hikebox_next next = HIKEBOX_NEXT;
    check(hikebox_retry_new(&on->policy, &on->pass, HIKEBOX_NO_DEADLINE, &machine));
    const hikebox_run first = {0, 0, CODE, HIKEBOX_LOST, {0, 0, 0, 0}};
    check(hikebox_retry_ran(&machine, &first, &next));
    while (next.what == HIKEBOX_RUN && !attempt(state, left--))
        check(hikebox_retry_poll(&machine, 0, words, HIKEBOX_LOST, CODE, &next));
    check(hikebox_retry_end(&machine, &on->pass));
    return next.granted;
}

// A call that fails so often and then succeeds: the retry is begun where the first run fails. How many were granted.
static uint64_t call(struct on *on, uint64_t *state, uint64_t failures) {
    if (on->counts) check(hikebox_pass_deposit(&on->pass, 0, 1));
    return attempt(state, failures) ? 0 : retried(on, state, failures - 1);
}

static uint64_t calls(const char *what, const char *name, uint64_t many) {
    struct on on = {HIKEBOX_INIT, HIKEBOX_INIT, name[0] == 'q'};
    uint64_t state = 1, done = 0, tickets = what[0] == 'r' ? 0 : HIKEBOX_MAX_TICKETS;
    hikebox_place place;
    check(hikebox_policy_read("\"forever\"", 9, &on.policy, &place));
    if (name[0] == 'b')
        check(hikebox_budget_fixed(tickets, &on.pass));
    else if (on.counts)
        check(hikebox_quota_new(0, tickets, 0, 1000, false, &on.pass));
    else
        check(hikebox_pass_unlimited(&on.pass));
    if (what[0] == 'c')
        for (uint64_t turn = 0; turn < many; turn++)
            done += attempt(&state, 0);
    else if (what[0] == 'g')
        done = call(&on, &state, many);
    else
        for (uint64_t turn = 0; turn < many; turn++)
            done += call(&on, &state, what[0] == 'r');
    check(hikebox_pass_free(&on.pass));
    check(hikebox_policy_free(&on.policy));
    return done + (state == 0);
}

static bool is_one_of(const char *word, const char *names) {
    return strstr(names, word) != NULL;
}

int main(int count, char **arguments) {
    uint64_t done = 0;
    if (count == 3 && strcmp(arguments[1], "draw") == 0) {
        done = draw(strtoull(arguments[2], 0, 10));
    } else if (count == 3 && strcmp(arguments[1], "breaker") == 0) {
        done = breaker(strtoull(arguments[2], 0, 10));
    } else if (count == 4 && is_one_of(arguments[2], "nothing budget quota")) {
        done = calls(arguments[1], arguments[2], strtoull(arguments[3], 0, 10));
    } else if (count == 4) {
        hikebox_policy policy = HIKEBOX_INIT;
        const char *what = arguments[1];
        uint64_t rounds = strtoull(arguments[3], 0, 10);
        read_plan(arguments[2], &policy);
        for (uint64_t round = 0; round < rounds; round++)
            done += what[0] == 'r' ? retry(&policy) : what[0] == 's' ? step(&policy) : wait_for_it(&policy);
        check(hikebox_policy_free(&policy));
    }
    printf("%llu\n", (unsigned long long)done);
    return 0;
}
