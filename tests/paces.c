// Paces: rows worked out by hand, each refusal, other kinds of handles, a store's word, and four threads that take.
#include "checks.h"
#include <pthread.h>

// The end of a pace's clock: 2^51 - 1 ms.
#define CLOCK_ENDS UINT64_C(2251799813685247)

// A take, which may begin at this moment or is refused, and then that is told.
static void takes_at(const char *file, int line, hikebox_pace *pace, uint64_t now, uint64_t cost, hikebox_status wanted,
                     uint64_t moment) {
    uint64_t at = 77;
    wants_at(file, line, hikebox_pace_take(pace, now, cost, &at), wanted);
    holds_at(file, line, at == moment);
}
#define takes(pace, now, cost, wanted, moment) takes_at(__FILE__, __LINE__, pace, now, cost, wanted, moment)

static void gives_at(const char *file, int line, hikebox_pace *pace, bool wanted) {
    bool given = !wanted;
    wants_at(file, line, hikebox_pace_give_back(pace, &given), HIKEBOX_OK);
    holds_at(file, line, given == wanted);
}
#define gives(pace, wanted) gives_at(__FILE__, __LINE__, pace, wanted)

static void sees_at(const char *file, int line, hikebox_pace *pace, uint64_t now, uint64_t moment) {
    uint64_t at = 77;
    wants_at(file, line, hikebox_pace_seen(pace, now, &at), HIKEBOX_OK);
    holds_at(file, line, at == moment);
}
#define sees(pace, now, moment) sees_at(__FILE__, __LINE__, pace, now, moment)

// Ten a second, three at once, and no wait above 250 ms.
static void ten_a_second(void) {
    hikebox_pace pace = HIKEBOX_INIT, other = HIKEBOX_INIT;
    wants(hikebox_pace_new(100000, 3, 250, &pace), HIKEBOX_OK);
    wants(hikebox_pace_split(&pace, &other), HIKEBOX_OK);
    sees(&pace, 0, 0);
    sees(&pace, 17, 17);
    for (int at = 0; at < 3; at++)
        takes(at == 1 ? &other : &pace, 0, 1, HIKEBOX_OK, 0);
    sees(&pace, 0, 100);
    takes(&pace, 0, 1, HIKEBOX_OK, 100);
    takes(&other, 0, 1, HIKEBOX_OK, 200);
    takes(&pace, 0, 1, HIKEBOX_TOO_SOON, 50);
    takes(&pace, 49, 1, HIKEBOX_TOO_SOON, 50);
    sees(&pace, 0, 300);
    takes(&pace, 50, 1, HIKEBOX_OK, 300);
    takes(&pace, 50, 1, HIKEBOX_TOO_SOON, 150);
    // The take that begins at 200 is not the last one: it stays taken.
    gives(&other, false);
    takes(&pace, 150, 1, HIKEBOX_OK, 400);
    gives(&pace, true);
    gives(&pace, false);
    takes(&pace, 150, 1, HIKEBOX_OK, 400);
    takes(&pace, 5000, 1, HIKEBOX_OK, 5000);
    // A clock that is behind, or goes back, uses no time again. What was refused does not come back, nor what was taken
    // before it.
    takes(&other, 4900, 1, HIKEBOX_OK, 4900);
    takes(&pace, 4000, 1, HIKEBOX_TOO_SOON, 4750);
    gives(&pace, false);
    sees(&pace, 5000, 5000);
    gives(&other, true);
    sees(&pace, 4900, 4900);
    wants(hikebox_pace_free(&other), HIKEBOX_OK);
    wants(hikebox_pace_free(&pace), HIKEBOX_OK);
}

// Three a second: moments are rounded up.
static void three_a_second(void) {
    const uint64_t moments[4] = {0, 334, 667, 1000};
    hikebox_pace pace = HIKEBOX_INIT;
    wants(hikebox_pace_new(333333, 1, 1000000, &pace), HIKEBOX_OK);
    for (int at = 0; at < 4; at++)
        takes(&pace, 0, 1, HIKEBOX_OK, moments[at]);
    wants(hikebox_pace_free(&pace), HIKEBOX_OK);
}

// A call that costs the whole burst waits until all of it is there.
static void costs(void) {
    hikebox_pace pace = HIKEBOX_INIT;
    wants(hikebox_pace_new(1000, 4, 10, &pace), HIKEBOX_OK);
    takes(&pace, 100, 1, HIKEBOX_OK, 100);
    takes(&pace, 100, 4, HIKEBOX_OK, 101);
    takes(&pace, 100, 4, HIKEBOX_OK, 105);
    takes(&pace, 100, 4, HIKEBOX_OK, 109);
    takes(&pace, 100, 4, HIKEBOX_TOO_SOON, 103);
    takes(&pace, 102, 4, HIKEBOX_TOO_SOON, 103);
    takes(&pace, 103, 4, HIKEBOX_OK, 113);
    gives(&pace, true);
    takes(&pace, 103, 0, HIKEBOX_OUT_OF_RANGE, 77);
    takes(&pace, 103, 5, HIKEBOX_OUT_OF_RANGE, 77);
    takes(&pace, 103, UINT64_MAX, HIKEBOX_OUT_OF_RANGE, 77);
    takes(&pace, 103, 3, HIKEBOX_OK, 112);
    // A take that is refused for its cost leaves none that could come back.
    takes(&pace, 103, 5, HIKEBOX_OUT_OF_RANGE, 77);
    gives(&pace, false);
    wants(hikebox_pace_free(&pace), HIKEBOX_OK);
}

// Later moments count as the clock's last one.
static void clock_ends(void) {
    hikebox_pace pace = HIKEBOX_INIT;
    wants(hikebox_pace_new(UINT64_C(1) << 40, 1 << 20, UINT64_C(1) << 37, &pace), HIKEBOX_OK);
    takes(&pace, CLOCK_ENDS, 1 << 20, HIKEBOX_OK, CLOCK_ENDS);
    // A call each 2^40 microseconds, which are 1,099,511,627.776 ms: 125 of them in a wait of 2^37 ms.
    for (uint64_t at = 1; at <= 125; at++)
        takes(&pace, at == 1 ? HIKEBOX_MAX_NUMBER : CLOCK_ENDS, 1, HIKEBOX_OK,
              CLOCK_ENDS + (at * (UINT64_C(1) << 40) + 999) / 1000);
    takes(&pace, CLOCK_ENDS, 1, HIKEBOX_TOO_SOON,
          CLOCK_ENDS + (126 * (UINT64_C(1) << 40) + 999) / 1000 - (UINT64_C(1) << 37));
    wants(hikebox_pace_free(&pace), HIKEBOX_OK);
}

// What is refused changes nothing.
static void refusals(void) {
    hikebox_pace pace = HIKEBOX_INIT, empty = HIKEBOX_INIT;
    uint64_t at = 7;
    bool given = true;
    wants(hikebox_pace_new(0, 1, 0, &pace), HIKEBOX_OUT_OF_RANGE);
    wants(hikebox_pace_new((UINT64_C(1) << 40) + 1, 1, 0, &pace), HIKEBOX_OUT_OF_RANGE);
    wants(hikebox_pace_new(1, 0, 0, &pace), HIKEBOX_OUT_OF_RANGE);
    wants(hikebox_pace_new(1, (1 << 20) + 1, 0, &pace), HIKEBOX_OUT_OF_RANGE);
    wants(hikebox_pace_new(1, 1, (UINT64_C(1) << 37) + 1, &pace), HIKEBOX_OUT_OF_RANGE);
    wants(hikebox_pace_new(1, 1, UINT64_MAX, &pace), HIKEBOX_OUT_OF_RANGE);
    holds(!pace.held);
    wants(hikebox_pace_take(&empty, UINT64_MAX, 1, &at), HIKEBOX_TOO_LARGE);
    wants(hikebox_pace_take(&empty, 0, 1, &at), HIKEBOX_EMPTY);
    wants(hikebox_pace_give_back(&empty, &given), HIKEBOX_EMPTY);
    wants(hikebox_pace_seen(&empty, HIKEBOX_MAX_NUMBER + 1, &at), HIKEBOX_TOO_LARGE);
    wants(hikebox_pace_seen(&empty, 0, &at), HIKEBOX_EMPTY);
    wants(hikebox_pace_split(&empty, &pace), HIKEBOX_EMPTY);
    wants(hikebox_pace_free(&empty), HIKEBOX_EMPTY);
    wants(hikebox_pace_new(1, 1, 0, &pace), HIKEBOX_OK);
    wants(hikebox_pace_new(1, 0, 0, &pace), HIKEBOX_FULL);
    wants(hikebox_pace_split(&empty, &pace), HIKEBOX_FULL);
    takes(&pace, HIKEBOX_MAX_NUMBER + 1, 1, HIKEBOX_TOO_LARGE, 77);
    takes(&pace, 3, 1, HIKEBOX_OK, 3);
    // No moment of a refused call has changed the take, which comes back.
    takes(&pace, UINT64_MAX, 1, HIKEBOX_TOO_LARGE, 77);
    gives(&pace, true);
    wants(hikebox_pace_free(&pace), HIKEBOX_OK);
    wants(hikebox_pace_free(&pace), HIKEBOX_EMPTY);
    wants(hikebox_pace_take(&pace, 0, 1, &at), HIKEBOX_EMPTY);
    holds(!pace.held && at == 7 && given);
}

// A handle of a pace is no other one, and no other one is that of a pace.
static void other_kinds(void) {
    hikebox_pace pace = HIKEBOX_INIT, part = HIKEBOX_INIT;
    hikebox_pass pass = HIKEBOX_INIT;
    hikebox_limit limit = HIKEBOX_INIT;
    hikebox_next next = HIKEBOX_NEXT;
    uint64_t at = 7;
    bool given = true;
    wants(hikebox_pace_new(1000, 1, 0, &pace), HIKEBOX_OK);
    wants(hikebox_budget_fixed(1, &pass), HIKEBOX_OK);
    wants(hikebox_in_flight_new(1, 0, HIKEBOX_NO_MOST, &limit), HIKEBOX_OK);
    wants(hikebox_pace_take((hikebox_pace *)&pass, 0, 1, &at), HIKEBOX_WRONG_KIND);
    wants(hikebox_pace_give_back((hikebox_pace *)&pass, &given), HIKEBOX_WRONG_KIND);
    wants(hikebox_pace_seen((hikebox_pace *)&limit, 0, &at), HIKEBOX_WRONG_KIND);
    wants(hikebox_pace_split((hikebox_pace *)&limit, &part), HIKEBOX_WRONG_KIND);
    wants(hikebox_pace_free((hikebox_pace *)&limit), HIKEBOX_WRONG_KIND);
    wants(hikebox_pass_draw((hikebox_pass *)&pace, 0, &at), HIKEBOX_WRONG_KIND);
    wants(hikebox_pass_free((hikebox_pass *)&pace), HIKEBOX_WRONG_KIND);
    wants(hikebox_pass_join(&pass, (hikebox_pass *)&pace), HIKEBOX_WRONG_KIND);
    wants(hikebox_pass_join((hikebox_pass *)&pace, &pass), HIKEBOX_WRONG_KIND);
    wants(hikebox_limit_admit((hikebox_limit *)&pace, 0, 0, &at), HIKEBOX_WRONG_KIND);
    wants(hikebox_limit_free((hikebox_limit *)&pace), HIKEBOX_WRONG_KIND);
    wants(hikebox_policy_free((hikebox_policy *)&pace), HIKEBOX_WRONG_KIND);
    wants(hikebox_retry_cancel((hikebox_retry *)&pace), HIKEBOX_WRONG_KIND);
    wants(hikebox_retry_poll((hikebox_retry *)&pace, 0, (const uint32_t[4]){0, 0, 0, 0}, HIKEBOX_NO_REPORT, 0, &next),
          HIKEBOX_WRONG_KIND);
    takes(&pace, 0, 1, HIKEBOX_OK, 0);
    holds(pass.held && limit.held && !part.held && at == 7 && given);
    wants(hikebox_pass_free(&pass), HIKEBOX_OK);
    wants(hikebox_limit_free(&limit), HIKEBOX_OK);
    wants(hikebox_pace_free(&pace), HIKEBOX_OK);
}

static const hikebox_rate ten = {100000, 3, 250};
static hikebox_kept store;

static void steps_at(const char *file, int line, hikebox_mark *mark, uint64_t now, hikebox_status wanted,
                     uint64_t moment) {
    uint64_t at = 77;
    wants_at(file, line, hikebox_pace_step(&ten, now, 1, &store, mark, &at), wanted);
    holds_at(file, line, at == moment && store.known && mark->granted == (wanted == HIKEBOX_OK));
}
#define steps(mark, now, wanted, moment) steps_at(__FILE__, __LINE__, mark, now, wanted, moment)

static void back_at(const char *file, int line, hikebox_mark *mark, bool wanted) {
    bool given = !wanted;
    wants_at(file, line, hikebox_pace_step_back(&ten, &store, mark, &given), HIKEBOX_OK);
    holds_at(file, line, given == wanted && !mark->granted);
}
#define back(mark, wanted) back_at(__FILE__, __LINE__, mark, wanted)

// Two processes, one after the other in each of their steps, and then in another order. Their steps are those of one
// pace: whoever gives back, only the last take comes back.
static void kept(void) {
    hikebox_mark one = {0}, two = {0};
    store = (hikebox_kept){0};
    back(&one, false);
    for (int at = 0; at < 3; at++)
        steps(at == 1 ? &two : &one, 0, HIKEBOX_OK, 0);
    steps(&one, 0, HIKEBOX_OK, 100);
    steps(&two, 0, HIKEBOX_OK, 200);
    holds(store.word == 500000 && one.cost == 1 && one.due == 400000 && two.due == 500000);
    back(&one, false);
    back(&one, false);
    back(&two, true);
    back(&two, false);
    holds(store.word == 400000);

    store = (hikebox_kept){0};
    for (int at = 0; at < 3; at++)
        steps(at == 1 ? &one : &two, 0, HIKEBOX_OK, 0);
    steps(&two, 0, HIKEBOX_OK, 100);
    steps(&one, 0, HIKEBOX_OK, 200);
    back(&one, true);
    back(&two, true);
    holds(store.word == 300000);
    steps(&one, 0, HIKEBOX_OK, 100);
    steps(&two, 0, HIKEBOX_OK, 200);
    steps(&one, 0, HIKEBOX_TOO_SOON, 50);
    back(&one, false);
    steps(&two, 50, HIKEBOX_OK, 300);
    holds(store.word == 600000);
}

static void steps_refused(void) {
    const hikebox_rate no_burst = {1, 0, 0};
    hikebox_kept nothing = {0};
    hikebox_mark mark = {true, 1, 1};
    uint64_t at = 7;
    bool given = true;
    wants(hikebox_pace_step(&no_burst, UINT64_MAX, 0, &nothing, &mark, &at), HIKEBOX_OUT_OF_RANGE);
    wants(hikebox_pace_step_back(&no_burst, &nothing, &mark, &given), HIKEBOX_OUT_OF_RANGE);
    wants(hikebox_pace_step(&ten, HIKEBOX_MAX_NUMBER + 1, 0, &nothing, &mark, &at), HIKEBOX_TOO_LARGE);
    holds(!nothing.known && nothing.word == 0 && mark.granted && at == 7 && given);
    wants(hikebox_pace_step(&ten, 0, 4, &nothing, &mark, &at), HIKEBOX_OUT_OF_RANGE);
    holds(nothing.known && nothing.word == 0 && !mark.granted && at == 7);
}

enum {
    THREADS = 4,
    TIMES = 5000
};

struct worker {
    hikebox_pace pace;
    uint64_t moments, granted, given;
    bool gives;
};

// Takes so often, and gives each back where it is to. What lost its races takes again.
static void *take_all(void *told) {
    struct worker *worker = told;
    for (int at = 0; at < TIMES; at++) {
        uint64_t moment = 0;
        bool given = false;
        hikebox_status status;
        do
            status = hikebox_pace_take(&worker->pace, 0, 1, &moment);
        while (status == HIKEBOX_RACES_LOST);
        worker->granted += status == HIKEBOX_OK;
        worker->moments += moment;
        if (worker->gives && hikebox_pace_give_back(&worker->pace, &given) == HIKEBOX_OK) worker->given += given;
    }
    return NULL;
}

// Of what four threads took, each at another millisecond, the moments are those from 0 to 19,999. And where they give
// back, what has not come back is what is taken.
static void races(void) {
    for (int gives = 0; gives < 2; gives++) {
        struct worker workers[THREADS];
        pthread_t threads[THREADS];
        hikebox_pace pace = HIKEBOX_INIT;
        uint64_t moments = 0, granted = 0, given = 0;
        wants(hikebox_pace_new(1000, 1, UINT64_C(1) << 37, &pace), HIKEBOX_OK);
        for (int at = 0; at < THREADS; at++) {
            workers[at] = (struct worker){HIKEBOX_INIT, 0, 0, 0, gives};
            wants(hikebox_pace_split(&pace, &workers[at].pace), HIKEBOX_OK);
        }
        for (int at = 0; at < THREADS; at++)
            pthread_create(&threads[at], NULL, take_all, &workers[at]);
        for (int at = 0; at < THREADS; at++) {
            pthread_join(threads[at], NULL);
            moments += workers[at].moments;
            granted += workers[at].granted;
            given += workers[at].given;
            wants(hikebox_pace_free(&workers[at].pace), HIKEBOX_OK);
        }
        holds(granted == (uint64_t)THREADS * TIMES);
        holds(gives || (moments == UINT64_C(19999) * 20000 / 2 && given == 0));
        sees(&pace, 0, granted - given);
        wants(hikebox_pace_free(&pace), HIKEBOX_OK);
    }
}

int paces(void) {
    ten_a_second();
    three_a_second();
    costs();
    clock_ends();
    refusals();
    other_kinds();
    kept();
    steps_refused();
    races();
    return wrong;
}
