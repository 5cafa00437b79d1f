// What a limit's state is, breakers by their last results, and those that are opened or closed by hand.
#include "checks.h"

static const uint64_t open_times[2] = {100, 200};

// The limit of this number has this state, which no look changes.
static void sees(hikebox_limit *limit, uint32_t which, uint64_t now, hikebox_state wanted) {
    for (int time = 0; time < 2; time++) {
        hikebox_state state = {sizeof state, 7, 7, 7, 7, 7};
        wants(hikebox_limit_state(limit, which, now, &state), HIKEBOX_OK);
        holds(state.size == sizeof state && state.kind == wanted.kind && state.until == wanted.until);
        holds(state.first == wanted.first && state.second == wanted.second && state.third == wanted.third);
    }
}

static hikebox_state is(hikebox_state_kind kind, uint64_t first, uint64_t second) {
    return (hikebox_state){sizeof(hikebox_state), kind, first, second, 0, 0};
}

static hikebox_state is_open(uint64_t until, uint64_t trip) {
    return (hikebox_state){sizeof(hikebox_state), HIKEBOX_STATE_OPEN, trip, 0, 0, until};
}

// The rows of the specification: two of the last three results, S S F is closed, and S F F open until 105.
static void by_results(void) {
    hikebox_breaker terms = {sizeof terms, 2, 1, 1000, 3};
    hikebox_limit parts[5] = {HIKEBOX_INIT, HIKEBOX_INIT, HIKEBOX_INIT, HIKEBOX_INIT, HIKEBOX_INIT};
    wants(hikebox_breaker_new(0, &terms, open_times, 2, &parts[0]), HIKEBOX_OK);
    for (int part = 1; part < 5; part++)
        wants(hikebox_limit_split(&parts[0], &parts[part]), HIKEBOX_OK);
    for (int part = 0; part < 5; part++)
        admits(&parts[part], 0, HIKEBOX_OK, 0);
    wants(hikebox_limit_failed(&parts[0], 1), HIKEBOX_OK);
    sees(&parts[1], 0, 1, is(HIKEBOX_STATE_CLOSED, 1, 0));
    wants(hikebox_limit_succeeded(&parts[1], 2), HIKEBOX_OK);
    wants(hikebox_limit_succeeded(&parts[2], 3), HIKEBOX_OK);
    wants(hikebox_limit_failed(&parts[3], 4), HIKEBOX_OK);
    sees(&parts[4], 0, 4, is(HIKEBOX_STATE_CLOSED, 1, 0));
    wants(hikebox_limit_failed(&parts[4], 5), HIKEBOX_OK);
    sees(&parts[0], 0, 5, is_open(105, 1));
    for (int part = 0; part < 5; part++)
        wants(hikebox_limit_ended(&parts[part]), HIKEBOX_OK);
    admits(&parts[0], 104, HIKEBOX_BREAKER_OPEN, 105);
    admits(&parts[0], 105, HIKEBOX_OK, 0);
    sees(&parts[0], 0, 105, is(HIKEBOX_STATE_HALF_OPEN, 1, 0));
    for (int part = 0; part < 5; part++)
        wants(hikebox_limit_free(&parts[part]), HIKEBOX_OK);
}

// Results that a breaker cannot have: fewer than its failures, and more than 32.
static void wrong_results(void) {
    hikebox_breaker terms = {sizeof terms, 3, 1, 1000, 2};
    hikebox_limit limit = HIKEBOX_INIT;
    wants(hikebox_breaker_new(0, &terms, open_times, 2, &limit), HIKEBOX_OUT_OF_RANGE);
    terms.results = 33;
    wants(hikebox_breaker_new(0, &terms, open_times, 2, &limit), HIKEBOX_OUT_OF_RANGE);
    terms.results = (UINT64_C(1) << 32) + 3;
    wants(hikebox_breaker_new(0, &terms, open_times, 2, &limit), HIKEBOX_OUT_OF_RANGE);
    terms.results = 32;
    terms.size = 32;
    wants(hikebox_breaker_new(0, &terms, open_times, 2, &limit), HIKEBOX_WRONG_SIZE);
    terms.size = sizeof terms;
    wants(hikebox_breaker_new(0, &terms, open_times, 2, &limit), HIKEBOX_OK);
    wants(hikebox_limit_free(&limit), HIKEBOX_OK);
}

// A breaker that is opened by hand is open until that moment, whatever runs of before tell. Its probe's failure opens
// it for the second time. One that is closed by hand has counted nothing.
static void by_hand(void) {
    hikebox_breaker terms = {sizeof terms, 1, 1, 1000, 0};
    hikebox_limit limit = HIKEBOX_INIT, other = HIKEBOX_INIT;
    wants(hikebox_breaker_new(0, &terms, open_times, 2, &limit), HIKEBOX_OK);
    wants(hikebox_limit_split(&limit, &other), HIKEBOX_OK);
    admits(&other, 0, HIKEBOX_OK, 0);
    wants(hikebox_breaker_open(&limit, 10, 50), HIKEBOX_OK);
    sees(&limit, 0, 10, is_open(50, 1));
    admits(&limit, 49, HIKEBOX_BREAKER_OPEN, 50);
    wants(hikebox_limit_succeeded(&other, 49), HIKEBOX_OK);
    sees(&limit, 0, 49, is_open(50, 1));
    admits(&limit, 50, HIKEBOX_OK, 0);
    wants(hikebox_limit_failed(&other, 55), HIKEBOX_OK);
    sees(&limit, 0, 55, is(HIKEBOX_STATE_HALF_OPEN, 1, 0));
    wants(hikebox_limit_failed(&limit, 60), HIKEBOX_OK);
    sees(&limit, 0, 60, is_open(260, 2));
    wants(hikebox_limit_ended(&limit), HIKEBOX_OK);
    wants(hikebox_limit_ended(&other), HIKEBOX_OK);
    wants(hikebox_breaker_close(&limit, 70), HIKEBOX_OK);
    sees(&limit, 0, 70, is(HIKEBOX_STATE_CLOSED, 0, 0));
    admits(&limit, 70, HIKEBOX_OK, 0);
    wants(hikebox_breaker_close(&other, 80), HIKEBOX_OK);
    wants(hikebox_limit_failed(&limit, 80), HIKEBOX_OK);
    sees(&limit, 0, 80, is(HIKEBOX_STATE_CLOSED, 0, 0));
    wants(hikebox_limit_free(&limit), HIKEBOX_OK);
    wants(hikebox_limit_free(&other), HIKEBOX_OK);
}

// Of several limits each has its number, and each breaker is opened.
static void of_several(void) {
    hikebox_bucket aws = HIKEBOX_BUCKET_AWS;
    hikebox_breaker terms = HIKEBOX_BREAKER;
    hikebox_limit limit = HIKEBOX_INIT, second = HIKEBOX_INIT;
    hikebox_state state = HIKEBOX_STATE;
    wants(hikebox_bucket_new(&aws, &limit), HIKEBOX_OK);
    wants(hikebox_breaker_open(&limit, 0, 1), HIKEBOX_WRONG_KIND);
    wants(hikebox_breaker_close(&limit, 0), HIKEBOX_WRONG_KIND);
    wants(hikebox_in_flight_new(3, 200, HIKEBOX_NO_MOST, &second), HIKEBOX_OK);
    wants(hikebox_limit_both(&limit, &second), HIKEBOX_OK);
    wants(hikebox_breaker_new(0, &terms, open_times, 2, &second), HIKEBOX_OK);
    wants(hikebox_limit_both(&limit, &second), HIKEBOX_OK);
    wants(hikebox_throttle_new(0, 2000, 100, &second), HIKEBOX_OK);
    wants(hikebox_limit_both(&limit, &second), HIKEBOX_OK);
    admits(&limit, 0, HIKEBOX_OK, 0);
    draws(&limit, 0, 5000, HIKEBOX_OK, 0);
    sees(&limit, 0, 0, is(HIKEBOX_STATE_BUCKET, 495000, 500000));
    sees(&limit, 1, 0, (hikebox_state){sizeof state, HIKEBOX_STATE_IN_FLIGHT, 1, 1, UINT32_MAX, 0});
    sees(&limit, 2, 0, is(HIKEBOX_STATE_CLOSED, 0, 0));
    wants(hikebox_limit_succeeded(&limit, 50), HIKEBOX_OK);
    wants(hikebox_limit_ended(&limit), HIKEBOX_OK);
    sees(&limit, 1, 0, (hikebox_state){sizeof state, HIKEBOX_STATE_IN_FLIGHT, 0, 0, UINT32_MAX, 0});
    sees(&limit, 3, 99, is(HIKEBOX_STATE_THROTTLE, 2, 1));
    sees(&limit, 3, 150, is(HIKEBOX_STATE_THROTTLE, 2, 1));
    sees(&limit, 3, 200, is(HIKEBOX_STATE_THROTTLE, 0, 0));
    wants(hikebox_breaker_open(&limit, 60, 90), HIKEBOX_OK);
    sees(&limit, 2, 60, is_open(90, 1));
    wants(hikebox_limit_state(&limit, 4, 0, &state), HIKEBOX_OUT_OF_RANGE);
    holds(state.kind == 0);
    wants(hikebox_limit_free(&limit), HIKEBOX_OK);
}

// What is refused: sizes, moments, handles without a limit.
static void refused(void) {
    hikebox_limit empty = HIKEBOX_INIT;
    hikebox_state state = HIKEBOX_STATE;
    wants(hikebox_limit_state(&empty, 0, 0, &state), HIKEBOX_EMPTY);
    wants(hikebox_limit_state(&empty, 0, HIKEBOX_MAX_NUMBER + 1, &state), HIKEBOX_TOO_LARGE);
    state.size--;
    wants(hikebox_limit_state(&empty, 0, HIKEBOX_MAX_NUMBER + 1, &state), HIKEBOX_WRONG_SIZE);
    wants(hikebox_breaker_open(&empty, 0, 0), HIKEBOX_EMPTY);
    wants(hikebox_breaker_open(&empty, HIKEBOX_MAX_NUMBER + 1, 0), HIKEBOX_TOO_LARGE);
    wants(hikebox_breaker_open(&empty, 0, HIKEBOX_MAX_NUMBER + 1), HIKEBOX_TOO_LARGE);
    wants(hikebox_breaker_close(&empty, 0), HIKEBOX_EMPTY);
    wants(hikebox_breaker_close(&empty, HIKEBOX_MAX_NUMBER + 1), HIKEBOX_TOO_LARGE);
}

void limits_seen(void) {
    by_results();
    wrong_results();
    by_hand();
    of_several();
    refused();
}
