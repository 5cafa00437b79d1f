// Limits: rows worked out by hand, each refusal, several limits at once, a store's, and eight threads that count.
#include "checks.h"
#include <pthread.h>

#define HALF UINT32_C(2147483648)

static const uint64_t open_times[3] = {100, 200, 400};

// A request that draws, and is refused or not; and what the refusal says.
void draws(hikebox_limit *limit, uint64_t now, uint64_t cost, hikebox_status wanted, uint64_t says) {
    uint64_t number = 77;
    wants(hikebox_limit_draw(limit, now, cost, HALF, &number), wanted);
    holds(number == (wanted == HIKEBOX_OK ? 77 : says));
}

void admits(hikebox_limit *limit, uint64_t now, hikebox_status wanted, uint64_t says) {
    uint64_t number = 77;
    wants(hikebox_limit_admit(limit, now, HALF, &number), wanted);
    holds(number == (wanted == HIKEBOX_OK ? 77 : says));
}

// gRPC's of 4 tokens and a ratio of a half: after two failures half of the tokens are left, which is not more than that.
static void buckets(void) {
    hikebox_bucket terms = HIKEBOX_BUCKET_GRPC(4, 500), aws = HIKEBOX_BUCKET_AWS;
    hikebox_limit limit = HIKEBOX_INIT, other = HIKEBOX_INIT;
    holds(terms.capacity == 4000 && terms.floor == 2001 && terms.debit == 1000 && terms.credit == 500);
    wants(hikebox_bucket_new(&terms, &limit), HIKEBOX_OK);
    wants(hikebox_limit_split(&limit, &other), HIKEBOX_OK);
    admits(&limit, 0, HIKEBOX_OK, 0);
    wants(hikebox_limit_failed(&limit, 0), HIKEBOX_OK);
    draws(&limit, 0, 0, HIKEBOX_OK, 0);
    wants(hikebox_limit_failed(&limit, 0), HIKEBOX_OK);
    draws(&limit, 0, 0, HIKEBOX_LEVEL_LOW, 2000);
    admits(&other, 0, HIKEBOX_OK, 0);
    wants(hikebox_limit_succeeded(&other, 0), HIKEBOX_OK);
    draws(&limit, 0, 0, HIKEBOX_OK, 0);
    wants(hikebox_limit_failed(&limit, 0), HIKEBOX_OK);
    draws(&limit, 0, 0, HIKEBOX_LEVEL_LOW, 1500);
    wants(hikebox_limit_free(&other), HIKEBOX_OK);
    wants(hikebox_limit_free(&limit), HIKEBOX_OK);
    // That of the AWS SDKs: a success gives back what its request's last retry took, and else a token.
    wants(hikebox_bucket_new(&aws, &limit), HIKEBOX_OK);
    admits(&limit, 0, HIKEBOX_OK, 0);
    draws(&limit, 0, 10000, HIKEBOX_OK, 0);
    draws(&limit, 0, 500000, HIKEBOX_LEVEL_LOW, 490000);
    wants(hikebox_limit_succeeded(&limit, 0), HIKEBOX_OK);
    draws(&limit, 0, 500001, HIKEBOX_LEVEL_LOW, 500000);
    draws(&limit, 0, 5000, HIKEBOX_OK, 0);
    wants(hikebox_limit_cancelled(&limit), HIKEBOX_OK);
    wants(hikebox_limit_cancelled(&limit), HIKEBOX_OK);
    draws(&limit, 0, 500000, HIKEBOX_OK, 0);
    wants(hikebox_limit_ended(&limit), HIKEBOX_OK);
    admits(&limit, 0, HIKEBOX_OK, 0);
    wants(hikebox_limit_succeeded(&limit, 0), HIKEBOX_OK);
    draws(&limit, 0, 1001, HIKEBOX_LEVEL_LOW, 1000);
    wants(hikebox_limit_free(&limit), HIKEBOX_OK);
}

// A fifth of ten requests is two retries; a request that is over gives back its slot, once.
static void flights(void) {
    hikebox_limit limits[10];
    for (int at = 0; at < 10; at++) {
        limits[at] = (hikebox_limit)HIKEBOX_INIT;
        if (at == 0)
            wants(hikebox_in_flight_new(1, 200, HIKEBOX_NO_MOST, &limits[0]), HIKEBOX_OK);
        else
            wants(hikebox_limit_split(&limits[0], &limits[at]), HIKEBOX_OK);
    }
    for (int at = 0; at < 10; at++)
        admits(&limits[at], 0, HIKEBOX_OK, 0);
    draws(&limits[0], 0, 0, HIKEBOX_OK, 0);
    draws(&limits[1], 0, 0, HIKEBOX_OK, 0);
    draws(&limits[2], 0, 0, HIKEBOX_RETRIES_FULL, 0);
    draws(&limits[0], 0, 0, HIKEBOX_OK, 0);
    wants(hikebox_limit_ended(&limits[0]), HIKEBOX_OK);
    wants(hikebox_limit_ended(&limits[0]), HIKEBOX_OK);
    draws(&limits[2], 0, 0, HIKEBOX_RETRIES_FULL, 0);
    wants(hikebox_limit_free(&limits[1]), HIKEBOX_OK);
    draws(&limits[2], 0, 0, HIKEBOX_OK, 0);
    wants(hikebox_limit_free(&limits[0]), HIKEBOX_OK);
    for (int at = 2; at < 10; at++)
        wants(hikebox_limit_free(&limits[at]), HIKEBOX_OK);
}

// Two requests at once: one that is refused takes no place, and one that is over makes room, once.
static void at_once(void) {
    hikebox_limit first = HIKEBOX_INIT, second = HIKEBOX_INIT, third = HIKEBOX_INIT;
    wants(hikebox_in_flight_new(3, 200, 2, &first), HIKEBOX_OK);
    wants(hikebox_limit_split(&first, &second), HIKEBOX_OK);
    wants(hikebox_limit_split(&first, &third), HIKEBOX_OK);
    admits(&first, 0, HIKEBOX_OK, 0);
    admits(&second, 0, HIKEBOX_OK, 0);
    admits(&third, 0, HIKEBOX_REQUESTS_FULL, 0);
    wants(hikebox_limit_ended(&third), HIKEBOX_OK);
    admits(&third, 0, HIKEBOX_REQUESTS_FULL, 0);
    wants(hikebox_limit_ended(&first), HIKEBOX_OK);
    wants(hikebox_limit_ended(&first), HIKEBOX_OK);
    admits(&third, 0, HIKEBOX_OK, 0);
    draws(&third, 0, 0, HIKEBOX_OK, 0);
    admits(&first, 0, HIKEBOX_REQUESTS_FULL, 0);
    wants(hikebox_limit_free(&first), HIKEBOX_OK);
    wants(hikebox_limit_free(&second), HIKEBOX_OK);
    wants(hikebox_limit_free(&third), HIKEBOX_OK);
}

// A call of one of four requests at a moment, and what comes of it: it begins anew and asks to be admitted, draws, fails,
// succeeds or ends.
struct act {
    int who;
    uint64_t at;
    enum {
        ADMIT,
        DRAW,
        FAIL,
        SUCCEED,
        END
    } call;
    hikebox_status wanted;
    uint64_t says;
};

// The requests of this limit do what the list says, and it is freed.
static void plays(hikebox_limit *limit, const struct act *acts, size_t count) {
    hikebox_limit others[3] = {HIKEBOX_INIT, HIKEBOX_INIT, HIKEBOX_INIT};
    for (int at = 0; at < 3; at++)
        wants(hikebox_limit_split(limit, &others[at]), HIKEBOX_OK);
    for (const struct act *act = acts; act < acts + count; act++) {
        hikebox_limit *one = act->who ? &others[act->who - 1] : limit;
        if (act->call == ADMIT || act->call == END) wants(hikebox_limit_ended(one), HIKEBOX_OK);
        if (act->call == ADMIT) admits(one, act->at, act->wanted, act->says);
        if (act->call == DRAW) draws(one, act->at, 0, act->wanted, act->says);
        if (act->call == FAIL) wants(hikebox_limit_failed(one, act->at), HIKEBOX_OK);
        if (act->call == SUCCEED) wants(hikebox_limit_succeeded(one, act->at), HIKEBOX_OK);
    }
    for (int at = 0; at < 3; at++)
        wants(hikebox_limit_free(&others[at]), HIKEBOX_OK);
    wants(hikebox_limit_free(limit), HIKEBOX_OK);
}

#define PLAYS(limit, acts) plays(limit, acts, sizeof acts / sizeof *acts)

// From 1 to 10 requests at once, at first 2: the levels are 2,500, 2,250, 2,694 and 3,065.
static void adaptives(void) {
    hikebox_adaptive terms = HIKEBOX_ADAPTIVE;
    hikebox_limit first = HIKEBOX_INIT, second = HIKEBOX_INIT, third = HIKEBOX_INIT, fourth = HIKEBOX_INIT;
    bool quiet = true;
    holds(terms.least == 1 && terms.most == 200 && terms.first == 20 && terms.backoff == 900);
    terms.most = 10;
    terms.first = 2;
    wants(hikebox_adaptive_new(&terms, &first), HIKEBOX_OK);
    wants(hikebox_limit_split(&first, &second), HIKEBOX_OK);
    wants(hikebox_limit_split(&first, &third), HIKEBOX_OK);
    wants(hikebox_limit_split(&first, &fourth), HIKEBOX_OK);
    wants(hikebox_limit_look(&first, &(hikebox_seen){0, 0, 0, 0}, &quiet), HIKEBOX_OK);
    holds(!quiet);
    admits(&first, 0, HIKEBOX_OK, 0);
    admits(&second, 0, HIKEBOX_OK, 0);
    admits(&third, 0, HIKEBOX_REQUESTS_FULL, 0);
    wants(hikebox_limit_succeeded(&first, 0), HIKEBOX_OK);
    wants(hikebox_limit_ended(&first), HIKEBOX_OK);
    wants(hikebox_limit_failed(&second, 0), HIKEBOX_OK);
    draws(&second, 0, 0, HIKEBOX_OK, 0);
    wants(hikebox_limit_ended(&second), HIKEBOX_OK);
    wants(hikebox_limit_ended(&second), HIKEBOX_OK);
    admits(&first, 0, HIKEBOX_OK, 0);
    admits(&second, 0, HIKEBOX_OK, 0);
    admits(&third, 0, HIKEBOX_REQUESTS_FULL, 0);
    wants(hikebox_limit_succeeded(&second, 0), HIKEBOX_OK);
    wants(hikebox_limit_succeeded(&first, 0), HIKEBOX_OK);
    admits(&third, 0, HIKEBOX_OK, 0);
    admits(&fourth, 0, HIKEBOX_REQUESTS_FULL, 0);
    wants(hikebox_limit_free(&first), HIKEBOX_OK);
    wants(hikebox_limit_free(&second), HIKEBOX_OK);
    wants(hikebox_limit_free(&third), HIKEBOX_OK);
    wants(hikebox_limit_free(&fourth), HIKEBOX_OK);
}

// At first 3: one request alone is less than half of these, and its successes teach nothing. From 2 to 3: it falls to the
// least at once, and rises to the most and no further.
static void adaptive_ends(void) {
    static const struct act idle[] = {
        {0, 0, ADMIT, HIKEBOX_OK, 0}, {0, 0, SUCCEED, 0, 0},        {0, 0, SUCCEED, 0, 0},
        {0, 0, SUCCEED, 0, 0},        {0, 0, SUCCEED, 0, 0},        {0, 0, SUCCEED, 0, 0},
        {1, 0, ADMIT, HIKEBOX_OK, 0}, {2, 0, ADMIT, HIKEBOX_OK, 0}, {3, 0, ADMIT, HIKEBOX_REQUESTS_FULL, 0},
    };
    static const struct act ends[] = {
        {0, 0, ADMIT, HIKEBOX_OK, 0}, {0, 0, FAIL, 0, 0},
        {1, 0, ADMIT, HIKEBOX_OK, 0}, {2, 0, ADMIT, HIKEBOX_REQUESTS_FULL, 0},
        {0, 0, SUCCEED, 0, 0},        {0, 0, SUCCEED, 0, 0},
        {0, 0, SUCCEED, 0, 0},        {0, 0, SUCCEED, 0, 0},
        {0, 0, SUCCEED, 0, 0},        {0, 0, SUCCEED, 0, 0},
        {2, 0, ADMIT, HIKEBOX_OK, 0}, {3, 0, ADMIT, HIKEBOX_REQUESTS_FULL, 0},
    };
    hikebox_adaptive at_first = {sizeof at_first, 1, 10, 3, 900}, narrow = {sizeof narrow, 2, 3, 3, 1};
    hikebox_limit limit = HIKEBOX_INIT;
    wants(hikebox_adaptive_new(&at_first, &limit), HIKEBOX_OK);
    PLAYS(&limit, idle);
    wants(hikebox_adaptive_new(&narrow, &limit), HIKEBOX_OK);
    PLAYS(&limit, ends);
}

// Each number of an adaptive limit at its border.
static void adaptive_borders(void) {
    static const hikebox_adaptive made[] = {{sizeof *made, 1, 1, 1, 1}, {sizeof *made, 65535, 65535, 65535, 999}};
    static const hikebox_adaptive refused[] = {
        {sizeof *made, 0, 10, 2, 900},
        {sizeof *made, 3, 10, 2, 900},
        {sizeof *made, 1, 10, 11, 900},
        {sizeof *made, 1, 65536, 2, 900},
        {sizeof *made, 1, 10, 2, 0},
        {sizeof *made, 1, 10, 2, 1000},
        {sizeof *made, 1, UINT64_MAX, 2, 900},
        {sizeof *made, 1, 10, 2, (UINT64_C(1) << 32) + 900},
        {sizeof *made, UINT64_C(1) << 32, 10, 2, 900},
        {sizeof *made, 1, 10, UINT64_C(1) << 32, 900},
    };
    hikebox_adaptive terms = HIKEBOX_ADAPTIVE;
    hikebox_limit limit = HIKEBOX_INIT;
    for (size_t at = 0; at < sizeof made / sizeof *made; at++) {
        wants(hikebox_adaptive_new(&made[at], &limit), HIKEBOX_OK);
        wants(hikebox_adaptive_new(&made[at], &limit), HIKEBOX_FULL);
        wants(hikebox_limit_free(&limit), HIKEBOX_OK);
    }
    for (size_t at = 0; at < sizeof refused / sizeof *refused; at++)
        wants(hikebox_adaptive_new(&refused[at], &limit), HIKEBOX_OUT_OF_RANGE);
    terms.size--;
    wants(hikebox_adaptive_new(&terms, &limit), HIKEBOX_WRONG_SIZE);
    terms.size += 2;
    wants(hikebox_adaptive_new(&terms, &limit), HIKEBOX_WRONG_SIZE);
    holds(!limit.held);
}

// After two failures it is open for 100 ms, and for 200 ms where the probe fails.
static void breakers(void) {
    hikebox_breaker terms = HIKEBOX_BREAKER;
    hikebox_limit limit = HIKEBOX_INIT, other = HIKEBOX_INIT, late = HIKEBOX_INIT;
    holds(terms.failures == 5 && terms.probes == 1 && terms.deadline == 30000);
    terms.failures = 2;
    terms.deadline = 1000;
    wants(hikebox_breaker_new(0, &terms, open_times, 3, &limit), HIKEBOX_OK);
    wants(hikebox_limit_split(&limit, &other), HIKEBOX_OK);
    wants(hikebox_limit_split(&limit, &late), HIKEBOX_OK);
    admits(&limit, 0, HIKEBOX_OK, 0);
    admits(&late, 5, HIKEBOX_OK, 0);
    wants(hikebox_limit_failed(&limit, 0), HIKEBOX_OK);
    wants(hikebox_limit_failed(&limit, 10), HIKEBOX_OK);
    draws(&limit, 10, 0, HIKEBOX_BREAKER_OPEN, 110);
    admits(&other, 109, HIKEBOX_BREAKER_OPEN, 110);
    admits(&other, 110, HIKEBOX_OK, 0);
    draws(&limit, 111, 0, HIKEBOX_PROBING, 0);
    wants(hikebox_limit_failed(&other, 120), HIKEBOX_OK);
    wants(hikebox_limit_failed(&late, 130), HIKEBOX_OK);
    draws(&other, 319, 0, HIKEBOX_BREAKER_OPEN, 320);
    draws(&other, 320, 0, HIKEBOX_OK, 0);
    wants(hikebox_limit_succeeded(&other, 330), HIKEBOX_OK);
    wants(hikebox_limit_failed(&late, 331), HIKEBOX_OK);
    draws(&limit, 332, 0, HIKEBOX_OK, 0);
    wants(hikebox_limit_free(&late), HIKEBOX_OK);
    wants(hikebox_limit_free(&other), HIKEBOX_OK);
    wants(hikebox_limit_free(&limit), HIKEBOX_OK);
}

// The last open time holds, also where each probe fails. Of two probes both are to succeed, and one that is silent for the
// deadline gives its place to another. A clock behind the start stands at it, and one that is far ahead at the end.
static void breaker_probes(void) {
    static const struct act last[] = {
        {0, 1000, ADMIT, HIKEBOX_OK, 0}, {0, 1000, FAIL, 0, 0}, {0, 1099, ADMIT, HIKEBOX_BREAKER_OPEN, 1100},
        {0, 1100, ADMIT, HIKEBOX_OK, 0}, {0, 1100, FAIL, 0, 0}, {0, 1299, ADMIT, HIKEBOX_BREAKER_OPEN, 1300},
        {0, 1300, ADMIT, HIKEBOX_OK, 0}, {0, 1300, FAIL, 0, 0}, {0, 1699, ADMIT, HIKEBOX_BREAKER_OPEN, 1700},
        {0, 1700, ADMIT, HIKEBOX_OK, 0}, {0, 1700, FAIL, 0, 0}, {0, 2099, ADMIT, HIKEBOX_BREAKER_OPEN, 2100},
    };
    static const struct act probes[] = {
        {0, 0, ADMIT, HIKEBOX_OK, 0},
        {0, 0, FAIL, 0, 0},
        {0, 100, ADMIT, HIKEBOX_OK, 0},
        {1, 150, ADMIT, HIKEBOX_OK, 0},
        {2, 150, ADMIT, HIKEBOX_PROBING, 0},
        {0, 160, SUCCEED, 0, 0},
        {2, 1149, ADMIT, HIKEBOX_PROBING, 0},
        {2, 1150, ADMIT, HIKEBOX_OK, 0},
        {1, 1151, FAIL, 0, 0},
        {2, 1152, SUCCEED, 0, 0},
        {3, 1153, ADMIT, HIKEBOX_OK, 0},
        {0, 1154, ADMIT, HIKEBOX_PROBING, 0},
        {3, 1155, SUCCEED, 0, 0},
        {0, 1156, ADMIT, HIKEBOX_OK, 0},
        {0, 1157, FAIL, 0, 0},
        {0, 1158, ADMIT, HIKEBOX_BREAKER_OPEN, 1257},
    };
    static const struct act clocks[] = {
        {0, 0, ADMIT, HIKEBOX_OK, 0},
        {0, 0, FAIL, 0, 0},
        {0, 0, ADMIT, HIKEBOX_BREAKER_OPEN, 1100},
        {0, HIKEBOX_MAX_NUMBER, ADMIT, HIKEBOX_OK, 0},
        {0, HIKEBOX_MAX_NUMBER, FAIL, 0, 0},
        {0, 137438954470, ADMIT, HIKEBOX_BREAKER_OPEN, 137438954471},
        {0, 137438954471, ADMIT, HIKEBOX_OK, 0},
    };
    hikebox_breaker one = {sizeof one, 1, 1, 1000, 0}, two = {sizeof two, 1, 2, 1000, 0};
    hikebox_limit limit = HIKEBOX_INIT;
    wants(hikebox_breaker_new(1000, &one, open_times, 3, &limit), HIKEBOX_OK);
    PLAYS(&limit, last);
    wants(hikebox_breaker_new(0, &two, open_times, 3, &limit), HIKEBOX_OK);
    PLAYS(&limit, probes);
    wants(hikebox_breaker_new(1000, &one, open_times, 3, &limit), HIKEBOX_OK);
    PLAYS(&limit, clocks);
}

// By a random number of a half: of 0 requests, and 1 of 2, one more is admitted, and 2 of 3 is more than a half. The next
// window has what the one before counted, and the one after that has not.
static void throttles(void) {
    hikebox_limit limit = HIKEBOX_INIT;
    wants(hikebox_throttle_new(1000, 2000, 100, &limit), HIKEBOX_OK);
    for (int at = 0; at < 4; at++) {
        admits(&limit, 1000, at < 2 ? HIKEBOX_OK : HIKEBOX_THROTTLED, 0);
        wants(hikebox_limit_ended(&limit), HIKEBOX_OK);
    }
    admits(&limit, 1100, HIKEBOX_THROTTLED, 0);
    admits(&limit, 1200, HIKEBOX_OK, 0);
    wants(hikebox_limit_succeeded(&limit, 1200), HIKEBOX_OK);
    draws(&limit, 1201, 0, HIKEBOX_OK, 0);
    wants(hikebox_limit_free(&limit), HIKEBOX_OK);
}

// A success counts in its own window: with one accept of the second window, five requests of both windows allow 3,000 of
// 6,000 thousandths, which is no more than a half. Where the clock of one that asks is behind, the later window has begun,
// and it is counted there.
static void accepts(void) {
    static const struct act acts[] = {
        {0, 0, ADMIT, HIKEBOX_OK, 0},  {1, 0, ADMIT, HIKEBOX_OK, 0},         {2, 0, ADMIT, HIKEBOX_THROTTLED, 0},
        {0, 100, SUCCEED, 0, 0},       {2, 0, ADMIT, HIKEBOX_OK, 0},         {3, 100, ADMIT, HIKEBOX_OK, 0},
        {0, 100, DRAW, HIKEBOX_OK, 0}, {0, 100, DRAW, HIKEBOX_THROTTLED, 0}, {1, 200, DRAW, HIKEBOX_OK, 0},
        {1, 300, DRAW, HIKEBOX_OK, 0},
    };
    hikebox_limit limit = HIKEBOX_INIT;
    wants(hikebox_throttle_new(0, 2000, 100, &limit), HIKEBOX_OK);
    PLAYS(&limit, acts);
}

// Both admit, or neither is charged: the request that the breaker refuses is not in flight.
static void pairs(void) {
    hikebox_breaker terms = {sizeof terms, 1, 1, 1000, 0};
    hikebox_limit both = HIKEBOX_INIT, breaker = HIKEBOX_INIT, alone = HIKEBOX_INIT, empty = HIKEBOX_INIT;
    wants(hikebox_in_flight_new(0, 500, HIKEBOX_NO_MOST, &both), HIKEBOX_OK);
    wants(hikebox_limit_split(&both, &alone), HIKEBOX_OK);
    wants(hikebox_breaker_new(0, &terms, open_times, 1, &breaker), HIKEBOX_OK);
    wants(hikebox_limit_both(&both, &empty), HIKEBOX_EMPTY);
    wants(hikebox_limit_both(&empty, &both), HIKEBOX_EMPTY);
    wants(hikebox_limit_both(&both, &breaker), HIKEBOX_OK);
    holds(both.held && !breaker.held);
    admits(&both, 0, HIKEBOX_OK, 0);
    wants(hikebox_limit_failed(&both, 0), HIKEBOX_OK);
    wants(hikebox_limit_ended(&both), HIKEBOX_OK);
    admits(&both, 99, HIKEBOX_BREAKER_OPEN, 100);
    admits(&alone, 99, HIKEBOX_OK, 0);
    draws(&alone, 99, 0, HIKEBOX_RETRIES_FULL, 0);
    wants(hikebox_limit_split(&both, &breaker), HIKEBOX_OK);
    admits(&breaker, 100, HIKEBOX_OK, 0);
    draws(&alone, 100, 0, HIKEBOX_OK, 0);
    wants(hikebox_limit_free(&breaker), HIKEBOX_OK);
    wants(hikebox_limit_free(&alone), HIKEBOX_OK);
    wants(hikebox_limit_free(&both), HIKEBOX_OK);
}

// Up to four are joined, in any order. What the first three granted comes back where the fourth refuses.
static void four(void) {
    hikebox_breaker terms = {sizeof terms, 1, 1, 1000, 0};
    hikebox_bucket token = {sizeof token, 1000, 0, 0, 0, false};
    hikebox_limit first = HIKEBOX_INIT, flights = HIKEBOX_INIT, second = HIKEBOX_INIT, breaker = HIKEBOX_INIT;
    hikebox_limit alone[3] = {HIKEBOX_INIT, HIKEBOX_INIT, HIKEBOX_INIT}, opens = HIKEBOX_INIT;
    wants(hikebox_bucket_new(&token, &first), HIKEBOX_OK);
    wants(hikebox_in_flight_new(1, 0, HIKEBOX_NO_MOST, &flights), HIKEBOX_OK);
    wants(hikebox_bucket_new(&token, &second), HIKEBOX_OK);
    wants(hikebox_breaker_new(0, &terms, open_times, 1, &breaker), HIKEBOX_OK);
    wants(hikebox_limit_split(&first, &alone[0]), HIKEBOX_OK);
    wants(hikebox_limit_split(&flights, &alone[1]), HIKEBOX_OK);
    wants(hikebox_limit_split(&second, &alone[2]), HIKEBOX_OK);
    wants(hikebox_limit_split(&breaker, &opens), HIKEBOX_OK);
    wants(hikebox_limit_both(&second, &breaker), HIKEBOX_OK);
    wants(hikebox_limit_both(&flights, &second), HIKEBOX_OK);
    wants(hikebox_limit_both(&first, &flights), HIKEBOX_OK);
    holds(first.held && !flights.held && !second.held && !breaker.held);
    admits(&first, 0, HIKEBOX_OK, 0);
    admits(&opens, 0, HIKEBOX_OK, 0);
    wants(hikebox_limit_failed(&opens, 0), HIKEBOX_OK);
    draws(&first, 0, 1000, HIKEBOX_BREAKER_OPEN, 100);
    for (int at = 0; at < 3; at++) {
        admits(&alone[at], 0, HIKEBOX_OK, 0);
        draws(&alone[at], 0, 1000, HIKEBOX_OK, 0);
    }
    wants(hikebox_limit_ended(&first), HIKEBOX_OK);
    // A fifth is refused, and both handles are as they were.
    wants(hikebox_limit_both(&first, &opens), HIKEBOX_OUT_OF_RANGE);
    wants(hikebox_limit_both(&opens, &first), HIKEBOX_OUT_OF_RANGE);
    holds(first.held && opens.held);
    draws(&first, 0, 0, HIKEBOX_OUT_OF_TURN, 0);
    // Another handle of all four, one that is split off that, and none that is split off the last.
    wants(hikebox_limit_split(&first, &flights), HIKEBOX_OK);
    wants(hikebox_limit_split(&flights, &second), HIKEBOX_OK);
    admits(&second, 99, HIKEBOX_BREAKER_OPEN, 100);
    wants(hikebox_limit_split(&second, &breaker), HIKEBOX_TOO_MANY_PASSES);
    wants(hikebox_limit_free(&flights), HIKEBOX_OK);
    wants(hikebox_limit_free(&second), HIKEBOX_OK);
    wants(hikebox_limit_free(&first), HIKEBOX_OK);
    wants(hikebox_limit_free(&opens), HIKEBOX_OK);
    for (int at = 0; at < 3; at++)
        wants(hikebox_limit_free(&alone[at]), HIKEBOX_OK);
}

// What a store keeps of a limit, and a call of a request there.
static hikebox_kept store;

static void steps_bucket(hikebox_request *request, uint32_t call, uint64_t cost, hikebox_status wanted, uint64_t says) {
    hikebox_bucket aws = HIKEBOX_BUCKET_AWS;
    hikebox_told told = {call, 0, cost};
    uint64_t number = 77;
    wants(hikebox_bucket_step(&aws, &told, &store, request, &number), wanted);
    holds(number == (wanted == HIKEBOX_OK || wanted == HIKEBOX_OUT_OF_RANGE ? 77 : says) && store.known);
}

static void steps_breaker(hikebox_request *request, uint32_t call, uint64_t now, hikebox_status wanted, uint64_t says) {
    hikebox_breaker terms = {sizeof terms, 2, 1, 1000, 0};
    hikebox_told told = {call, now, 0};
    uint64_t number = 77;
    wants(hikebox_breaker_step(&terms, open_times, 3, &told, &store, request, &number), wanted);
    holds(number == (wanted == HIKEBOX_OK ? 77 : says));
}

// The rows of the AWS SDKs' bucket and of a breaker, in a store; and a process that is killed.
static void kept(void) {
    hikebox_request one = {0}, two = {0}, killed;
    store = (hikebox_kept){0};
    steps_bucket(&one, HIKEBOX_TELL_DRAW, 5000, HIKEBOX_OUT_OF_TURN, 0);
    steps_bucket(&one, HIKEBOX_TELL_ADMIT, 0, HIKEBOX_OK, 0);
    steps_bucket(&one, HIKEBOX_TELL_ADMIT, 0, HIKEBOX_OUT_OF_TURN, 0);
    steps_bucket(&one, HIKEBOX_TELL_DRAW, 10000, HIKEBOX_OK, 0);
    steps_bucket(&two, HIKEBOX_TELL_ADMIT, 0, HIKEBOX_OK, 0);
    steps_bucket(&two, HIKEBOX_TELL_DRAW, 500000, HIKEBOX_LEVEL_LOW, 490000);
    steps_bucket(&one, HIKEBOX_TELL_SUCCEEDED, 0, HIKEBOX_OK, 0);
    steps_bucket(&one, HIKEBOX_TELL_ENDED, 0, HIKEBOX_OK, 0);
    holds(!one.counted && !one.drew);
    steps_bucket(&two, HIKEBOX_TELL_DRAW, 5000, HIKEBOX_OK, 0);
    steps_bucket(&two, HIKEBOX_TELL_CANCELLED, 0, HIKEBOX_OK, 0);
    steps_bucket(&two, HIKEBOX_TELL_CANCELLED, 0, HIKEBOX_OK, 0);
    steps_bucket(&two, HIKEBOX_TELL_DRAW, 500001, HIKEBOX_LEVEL_LOW, 500000);
    // One that is killed tells nothing more, and what it drew is lost.
    steps_bucket(&two, HIKEBOX_TELL_DRAW, 400000, HIKEBOX_OK, 0);
    steps_bucket(&one, HIKEBOX_TELL_ADMIT, 0, HIKEBOX_OK, 0);
    steps_bucket(&one, HIKEBOX_TELL_DRAW, 100001, HIKEBOX_LEVEL_LOW, 100000);
    steps_bucket(&one, 6, 0, HIKEBOX_OUT_OF_RANGE, 0);

    store = (hikebox_kept){0};
    one = two = (hikebox_request){0};
    steps_breaker(&one, HIKEBOX_TELL_ADMIT, 0, HIKEBOX_OK, 0);
    killed = one;
    steps_breaker(&one, HIKEBOX_TELL_FAILED, 0, HIKEBOX_OK, 0);
    steps_breaker(&one, HIKEBOX_TELL_FAILED, 10, HIKEBOX_OK, 0);
    steps_breaker(&two, HIKEBOX_TELL_ADMIT, 109, HIKEBOX_BREAKER_OPEN, 110);
    steps_breaker(&two, HIKEBOX_TELL_ADMIT, 110, HIKEBOX_OK, 0);
    steps_breaker(&one, HIKEBOX_TELL_DRAW, 111, HIKEBOX_PROBING, 0);
    steps_breaker(&two, HIKEBOX_TELL_FAILED, 120, HIKEBOX_OK, 0);
    steps_breaker(&two, HIKEBOX_TELL_ENDED, 120, HIKEBOX_OK, 0);
    steps_breaker(&one, HIKEBOX_TELL_DRAW, 319, HIKEBOX_BREAKER_OPEN, 320);
    // A probe that is killed is over at its deadline.
    steps_breaker(&one, HIKEBOX_TELL_DRAW, 320, HIKEBOX_OK, 0);
    steps_breaker(&two, HIKEBOX_TELL_DRAW, 1319, HIKEBOX_OUT_OF_TURN, 0);
    steps_breaker(&two, HIKEBOX_TELL_ADMIT, 1319, HIKEBOX_PROBING, 0);
    steps_breaker(&two, HIKEBOX_TELL_ADMIT, 1320, HIKEBOX_OK, 0);
    steps_breaker(&killed, HIKEBOX_TELL_FAILED, 1321, HIKEBOX_OK, 0);
    steps_breaker(&two, HIKEBOX_TELL_SUCCEEDED, 1322, HIKEBOX_OK, 0);
    steps_breaker(&one, HIKEBOX_TELL_DRAW, 1323, HIKEBOX_OK, 0);
}

// A breaker's clock goes to 2^37 - 1. Up to there it stays open; a later moment, as one since 1970, is refused.
static void clock_ends(void) {
    const uint64_t last = (UINT64_C(1) << 37) - 1, since_1970 = UINT64_C(1764342000000);
    hikebox_request one = {0}, two = {0};
    store = (hikebox_kept){0};
    steps_breaker(&one, HIKEBOX_TELL_ADMIT, last - 60000, HIKEBOX_OK, 0);
    steps_breaker(&one, HIKEBOX_TELL_FAILED, last - 60000, HIKEBOX_OK, 0);
    steps_breaker(&one, HIKEBOX_TELL_FAILED, last - 50, HIKEBOX_OK, 0);
    steps_breaker(&two, HIKEBOX_TELL_ADMIT, last - 1, HIKEBOX_BREAKER_OPEN, last);
    steps_breaker(&two, HIKEBOX_TELL_ADMIT, last, HIKEBOX_OK, 0);
    store = (hikebox_kept){0};
    one = (hikebox_request){0};
    steps_breaker(&one, HIKEBOX_TELL_ADMIT, last + 1, HIKEBOX_TOO_LARGE, 77);
    steps_breaker(&one, HIKEBOX_TELL_ADMIT, since_1970, HIKEBOX_TOO_LARGE, 77);
    holds(!store.known && !store.word && !one.counted);
}

// Terms, moments and calls that there are not.
static void steps_refused(void) {
    hikebox_bucket bucket = HIKEBOX_BUCKET_AWS;
    hikebox_breaker breaker = HIKEBOX_BREAKER;
    hikebox_told told = {HIKEBOX_TELL_ADMIT, UINT64_MAX, 0};
    hikebox_kept nothing = {0};
    hikebox_request request = {0};
    uint64_t number = 7;
    bucket.size++;
    wants(hikebox_bucket_step(&bucket, &told, &nothing, &request, &number), HIKEBOX_WRONG_SIZE);
    bucket.size--;
    wants(hikebox_bucket_step(&bucket, &told, &nothing, &request, &number), HIKEBOX_TOO_LARGE);
    bucket.floor = 500001;
    wants(hikebox_bucket_step(&bucket, &told, &nothing, &request, &number), HIKEBOX_OUT_OF_RANGE);
    breaker.size--;
    wants(hikebox_breaker_step(&breaker, open_times, 0, &told, &nothing, &request, &number), HIKEBOX_WRONG_SIZE);
    breaker.size++;
    wants(hikebox_breaker_step(&breaker, open_times, 0, &told, &nothing, &request, &number), HIKEBOX_OUT_OF_RANGE);
    wants(hikebox_breaker_step(&breaker, open_times, 3, &told, &nothing, &request, &number), HIKEBOX_TOO_LARGE);
    told.call = 6;
    wants(hikebox_breaker_step(&breaker, open_times, 3, &told, &nothing, &request, &number), HIKEBOX_OUT_OF_RANGE);
    holds(!nothing.known && !nothing.word && !request.counted && number == 7);
}

// What is refused changes nothing.
static void refusals(void) {
    hikebox_bucket bucket = HIKEBOX_BUCKET_AWS;
    hikebox_breaker breaker = HIKEBOX_BREAKER;
    hikebox_limit limit = HIKEBOX_INIT, empty = HIKEBOX_INIT;
    uint64_t number = 7, many[65] = {0};
    bool quiet = true;
    bucket.floor = 500001;
    wants(hikebox_bucket_new(&bucket, &limit), HIKEBOX_OUT_OF_RANGE);
    bucket.size++;
    wants(hikebox_bucket_new(&bucket, &limit), HIKEBOX_WRONG_SIZE);
    breaker.size--;
    wants(hikebox_breaker_new(UINT64_MAX, &breaker, many, 1, &limit), HIKEBOX_WRONG_SIZE);
    breaker.size++;
    wants(hikebox_breaker_new(HIKEBOX_MAX_NUMBER + 1, &breaker, many, 0, &limit), HIKEBOX_TOO_LARGE);
    wants(hikebox_breaker_new(0, &breaker, many, 0, &limit), HIKEBOX_OUT_OF_RANGE);
    wants(hikebox_breaker_new(0, &breaker, many, 65, &limit), HIKEBOX_OUT_OF_RANGE);
    breaker.failures = UINT64_C(1) << 32;
    wants(hikebox_breaker_new(0, &breaker, many, 64, &limit), HIKEBOX_OUT_OF_RANGE);
    breaker.failures = 1;
    breaker.probes = 16;
    wants(hikebox_breaker_new(0, &breaker, many, 64, &limit), HIKEBOX_OUT_OF_RANGE);
    wants(hikebox_throttle_new(0, 999, 1, &limit), HIKEBOX_OUT_OF_RANGE);
    wants(hikebox_throttle_new(0, 1000, 0, &limit), HIKEBOX_OUT_OF_RANGE);
    wants(hikebox_throttle_new(HIKEBOX_MAX_NUMBER + 1, 999, 1, &limit), HIKEBOX_TOO_LARGE);
    holds(!limit.held);
    wants(hikebox_limit_admit(&empty, 0, 0, &number), HIKEBOX_EMPTY);
    wants(hikebox_limit_admit(&empty, UINT64_MAX, 0, &number), HIKEBOX_TOO_LARGE);
    wants(hikebox_limit_draw(&empty, 0, 0, 0, &number), HIKEBOX_EMPTY);
    wants(hikebox_limit_failed(&empty, 0), HIKEBOX_EMPTY);
    wants(hikebox_limit_succeeded(&empty, UINT64_MAX), HIKEBOX_TOO_LARGE);
    wants(hikebox_limit_cancelled(&empty), HIKEBOX_EMPTY);
    wants(hikebox_limit_ended(&empty), HIKEBOX_EMPTY);
    wants(hikebox_limit_free(&empty), HIKEBOX_EMPTY);
    wants(hikebox_limit_look(&empty, &(hikebox_seen){0, 0, 0, 0}, &quiet), HIKEBOX_EMPTY);
    wants(hikebox_limit_begin(&empty, &(hikebox_seen){0, 0, 0, 0}, &quiet), HIKEBOX_EMPTY);
    wants(hikebox_limit_split(&empty, &limit), HIKEBOX_EMPTY);
    wants(hikebox_throttle_new(0, 1000, 1, &limit), HIKEBOX_OK);
    wants(hikebox_throttle_new(0, 999, 1, &limit), HIKEBOX_FULL);
    wants(hikebox_in_flight_new(0, 0, HIKEBOX_NO_MOST, &limit), HIKEBOX_FULL);
    wants(hikebox_limit_split(&empty, &limit), HIKEBOX_FULL);
    draws(&limit, 0, 0, HIKEBOX_OUT_OF_TURN, 0);
    admits(&limit, 0, HIKEBOX_OK, 0);
    admits(&limit, 0, HIKEBOX_OUT_OF_TURN, 0);
    wants(hikebox_limit_free(&limit), HIKEBOX_OK);
    holds(number == 7 && quiet);
}

enum {
    THREADS = 8,
    TIMES = 20000
};

struct worker {
    hikebox_limit limit;
    uint64_t now, granted;
};

// Begins a request, draws of it, and ends it, so often. What lost its races is asked again.
static void *come_and_go(void *given) {
    struct worker *worker = given;
    uint64_t number;
    for (int at = 0; at < TIMES; at++) {
        hikebox_status status;
        do
            status = hikebox_limit_admit(&worker->limit, worker->now, UINT32_MAX, &number);
        while (status == HIKEBOX_RACES_LOST);
        if (status == HIKEBOX_OK) {
            do
                status = hikebox_limit_draw(&worker->limit, worker->now, 1, UINT32_MAX, &number);
            while (status == HIKEBOX_RACES_LOST);
            worker->granted += status == HIKEBOX_OK;
        }
        hikebox_limit_ended(&worker->limit);
    }
    return NULL;
}

// How many draws of all threads are granted, where each has a handle of this limit.
static uint64_t race(hikebox_limit *limit, uint64_t now) {
    struct worker workers[THREADS];
    pthread_t threads[THREADS];
    uint64_t granted = 0;
    for (int at = 0; at < THREADS; at++) {
        workers[at] = (struct worker){HIKEBOX_INIT, now, 0};
        wants(hikebox_limit_split(limit, &workers[at].limit), HIKEBOX_OK);
    }
    for (int at = 0; at < THREADS; at++)
        pthread_create(&threads[at], NULL, come_and_go, &workers[at]);
    for (int at = 0; at < THREADS; at++) {
        pthread_join(threads[at], NULL);
        granted += workers[at].granted;
        wants(hikebox_limit_free(&workers[at].limit), HIKEBOX_OK);
    }
    return granted;
}

// Of 100,000 tokens eight threads draw each once; what is in flight is none in the end, nor of an adaptive limit, whose
// level stays; a breaker whose time is over has one probe, and that draws once; and a throttle counts each request once.
static void races(void) {
    hikebox_bucket terms = {sizeof terms, 100000, 0, 0, 0, false};
    hikebox_breaker one = {sizeof one, 1, 1, 1000000, 0};
    hikebox_adaptive two = {sizeof two, 2, 2, 2, 500};
    hikebox_limit limit = HIKEBOX_INIT, beside = HIKEBOX_INIT, last = HIKEBOX_INIT;
    wants(hikebox_bucket_new(&terms, &limit), HIKEBOX_OK);
    holds(race(&limit, 0) == 100000);
    wants(hikebox_limit_free(&limit), HIKEBOX_OK);

    wants(hikebox_in_flight_new(0, 500, HIKEBOX_NO_MOST, &limit), HIKEBOX_OK);
    holds(race(&limit, 0) <= (uint64_t)THREADS * TIMES);
    wants(hikebox_limit_split(&limit, &beside), HIKEBOX_OK);
    admits(&limit, 0, HIKEBOX_OK, 0);
    draws(&limit, 0, 0, HIKEBOX_RETRIES_FULL, 0);
    admits(&beside, 0, HIKEBOX_OK, 0);
    draws(&limit, 0, 0, HIKEBOX_OK, 0);
    wants(hikebox_limit_free(&beside), HIKEBOX_OK);
    wants(hikebox_limit_free(&limit), HIKEBOX_OK);

    wants(hikebox_adaptive_new(&two, &limit), HIKEBOX_OK);
    holds(race(&limit, 0) <= (uint64_t)THREADS * TIMES);
    wants(hikebox_limit_split(&limit, &beside), HIKEBOX_OK);
    wants(hikebox_limit_split(&limit, &last), HIKEBOX_OK);
    admits(&limit, 0, HIKEBOX_OK, 0);
    admits(&beside, 0, HIKEBOX_OK, 0);
    admits(&last, 0, HIKEBOX_REQUESTS_FULL, 0);
    wants(hikebox_limit_free(&last), HIKEBOX_OK);
    wants(hikebox_limit_free(&beside), HIKEBOX_OK);
    wants(hikebox_limit_free(&limit), HIKEBOX_OK);

    wants(hikebox_breaker_new(0, &one, open_times, 1, &limit), HIKEBOX_OK);
    admits(&limit, 0, HIKEBOX_OK, 0);
    wants(hikebox_limit_failed(&limit, 0), HIKEBOX_OK);
    holds(race(&limit, 99) == 0);
    draws(&limit, 100, 0, HIKEBOX_OK, 0);
    holds(race(&limit, 101) == 0);
    wants(hikebox_limit_free(&limit), HIKEBOX_OK);

    // 320,000 requests: one more is refused by a random number below 2^32 x 320,000 / 320,001, which is 4,294,953,874.4.
    wants(hikebox_throttle_new(0, 2000, 60000, &limit), HIKEBOX_OK);
    holds(race(&limit, 0) == (uint64_t)THREADS * TIMES);
    uint64_t number;
    wants(hikebox_limit_admit(&limit, 59999, 4294953875, &number), HIKEBOX_OK);
    wants(hikebox_limit_draw(&limit, 60000, 0, 4294953874, &number), HIKEBOX_THROTTLED);
    wants(hikebox_limit_free(&limit), HIKEBOX_OK);
}

int limits(void) {
    buckets();
    flights();
    at_once();
    adaptives();
    adaptive_ends();
    adaptive_borders();
    breakers();
    breaker_probes();
    throttles();
    accepts();
    pairs();
    four();
    kept();
    clock_ends();
    steps_refused();
    refusals();
    limits_looked_at();
    limits_seen();
    races();
    return wrong;
}
