// Looks at limits: what is quiet, and the requests that begin by what a look saw.
#include "checks.h"

static const uint64_t open_times[1] = {100};

static hikebox_seen look(hikebox_limit *limit, bool wanted) {
    hikebox_seen seen = {7, 7, 7, 7};
    bool quiet = !wanted;
    wants(hikebox_limit_look(limit, &seen, &quiet), HIKEBOX_OK);
    holds(quiet == wanted);
    return seen;
}

static void begins(hikebox_limit *limit, hikebox_seen seen, bool wanted) {
    bool begun = !wanted;
    wants(hikebox_limit_begin(limit, &seen, &begun), HIKEBOX_OK);
    holds(begun == wanted);
}

// A request that began by a look, and succeeds.
static void succeeds(hikebox_limit *limit, hikebox_seen seen) {
    begins(limit, seen, true);
    begins(limit, seen, false);
    look(limit, false);
    admits(limit, 100, HIKEBOX_OUT_OF_TURN, 0);
    wants(hikebox_limit_succeeded(limit, 100), HIKEBOX_OK);
    wants(hikebox_limit_ended(limit), HIKEBOX_OK);
}

// What a look saw admits a request in the generation in which the breaker was then: once it was open, that request's
// success neither closes it nor takes its probe. Several are quiet where each of them is.
void limits_looked_at(void) {
    hikebox_breaker terms = {sizeof terms, 1, 1, 1000, 0};
    hikebox_bucket aws = HIKEBOX_BUCKET_AWS;
    hikebox_limit limit = HIKEBOX_INIT, other = HIKEBOX_INIT, bucket = HIKEBOX_INIT, spare = HIKEBOX_INIT;
    wants(hikebox_breaker_new(0, &terms, open_times, 1, &limit), HIKEBOX_OK);
    wants(hikebox_limit_split(&limit, &other), HIKEBOX_OK);
    hikebox_seen closed = look(&limit, true);
    holds(closed.first == 0 && closed.second == 7 && closed.third == 7 && closed.fourth == 7);
    succeeds(&limit, closed);
    begins(&limit, (hikebox_seen){1, 0, 0, 0}, false);
    succeeds(&other, look(&other, true));
    begins(&other, closed, true);
    wants(hikebox_limit_failed(&other, 0), HIKEBOX_OK);
    wants(hikebox_limit_ended(&other), HIKEBOX_OK);
    look(&other, false);
    admits(&other, 99, HIKEBOX_BREAKER_OPEN, 100);
    succeeds(&limit, closed);
    admits(&other, 100, HIKEBOX_OK, 0);
    succeeds(&limit, closed);
    admits(&limit, 100, HIKEBOX_PROBING, 0);
    wants(hikebox_limit_succeeded(&other, 100), HIKEBOX_OK);
    wants(hikebox_limit_free(&other), HIKEBOX_OK);
    holds(look(&limit, true).first == UINT64_C(1) << 52);
    wants(hikebox_bucket_new(&aws, &bucket), HIKEBOX_OK);
    wants(hikebox_limit_split(&bucket, &spare), HIKEBOX_OK);
    wants(hikebox_limit_both(&bucket, &limit), HIKEBOX_OK);
    hikebox_seen both = look(&bucket, true);
    holds(both.first == 500000 && both.second == UINT64_C(1) << 52 && both.third == 7);
    admits(&spare, 0, HIKEBOX_OK, 0);
    draws(&spare, 0, 5000, HIKEBOX_OK, 0);
    look(&bucket, false);
    succeeds(&bucket, both);
    draws(&spare, 0, 500000, HIKEBOX_LEVEL_LOW, 496000);
    wants(hikebox_limit_free(&spare), HIKEBOX_OK);
    wants(hikebox_limit_free(&bucket), HIKEBOX_OK);
    wants(hikebox_in_flight_new(1, 0, HIKEBOX_NO_MOST, &limit), HIKEBOX_OK);
    holds(look(&limit, false).first == 0); // (it has no word that can be quiet)
    begins(&limit, closed, false);
    wants(hikebox_limit_free(&limit), HIKEBOX_OK);
}
