// The header in C++: each of its initializers, with numbers that are read at run time.
#include "hikebox.h"

int main(int argc, char **) {
    int tokens = argc;
    hikebox_policy policy = HIKEBOX_INIT;
    hikebox_course course = HIKEBOX_COURSE;
    hikebox_usage usage = HIKEBOX_USAGE;
    hikebox_bucket grpc = HIKEBOX_BUCKET_GRPC(tokens, tokens);
    hikebox_bucket aws = HIKEBOX_BUCKET_AWS;
    hikebox_breaker breaker = HIKEBOX_BREAKER;
    hikebox_next next = HIKEBOX_NEXT;
    hikebox_storm storm = HIKEBOX_STORM;
    hikebox_totals totals = HIKEBOX_TOTALS;
    return hikebox_policy_free(&policy) == HIKEBOX_EMPTY && grpc.capacity == 1000 && course.size && usage.size &&
                   aws.size && breaker.size && next.size && storm.size && totals.size
               ? 0
               : 1;
}
