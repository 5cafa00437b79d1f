// The structs that begin with their size, what a policy reads of an event, and whole runs in one call.
#include "checks.h"

#define WORDS ((const uint32_t[4]){0, 0, 0, 0})

// The sizes that are refused where this one is right: of none, of the size alone, of what an earlier library could have
// had, and of what a later one could.
enum {
    WRONG_SIZES = 7
};

static size_t wrong_size(size_t right, int at) {
    const size_t sizes[WRONG_SIZES] = {0, sizeof(size_t), right - 8, right - 1, right + 1, right + 8, SIZE_MAX};
    return sizes[at];
}

// A struct's bytes but its size, which no refused call may write.
static void fill(void *begin, size_t size) {
    memset(begin, 0x5a, size);
}

static bool is_filled(const void *begin, size_t size) {
    const unsigned char *bytes = begin;
    for (size_t at = sizeof(size_t); at < size; at++)
        if (bytes[at] != 0x5a) return false;
    return true;
}

// A retry that was refused its poll begins at the next one. The size is looked at before the moment, the report and the
// handle.
static void polls(void) {
    hikebox_policy policy = HIKEBOX_INIT;
    hikebox_pass pass = HIKEBOX_INIT;
    hikebox_retry retry = HIKEBOX_INIT, empty = HIKEBOX_INIT;
    hikebox_next next = HIKEBOX_NEXT, told;
    holds(next.size == sizeof next && next.what == HIKEBOX_POLL && next.how == HIKEBOX_UNENDED && next.runs == 0);
    wants(read_policy("{\"recurs\":2}", &policy), HIKEBOX_OK);
    wants(hikebox_pass_unlimited(&pass), HIKEBOX_OK);
    wants(hikebox_retry_new(&policy, &pass, 90, &retry), HIKEBOX_OK);
    for (int at = 0; at < WRONG_SIZES; at++) {
        fill(&told, sizeof told);
        told.size = wrong_size(sizeof told, at);
        wants(hikebox_retry_poll(&retry, 5, WORDS, HIKEBOX_NO_REPORT, 0, &told), HIKEBOX_WRONG_SIZE);
        wants(hikebox_retry_poll(&retry, UINT64_MAX, WORDS, HIKEBOX_NO_REPORT, 0, &told), HIKEBOX_WRONG_SIZE);
        wants(hikebox_retry_poll(&retry, 5, WORDS, 3, UINT64_MAX, &told), HIKEBOX_WRONG_SIZE);
        wants(hikebox_retry_poll(&empty, 5, WORDS, HIKEBOX_NO_REPORT, 0, &told), HIKEBOX_WRONG_SIZE);
        holds(told.size == wrong_size(sizeof told, at) && is_filled(&told, sizeof told));
    }
    wants(hikebox_retry_poll(&retry, 5, WORDS, HIKEBOX_NO_REPORT, 0, &next), HIKEBOX_OK);
    holds(next.what == HIKEBOX_RUN && next.runs == 0 && next.left == 85 && next.size == sizeof next);
    wants(hikebox_retry_poll(&retry, 6, WORDS, HIKEBOX_LOST, 7, &next), HIKEBOX_OK);
    holds(next.what == HIKEBOX_RUN && next.runs == 1 && next.granted == 1 && next.size == sizeof next);
    wants(hikebox_retry_end(&retry, &pass), HIKEBOX_OK);
    wants(hikebox_pass_free(&pass), HIKEBOX_OK);
    wants(hikebox_policy_free(&policy), HIKEBOX_OK);
}

// A look that is refused opens no window: the deposit is of window 0 after it.
static void looks(void) {
    hikebox_pass quota = HIKEBOX_INIT, empty = HIKEBOX_INIT;
    hikebox_usage usage = HIKEBOX_USAGE, seen;
    holds(usage.size == sizeof usage && usage.window == 0 && usage.next == 0);
    wants(hikebox_quota_new(0, 2, 1000, 100, false, &quota), HIKEBOX_OK);
    for (int at = 0; at < WRONG_SIZES; at++) {
        fill(&seen, sizeof seen);
        seen.size = wrong_size(sizeof seen, at);
        wants(hikebox_pass_seen(&quota, 950, &seen), HIKEBOX_WRONG_SIZE);
        wants(hikebox_pass_seen(&quota, UINT64_MAX, &seen), HIKEBOX_WRONG_SIZE);
        wants(hikebox_pass_seen(&empty, 950, &seen), HIKEBOX_WRONG_SIZE);
        holds(seen.size == wrong_size(sizeof seen, at) && is_filled(&seen, sizeof seen));
    }
    wants(hikebox_pass_deposit(&quota, 99, 3), HIKEBOX_OK);
    wants(hikebox_pass_seen(&quota, 0, &usage), HIKEBOX_OK);
    holds(usage.window == 0 && usage.asked == 3 && usage.left == 5 && usage.next == 100 && usage.size == sizeof usage);
    wants(hikebox_pass_free(&quota), HIKEBOX_OK);
}

// A storm of which each population has this policy, as it is played with a policy for each.
static hikebox_status plays_four(hikebox_policy *policy, const hikebox_storm *storm, hikebox_window *windows,
                                 hikebox_totals *totals) {
    hikebox_policies policies = {*policy, HIKEBOX_INIT, HIKEBOX_INIT, HIKEBOX_INIT};
    const hikebox_status status = hikebox_storm_play_populations(&policies, storm, &storm->of, 0, windows, 121, totals);
    *policy = policies.first;
    return status;
}

static void plays(void) {
    static hikebox_window windows[121];
    hikebox_policy policy = HIKEBOX_INIT, empty = HIKEBOX_INIT;
    hikebox_storm storm = HIKEBOX_STORM;
    hikebox_totals totals = HIKEBOX_TOTALS, told;
    holds(storm.size == sizeof storm && storm.rate == 800 && storm.period == 1);
    holds(totals.size == sizeof totals && totals.windows == 0 && totals.requests == 0 && !totals.recovers &&
          !totals.cut);
    wants(read_policy("{\"recurs\":1}", &policy), HIKEBOX_OK);
    fill(windows, sizeof windows);
    for (int at = 0; at < WRONG_SIZES; at++) {
        fill(&told, sizeof told);
        told.size = wrong_size(sizeof told, at);
        wants(hikebox_storm_play(&policy, &storm, windows, 121, &told), HIKEBOX_WRONG_SIZE);
        storm.size = wrong_size(sizeof storm, at);
        wants(hikebox_storm_play(&policy, &storm, windows, 121, &told), HIKEBOX_WRONG_SIZE);
        holds(told.size == wrong_size(sizeof told, at));
        told.size = sizeof told;
        wants(hikebox_storm_play(&policy, &storm, windows, 121, &told), HIKEBOX_WRONG_SIZE);
        wants(hikebox_storm_play(&empty, &storm, windows, 0, &told), HIKEBOX_WRONG_SIZE);
        wants(plays_four(&policy, &storm, windows, &told), HIKEBOX_WRONG_SIZE);
        wants(plays_four(&empty, &storm, windows, &told), HIKEBOX_WRONG_SIZE);
        holds(told.size == sizeof told && is_filled(&told, sizeof told));
        holds(is_filled(windows, sizeof windows));
        storm.size = sizeof storm;
    }
    wants(hikebox_storm_play(&policy, &storm, windows, 121, &totals), HIKEBOX_OK);
    holds(totals.requests == 48000 && totals.size == sizeof totals);
    told = (hikebox_totals)HIKEBOX_TOTALS;
    wants(plays_four(&policy, &storm, windows, &told), HIKEBOX_OK);
    holds(told.windows == totals.windows && told.size == sizeof told && told.requests == 48000);
    holds(told.calls == totals.calls && told.won == totals.won && told.recovered == totals.recovered);
    wants(hikebox_policy_free(&policy), HIKEBOX_OK);
}

static void steps(void) {
    static const hikebox_event event = {0, {0, 0, 0, 0}};
    hikebox_policy policy = HIKEBOX_INIT, empty = HIKEBOX_INIT;
    hikebox_course course = HIKEBOX_COURSE;
    hikebox_line lines[10];
    char text[64];
    size_t count = 7, length = 8;
    holds(course.size == sizeof course && course.steps == 10 && course.from == 0 && course.took == 0);
    wants(read_policy("{\"spaced\":5}", &policy), HIKEBOX_OK);
    fill(lines, sizeof lines);
    fill(text, sizeof text);
    for (int at = 0; at < WRONG_SIZES; at++) {
        course.size = wrong_size(sizeof course, at);
        wants(hikebox_policy_course(&policy, &course, &event, 1, lines, 10, &count), HIKEBOX_WRONG_SIZE);
        wants(hikebox_policy_course(&empty, &course, &event, 0, lines, 0, &count), HIKEBOX_WRONG_SIZE);
        wants(hikebox_policy_outputs(&policy, &course, &event, 1, text, sizeof text, &length), HIKEBOX_WRONG_SIZE);
        wants(hikebox_policy_outputs(&empty, &course, &event, 0, text, 0, &length), HIKEBOX_WRONG_SIZE);
        holds(count == 7 && length == 8 && is_filled(lines, sizeof lines) && is_filled(text, sizeof text));
    }
    course.size = sizeof course;
    wants(hikebox_policy_course(&policy, &course, &event, 1, lines, 10, &count), HIKEBOX_OK);
    wants(hikebox_policy_outputs(&policy, &course, &event, 1, text, sizeof text, &length), HIKEBOX_OK);
    holds(count == 10 && lines[9].moment == 45 && length == 10);
    wants(hikebox_policy_free(&policy), HIKEBOX_OK);
}

// The sizes of version 1.0.0, which each later 1.x accepts.
int sizes(void) {
    holds(sizeof(hikebox_course) == 32 && sizeof(hikebox_usage) == 48 && sizeof(hikebox_next) == 48);
    holds(sizeof(hikebox_storm) == 1176 && sizeof(hikebox_totals) == 136);
    holds(sizeof(hikebox_bucket) == 48 && sizeof(hikebox_breaker) == 40 && sizeof(hikebox_adaptive) == 40);
    holds(sizeof(hikebox_state) == 48);
    holds(sizeof(hikebox_kept) == 16 && sizeof(hikebox_request) == 32 && sizeof(hikebox_told) == 24);
    polls();
    looks();
    plays();
    steps();
    return wrong;
}

// Whether the policy goes on in the same way where only the words of this lane are others.
static bool is_same_without(hikebox_policy *policy, int lane) {
    hikebox_course course = HIKEBOX_COURSE;
    hikebox_event events[2] = {{3, {1 << 30, 1 << 30, 1 << 30, 1 << 30}}, {3, {1 << 30, 1 << 30, 1 << 30, 1 << 30}}};
    hikebox_line lines[2][10];
    char text[2][4096];
    size_t counts[2], lengths[2];
    events[1].words[lane] = UINT32_MAX;
    memset(lines, 0, sizeof lines);
    for (int at = 0; at < 2; at++) {
        wants(hikebox_policy_course(policy, &course, events + at, 1, lines[at], 10, counts + at), HIKEBOX_OK);
        wants(hikebox_policy_outputs(policy, &course, events + at, 1, text[at], sizeof text[at], lengths + at),
              HIKEBOX_OK);
    }
    if (counts[0] != counts[1] || lengths[0] != lengths[1] || memcmp(text[0], text[1], lengths[0])) return false;
    for (size_t at = 0; at < counts[0]; at++)
        if (lines[0][at].moment != lines[1][at].moment || lines[0][at].start != lines[1][at].start) return false;
    return true;
}

// What policies read, by nodes of each form; and that the words of a lane make a difference where it is read alone.
int reads(void) {
    static const struct {
        const char *json;
        uint64_t reads;
    } rows[] = {
        {"\"forever\"", 0},
        {"{\"exponential\":[100,2]}", 0},
        {"{\"jitter\":[0,0,1000,{\"spaced\":90}]}", HIKEBOX_READS_LANE_0},
        {"{\"jitter\":[3,0,1000,{\"spaced\":90}]}", HIKEBOX_READS_LANE_3},
        {"{\"decorrelated\":[2,100,3000,10000]}", HIKEBOX_READS_LANE_2},
        {"{\"renew\":[1000,{\"cap\":[70,{\"jitter\":[1,0,1000,{\"spaced\":90}]}]}]}", HIKEBOX_READS_LANE_1},
        {"{\"meet\":[{\"jitter\":[0,0,1000,{\"spaced\":90}]},{\"jitter\":[1,0,1000,{\"spaced\":80}]}]}", 3},
        {"{\"follow\":[{\"recurs\":1},{\"jitter\":[2,0,1000,{\"decorrelated\":[3,100,3000,900]}]}]}", 12},
        {"\"identity\"", HIKEBOX_READS_INPUT},
        {"{\"gate\":[\"input\",true,\"equal\",3,\"forever\"]}", HIKEBOX_READS_INPUT},
        {"{\"gate\":[\"output\",true,\"below\",3,\"forever\"]}", 0},
        {"{\"feed\":[{\"jitter\":[1,0,1000,{\"spaced\":9}]},{\"gate\":[\"input\",true,\"below\",2,\"forever\"]}]}", 18},
    };
    hikebox_policy policy = HIKEBOX_INIT;
    hikebox_pass pass = HIKEBOX_INIT;
    uint64_t got = 77;
    for (size_t row = 0; row < sizeof rows / sizeof *rows; row++) {
        wants(read_policy(rows[row].json, &policy), HIKEBOX_OK);
        wants(hikebox_policy_reads(&policy, &got), HIKEBOX_OK);
        if (got != rows[row].reads) printf("%s reads %u\n", rows[row].json, (unsigned)got);
        holds(got == rows[row].reads);
        for (int lane = 0; lane < 4; lane++)
            holds(is_same_without(&policy, lane) == !(got >> lane & 1));
        wants(hikebox_policy_free(&policy), HIKEBOX_OK);
    }
    got = 77;
    wants(hikebox_policy_reads(&policy, &got), HIKEBOX_EMPTY);
    wants(hikebox_pass_unlimited(&pass), HIKEBOX_OK);
    wants(hikebox_policy_reads((hikebox_policy *)&pass, &got), HIKEBOX_WRONG_KIND);
    holds(got == 77);
    wants(hikebox_pass_free(&pass), HIKEBOX_OK);
    return wrong;
}

// A run that fails.
static hikebox_run lost(uint64_t began, uint64_t ended) {
    return (hikebox_run){began, ended, 7, HIKEBOX_LOST, {0, 0, 0, 0}};
}

// What a retry is at after a call: what, when, how many were granted, and of how many runs.
static bool is_at(const hikebox_next *next, uint32_t what, uint64_t until, uint64_t granted, uint64_t runs) {
    return next->what == what && next->until == until && next->granted == granted && next->runs == runs;
}

// The retry of a call whose first run was this.
static hikebox_status after(hikebox_policy *policy, hikebox_pass *pass, uint64_t deadline, hikebox_retry *retry,
                            const hikebox_run *run, hikebox_next *next) {
    hikebox_status status = hikebox_retry_new(policy, pass, deadline, retry);
    return status ? status : hikebox_retry_ran(retry, run, next);
}

// Two retries, each 100 ms after a failure: the third failure is the last. A run before its planned start is refused.
static void three_runs(hikebox_policy *policy, hikebox_pass *pass) {
    hikebox_retry retry = HIKEBOX_INIT;
    hikebox_next next = HIKEBOX_NEXT;
    hikebox_run first = lost(10, 15), early = lost(219, 220), second = lost(115, 120), third = lost(230, 231);
    wants(after(policy, pass, HIKEBOX_NO_DEADLINE, &retry, &first, &next), HIKEBOX_OK);
    holds(is_at(&next, HIKEBOX_WAIT, 115, 1, 1) && next.left == HIKEBOX_NO_DEADLINE);
    wants(hikebox_retry_ran(&retry, &second, &next), HIKEBOX_OK);
    holds(is_at(&next, HIKEBOX_WAIT, 220, 2, 2));
    wants(hikebox_retry_ran(&retry, &early, &next), HIKEBOX_NO_RUN);
    wants(hikebox_retry_ran(&retry, &third, &next), HIKEBOX_OK);
    holds(is_at(&next, HIKEBOX_OVER, 0, 2, 3) && next.how == HIKEBOX_ENDED_DONE);
    wants(hikebox_retry_ran(&retry, &third, &next), HIKEBOX_NO_RUN);
    wants(hikebox_retry_end(&retry, pass), HIKEBOX_OK);
}

// A run that goes on, one that succeeds, and a next run that would begin past the deadline.
static void other_runs(hikebox_policy *policy, hikebox_pass *pass) {
    hikebox_retry retry = HIKEBOX_INIT;
    hikebox_next next = HIKEBOX_NEXT;
    hikebox_run begun = {5, 6, 0, HIKEBOX_NO_REPORT, {0, 0, 0, 0}}, won = {5, 8, 0, HIKEBOX_WON, {0, 0, 0, 0}};
    hikebox_run first = lost(0, 0), late = lost(101, 102);
    wants(after(policy, pass, HIKEBOX_NO_DEADLINE, &retry, &begun, &next), HIKEBOX_OK);
    holds(is_at(&next, HIKEBOX_RUN, 0, 0, 0));
    wants(hikebox_retry_ran(&retry, &won, &next), HIKEBOX_OK);
    holds(is_at(&next, HIKEBOX_OVER, 0, 0, 1) && next.how == HIKEBOX_ENDED_WON);
    wants(hikebox_retry_end(&retry, pass), HIKEBOX_OK);
    wants(after(policy, pass, 100, &retry, &first, &next), HIKEBOX_OK);
    holds(is_at(&next, HIKEBOX_WAIT, 100, 1, 1) && next.left == 100);
    wants(hikebox_retry_ran(&retry, &late, &next), HIKEBOX_NO_RUN);
    wants(hikebox_retry_poll(&retry, 102, WORDS, HIKEBOX_NO_REPORT, 0, &next), HIKEBOX_OK);
    holds(is_at(&next, HIKEBOX_OVER, 0, 1, 1) && next.how == HIKEBOX_ENDED_DEADLINE);
    wants(hikebox_retry_end(&retry, pass), HIKEBOX_OK);
}

// Each refusal, in its order. A retry whose run is refused has not begun.
static void refused_runs(hikebox_policy *policy, hikebox_pass *pass) {
    const uint64_t none = HIKEBOX_NO_DEADLINE, past = HIKEBOX_MAX_NUMBER + 1;
    hikebox_retry retry = HIKEBOX_INIT, empty = HIKEBOX_INIT;
    hikebox_next next = HIKEBOX_NEXT, small = HIKEBOX_NEXT;
    hikebox_run run = lost(1, 2), begins_late = lost(past, 2), ends_late = lost(1, past), unreported = lost(1, 2);
    hikebox_run coded = {1, 2, past, HIKEBOX_LOST, {0, 0, 0, 0}};
    unreported.report = 3;
    small.size--;
    wants(hikebox_retry_ran(&retry, &run, &next), HIKEBOX_EMPTY);
    wants(after(policy, pass, none, &retry, &begins_late, &next), HIKEBOX_TOO_LARGE);
    wants(hikebox_retry_ran(&retry, &run, &small), HIKEBOX_WRONG_SIZE);
    wants(hikebox_retry_ran(&retry, &begins_late, &next), HIKEBOX_TOO_LARGE);
    wants(hikebox_retry_ran(&retry, &ends_late, &next), HIKEBOX_TOO_LARGE);
    wants(hikebox_retry_ran(&retry, &unreported, &next), HIKEBOX_NO_SUCH_REPORT);
    wants(hikebox_retry_ran(&retry, &coded, &next), HIKEBOX_TOO_LARGE);
    wants(hikebox_retry_ran(&empty, &run, &next), HIKEBOX_EMPTY);
    holds(is_at(&next, HIKEBOX_POLL, 0, 0, 0));
    wants(hikebox_retry_ran(&retry, &run, &next), HIKEBOX_OK);
    holds(is_at(&next, HIKEBOX_WAIT, 102, 1, 1));
    wants(hikebox_retry_end(&retry, pass), HIKEBOX_OK);
}

int runs(void) {
    hikebox_policy policy = HIKEBOX_INIT;
    hikebox_pass pass = HIKEBOX_INIT, no_tickets = HIKEBOX_INIT;
    hikebox_retry retry = HIKEBOX_INIT;
    hikebox_next next = HIKEBOX_NEXT;
    hikebox_run first = lost(3, 4);
    uint64_t tickets;
    wants(read_policy("{\"meet\":[{\"recurs\":2},{\"spaced\":100}]}", &policy), HIKEBOX_OK);
    wants(hikebox_budget_fixed(10, &pass), HIKEBOX_OK);
    wants(hikebox_budget_fixed(0, &no_tickets), HIKEBOX_OK);
    three_runs(&policy, &pass);
    other_runs(&policy, &pass);
    refused_runs(&policy, &pass);
    wants(after(&policy, &no_tickets, HIKEBOX_NO_DEADLINE, &retry, &first, &next), HIKEBOX_OK);
    holds(is_at(&next, HIKEBOX_OVER, 0, 0, 1) && next.how == HIKEBOX_ENDED_LIMIT_REFUSED);
    wants(hikebox_retry_end(&retry, &no_tickets), HIKEBOX_OK);
    // (two of the first retry, and one of each of two others)
    wants(hikebox_pass_close(&pass, &tickets), HIKEBOX_OK);
    holds(tickets == 4);
    wants(hikebox_pass_close(&no_tickets, &tickets), HIKEBOX_OK);
    holds(tickets == 0);
    wants(hikebox_policy_free(&policy), HIKEBOX_OK);
    return wrong;
}
