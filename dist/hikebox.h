/*
 * hikebox.h: retry policies, budgets and quotas, and retries, for programs in C and in any language that calls C.
 *
 * A policy says when to call again. You read it from the JSON that `zsched plan` reads, or build it node by node. Its
 * course shows what it does, event by event, before you make any call. A budget bounds how many retries all threads of
 * a program make together. A quota bounds them in each window of time, and grows with traffic. A retry is a machine
 * that the program steps: it says when to run the call and when to wait, and the program reports how each run went.
 * The library has no clock, no thread, no callback and no random numbers of its own: at each step the program passes
 * the moment and four random words. A storm simulates what a policy does to a peer that fails for a while, when many
 * requests have it. examples/c/retry.c is a whole program.
 *
 *     hikebox_next next = HIKEBOX_NEXT;
 *     uint32_t report = HIKEBOX_NO_REPORT;
 *     uint64_t code = 0;
 *     while (hikebox_retry_poll(&retry, now(), words(), report, code, &next) == HIKEBOX_OK
 *            && next.what != HIKEBOX_OVER) {
 *         report = HIKEBOX_NO_REPORT;
 *         if (next.what == HIKEBOX_RUN)
 *             report = call(&code) ? HIKEBOX_WON : HIKEBOX_LOST;
 *         else
 *             sleep_until(next.until);
 *     }
 *
 * Moments, durations and codes are whole numbers from 0 to HIKEBOX_MAX_NUMBER; moments and durations are in
 * milliseconds. The program chooses which moment is 0, such as the start of the process. The moments of one retry must
 * not go back.
 *
 * HANDLES. Policies, passes (of a budget, of a quota or of nothing), leased passes, limits and retries are held by
 * handles. A handle is a struct of one pointer, which the program keeps and passes to each call by its address. Begin a
 * handle with HIKEBOX_INIT, which holds nothing. A call that makes something puts it into an empty handle. From then on
 * the handle owns it, until a call frees it, or takes it away and leaves the handle empty. A call is refused by a
 * status if a handle is empty, if it holds another kind (by a cast, or from a language that does not tell them apart),
 * or if the handle to fill already holds something. No call takes a handle as `const`, not even one that only reads,
 * since a call may change what the handle holds. So two threads must not read through one handle at once; for a policy,
 * hikebox_policy_share gives the second thread a handle of its own.
 *
 * STATUSES. Each call returns a hikebox_status. If it is not HIKEBOX_OK, nothing has changed: no handle, nothing that a
 * handle holds, and no result, unless the call's comment says otherwise. Each refusal has one status. If several apply,
 * the call returns the first one in its own list. It returns no status that its list does not name.
 *
 * STRUCTS. hikebox_course, hikebox_usage, hikebox_bucket, hikebox_adaptive, hikebox_breaker, hikebox_state,
 * hikebox_next, hikebox_storm and hikebox_totals begin with `size`, the number of bytes that they have in the header
 * that the program was compiled with. The initializers HIKEBOX_COURSE, HIKEBOX_USAGE, HIKEBOX_BUCKET_GRPC,
 * HIKEBOX_BUCKET_AWS, HIKEBOX_ADAPTIVE, HIKEBOX_BREAKER, HIKEBOX_STATE, HIKEBOX_NEXT, HIKEBOX_STORM and HIKEBOX_TOTALS
 * set it. A later minor version may add members at the end of these structs. It accepts each size that an earlier
 * version of its major version had, and reads and writes only the members that the size covers. It refuses every other
 * size with HIKEBOX_WRONG_SIZE, including that of a later version, and then reads and writes no other member. All other
 * structs keep their size and members within a major version.
 *
 * WHAT THE PROGRAM OWES. The library does not check these:
 *  - Every pointer is to valid memory of its type, and not NULL, even if a length is 0; no two of a call's
 *    pointers overlap; a length is at most that of the memory. `words` points to four numbers.
 *  - A handle is HIKEBOX_INIT, or as a call of this library left it. It may be moved, but of two copies of one
 *    handle only one is used from then on.
 *  - A handle is used by one thread at a time. It may go to another thread, ordered by a lock, by the start or
 *    the join of the thread, or by a sequentially consistent atomic. Different handles may be used by different
 *    threads at once, including passes and retries of one budget or of one quota: that is what these are for.
 *  - Passes that are joined, and a retry and the pass that it is ended into, are of one budget or of one quota.
 *  - No call is made from a signal handler, or in the forked child of a process with threads.
 *  - malloc, realloc and free are of one allocator, and align as the C standard says.
 *  - A call has 128 KiB of stack.
 */
#ifndef HIKEBOX_H
#define HIKEBOX_H

#include <stdbool.h>
#include <stddef.h>
#include <stdint.h>

#ifdef __cplusplus
extern "C" {
#endif

/* A program for Windows that loads hikebox.dll may define HIKEBOX_DLL before it reads this header: its calls then go
 * there without a detour. */
#if defined(_WIN32) && defined(HIKEBOX_DLL)
#define HIKEBOX_IMPORTED __declspec(dllimport)
#else
#define HIKEBOX_IMPORTED
#endif
#if defined(__GNUC__)
#define HIKEBOX_CHECKED HIKEBOX_IMPORTED __attribute__((warn_unused_result))
#else
#define HIKEBOX_CHECKED HIKEBOX_IMPORTED
#endif

/* The version of this header: as a text, and as numbers for the preprocessor. HIKEBOX_VERSION_NUMBER is 1002003 in
 * version 1.2.3. hikebox_version() returns the version of the library that is linked or loaded. */
#define HIKEBOX_VERSION "1.0.0"
#define HIKEBOX_VERSION_MAJOR 1
#define HIKEBOX_VERSION_MINOR 0
#define HIKEBOX_VERSION_PATCH 0
#define HIKEBOX_VERSION_NUMBER (HIKEBOX_VERSION_MAJOR * 1000000 + HIKEBOX_VERSION_MINOR * 1000 + HIKEBOX_VERSION_PATCH)

/* The last moment, the longest duration and the greatest code: 2^62 - 1. */
#define HIKEBOX_MAX_NUMBER UINT64_C(4611686018427387903)

/* The deadline of a retry that has none. */
#define HIKEBOX_NO_DEADLINE UINT64_MAX

/* The bound of a policy whose nodes give none. */
#define HIKEBOX_NO_BOUND UINT64_MAX

/* The most events of a course. */
#define HIKEBOX_MAX_STEPS 4096

/* The most tickets of a budget, and the greatest reserve of a quota: 2^32. */
#define HIKEBOX_MAX_TICKETS UINT64_C(4294967296)

/* The greatest share of a quota, in thousandths of a ticket a request: 1000 tickets. */
#define HIKEBOX_MAX_SHARE UINT64_C(1000000)

/* The shortest period of a quota, in milliseconds. */
#define HIKEBOX_MIN_PERIOD UINT64_C(100)

/* What a call returns. */
typedef uint32_t hikebox_status;
enum {
    /* Done. */
    HIKEBOX_OK = 0,

    /* The handle holds nothing: nothing was put into it, or what it held was freed or taken away. */
    HIKEBOX_EMPTY = 1,
    /* The handle holds something of another kind, and still does. */
    HIKEBOX_WRONG_KIND = 2,
    /* The handle to fill holds something already, and still does. */
    HIKEBOX_FULL = 3,
    /* The system gave no memory. */
    HIKEBOX_NO_MEMORY = 4,
    /* A moment, a code or a period is above HIKEBOX_MAX_NUMBER; or a deadline is, other than HIKEBOX_NO_DEADLINE; or
     * a moment of a breaker that a store keeps is 2^37 or later; or a range that is granted goes past 2^64 - 1. */
    HIKEBOX_TOO_LARGE = 5,
    /* There are more bytes, lines or windows than room for them. */
    HIKEBOX_NO_ROOM = 6,
    /* The `size` of a struct is not one that this library knows. */
    HIKEBOX_WRONG_SIZE = 7,

    /* The text is not JSON, or not UTF-8; or a number in it is too large for a double. */
    HIKEBOX_NOT_JSON = 10,
    /* The JSON value, or a part of it that should be a policy, does not have the form of one. */
    HIKEBOX_NOT_A_POLICY = 11,
    /* A parameter of a policy, of a course, of a storm or of a limit is outside its range; or more than four limits
     * would be joined. */
    HIKEBOX_OUT_OF_RANGE = 12,
    /* The policy is deeper than 32. */
    HIKEBOX_TOO_DEEP = 13,
    /* The policy has more than 256 nodes. */
    HIKEBOX_TOO_MANY = 14,

    /* The window is before the one that a store counts, or that a leased pass is in. */
    HIKEBOX_BACKWARDS = 20,

    /* The limit is above HIKEBOX_MAX_TICKETS. */
    HIKEBOX_LIMIT_TOO_LARGE = 30,
    /* There is no limit that can be raised: the budget keeps its limit, or the pass is of no budget. */
    HIKEBOX_FIXED = 31,
    /* The budget has no ticket left, or the window of a quota has given out all of its own: `next` of hikebox_usage
     * says when the next window begins. Or a leased pass has no ticket at hand, and its store is not to be asked yet.
     */
    HIKEBOX_NO_TICKET = 32,
    /* The pass of the budget or of the quota has one part, which it keeps; or the handle of a limit can't be split any
     * more. */
    HIKEBOX_TOO_MANY_PASSES = 33,
    /* Another pass of the budget or of the quota is held somewhere, or was freed. */
    HIKEBOX_PASSES_OUT = 34,
    /* The quota's reserve is above HIKEBOX_MAX_TICKETS. */
    HIKEBOX_RESERVE_TOO_LARGE = 35,
    /* The quota's share is above HIKEBOX_MAX_SHARE. */
    HIKEBOX_SHARE_TOO_LARGE = 36,
    /* The quota's period is below HIKEBOX_MIN_PERIOD. */
    HIKEBOX_PERIOD_TOO_SHORT = 37,
    /* A step of a quota or of a limit lost 64 races with others. */
    HIKEBOX_RACES_LOST = 38,
    /* The pass draws on no quota, whose terms could be set. */
    HIKEBOX_NO_TERMS = 39,

    /* The report is none of HIKEBOX_NO_REPORT, HIKEBOX_WON and HIKEBOX_LOST. */
    HIKEBOX_NO_SUCH_REPORT = 40,
    /* A run is reported, and none is under way. */
    HIKEBOX_NO_RUN = 41,
    /* The two passes draw on different kinds of things: a budget, a quota or nothing. */
    HIKEBOX_DRAWS_ELSEWHERE = 42,
    /* The pass has no ticket to hand back: it drew none since it handed one back, or it draws on no quota. */
    HIKEBOX_NOTHING_TO_HAND_BACK = 43,
    /* More requests are counted at once than the pass has parts. */
    HIKEBOX_TOO_MANY_REQUESTS = 44,

    /* The leased pass has no ticket at hand, and the store may be asked for a lease. */
    HIKEBOX_LEASE_WANTED = 50,
    /* The ticket is not out: it was not drawn with this pass, was handed back already, or is of another window. */
    HIKEBOX_NOT_OUT = 51,
    /* The range was granted already: the leased pass has some of its numbers, at hand or out, or had them in a span
     * that it no longer keeps. */
    HIKEBOX_HELD_ALREADY = 52,

    /* A draw would take the bucket's level below its floor. */
    HIKEBOX_LEVEL_LOW = 60,
    /* As many requests are in flight as the limit admits. */
    HIKEBOX_REQUESTS_FULL = 61,
    /* As many retries are in flight as the requests in flight allow. */
    HIKEBOX_RETRIES_FULL = 62,
    /* The breaker is open. */
    HIKEBOX_BREAKER_OPEN = 63,
    /* The breaker is half open, and all its probes are out. */
    HIKEBOX_PROBING = 64,
    /* The throttle refuses: too few of the latest requests were accepted. */
    HIKEBOX_THROTTLED = 65,
    /* A request is under way and another asks to be admitted, or none is and one asks for a retry. */
    HIKEBOX_OUT_OF_TURN = 66,

    /* By its pace, the call would wait too long. */
    HIKEBOX_TOO_SOON = 70
};

/* Returns what a status means in a few words, such as "there is no ticket", or "no such status" for another number. The
 * text ends with a zero byte and stays valid as long as the library is loaded. */
HIKEBOX_IMPORTED const char *hikebox_status_text(hikebox_status status);

/* Returns the version of the library that is linked or loaded; HIKEBOX_VERSION is that of this header. */
HIKEBOX_IMPORTED const char *hikebox_version(void);

/* What the library is built for: the target, as in "x86_64-unknown-linux-gnu proved". Where it is not proved for that
 * target it says for which one the same module is: "x86_64-pc-windows-gnu of x86_64-unknown-linux-gnu". */
HIKEBOX_IMPORTED const char *hikebox_build(void);

/* The handles. */
typedef struct {
    void *held;
} hikebox_policy;
typedef struct {
    void *held;
} hikebox_pass;
typedef struct {
    void *held;
} hikebox_retry;
typedef struct {
    void *held;
} hikebox_leased;
typedef struct {
    void *held;
} hikebox_limit;
typedef struct {
    void *held;
} hikebox_pace;

/* A handle that holds nothing. */
#define HIKEBOX_INIT                                                                                                   \
    { NULL }

/* ---- Policies ---------------------------------------------------------------------------------------------------- */

/* Where a text stops being JSON: its line and column, counted from 1; both are 0 if that is not known. */
typedef struct {
    uint64_t line;
    uint64_t column;
} hikebox_place;

/* Reads a policy from JSON, whose whole text is the `length` bytes at `json`, and puts it into `policy`. It always
 * writes `place`: the place of the error for HIKEBOX_NOT_JSON, and otherwise 0, 0. HIKEBOX_FULL; HIKEBOX_NOT_JSON; for
 * the value HIKEBOX_NOT_A_POLICY, _OUT_OF_RANGE, _TOO_DEEP, _TOO_MANY, the first fault as `zsched plan` finds it;
 * HIKEBOX_NO_MEMORY, at any point. */
HIKEBOX_CHECKED hikebox_status hikebox_policy_read(const char *json, size_t length, hikebox_policy *policy,
                                                   hikebox_place *place);

/*
 * Says what is wrong with a text that hikebox_policy_read refuses, and where, in the words of `zsched check`: the place
 * of the first fault, `top` or the steps to it, and what was expected there and what was found, such as
 *     meet[1].cap[1]: no node is called "exponental"; did you mean "exponential"?
 * or `not JSON: line 2, column 7: the text ends too soon`. The text is empty if it is a policy. The bytes, in UTF-8
 * with no zero byte after them, are written to `text`, which has room for `capacity`, and their number to `length`.
 * HIKEBOX_NO_MEMORY; _NO_ROOM, and then `length` is the room that is needed.
 */
HIKEBOX_CHECKED hikebox_status hikebox_policy_fault(const char *json, size_t json_length, char *text, size_t capacity,
                                                    size_t *length);

/* Puts the same policy into `other`, for another thread for example. Both handles have it, and no copy is made. A
 * policy never changes. It lives as long as a handle or a retry has it. HIKEBOX_FULL; _EMPTY; _WRONG_KIND; _NO_MEMORY.
 */
HIKEBOX_CHECKED hikebox_status hikebox_policy_share(hikebox_policy *policy, hikebox_policy *other);

/*
 * Makes the policy of one node and puts it into `made`: the node of this name, of `length` bytes, with these `count`
 * numbers, over the policies in `first` and `second`. It is the policy that hikebox_policy_read reads from
 * {"NAME":[numbers, first, second]}. An empty handle stands for no policy: for a node over none both are empty, and for
 * a node over one `second` is. Both policies stay in their handles and are copied. Pass two different handles, even for
 * the same policy. `gate` and `gather` have words among their parameters, so only JSON makes them. HIKEBOX_FULL;
 * _WRONG_KIND; _NOT_A_POLICY: no node has this name with so many numbers and policies; _OUT_OF_RANGE; _TOO_DEEP;
 * _TOO_MANY; _NO_MEMORY, at any point.
 */
HIKEBOX_CHECKED hikebox_status hikebox_policy_node(const char *name, size_t length, const uint64_t *numbers,
                                                   size_t count, hikebox_policy *first, hikebox_policy *second,
                                                   hikebox_policy *made);

/* Writes the policy as JSON without spaces, which hikebox_policy_read reads as the same policy. The bytes, with no zero
 * byte after them, go to `text`, which has room for `capacity`, and their number to `length`. HIKEBOX_EMPTY;
 * _WRONG_KIND; _NO_MEMORY; _NO_ROOM, and then `length` is the room that is needed. */
HIKEBOX_CHECKED hikebox_status hikebox_policy_json(hikebox_policy *policy, char *text, size_t capacity, size_t *length);

/* Writes how many nodes the policy has, at most 256; how deep it is, at most 32; and at how many events it goes on at
 * most, or HIKEBOX_NO_BOUND if its nodes give no such number. HIKEBOX_EMPTY; _WRONG_KIND. */
HIKEBOX_CHECKED hikebox_status hikebox_policy_size(hikebox_policy *policy, uint64_t *nodes, uint64_t *depth,
                                                   uint64_t *most);

/* What a policy reads of an event beside its moment. */
enum {
    HIKEBOX_READS_LANE_0 = 1,
    HIKEBOX_READS_LANE_1 = 2,
    HIKEBOX_READS_LANE_2 = 4,
    HIKEBOX_READS_LANE_3 = 8,
    HIKEBOX_READS_INPUT = 16
};

/* Writes what the policy reads, as a sum: HIKEBOX_READS_LANE_0 to _3 for each lane whose random word a node reads, and
 * HIKEBOX_READS_INPUT if a node reads its input. A program can leave the other words at 0. HIKEBOX_EMPTY; _WRONG_KIND.
 */
HIKEBOX_CHECKED hikebox_status hikebox_policy_reads(hikebox_policy *policy, uint64_t *reads);

/* How a policy is stepped along a course. HIKEBOX_COURSE has ten events, the first at the moment 0. */
typedef struct {
    /* The size of this struct. */
    size_t size;
    /* The most events, 0 to HIKEBOX_MAX_STEPS. */
    uint64_t steps;
    /* The moment of the first event. */
    uint64_t from;
    /* The time from the start that was planned at an event to the next event. */
    uint64_t took;
} hikebox_course;

#define HIKEBOX_COURSE                                                                                                 \
    { sizeof(hikebox_course), 10, 0, 0 }

/* An event of a course. */
typedef struct {
    /* Its input: the code of a failure. */
    uint64_t input;
    /* Its random words, one for each lane. */
    uint32_t words[4];
} hikebox_event;

/* What a policy does at an event of a course. */
typedef struct {
    /* The moment of the event. */
    uint64_t moment;
    /* The start that is planned, or 0. */
    uint64_t start;
    /* Where its output ends among the bytes of all outputs; it begins where the one before ends. */
    uint64_t text_to;
    /* Whether the policy goes on, at `start`. */
    bool goes_on;
} hikebox_line;

/*
 * Writes what the policy does along a course, as `zsched plan` prints it: a line for each event, up to the first at
 * which it does not go on. Event k has the input and the words of number k of the `given` ones at `events`; each event
 * past them has those of the last. The lines go to `lines`, which has room for `capacity`, and their number to `count`.
 * HIKEBOX_WRONG_SIZE; _OUT_OF_RANGE, of a number of the course or an input, and if there is no event; _EMPTY;
 * _WRONG_KIND; _NO_MEMORY; _NO_ROOM, and then `count` is the room that is needed.
 */
HIKEBOX_CHECKED hikebox_status hikebox_policy_course(hikebox_policy *policy, const hikebox_course *course,
                                                     const hikebox_event *events, size_t given, hikebox_line *lines,
                                                     size_t capacity, size_t *count);

/* Writes the outputs of the same lines as text, one after another and with no zero byte: `()`, a decimal number,
 * `(a, b)` or `[a, b, c]`. They go to `text`, which has room for `room`, and the number of all their bytes, the last
 * line's `text_to`, to `length`. The same refusals; with _NO_ROOM, `length` is the room that is needed. */
HIKEBOX_CHECKED hikebox_status hikebox_policy_outputs(hikebox_policy *policy, const hikebox_course *course,
                                                      const hikebox_event *events, size_t given, char *text,
                                                      size_t room, size_t *length);

/* Frees the handle's share of the policy. HIKEBOX_EMPTY; _WRONG_KIND. */
hikebox_status hikebox_policy_free(hikebox_policy *policy);

/* ---- Passes ------------------------------------------------------------------------------------------------------ */

/*
 * A retry draws on a budget, a quota or nothing. A program holds these by passes, which are one kind of handle: the
 * makers differ, and the calls don't. Each thread draws with a pass of its own. A budget or a quota lives as long as it
 * has a pass. A draw takes no lock and no memory, and never waits. The first pass has 2^62 parts. A split hands on 2^20
 * of them, or one if the pass has no more than that, and a join gives them back, so you can split and join passes
 * without end.
 *
 * A budget is a number of tickets, numbered from 0. Each is drawn once.
 *
 * A quota cuts time into windows of `period` milliseconds, which begin at multiples of `period`. In each window it
 * gives out at most `reserve` tickets, and `share` thousandths of a ticket for each request counted in it so far,
 * rounded down, and never more than HIKEBOX_MAX_TICKETS. A ticket that is handed back (hikebox_pass_hand_back) is given
 * out once more, so the draws of a window are at most that, and one for each ticket handed back in it. What a window
 * has left is lost with it, unless the quota carries. The program counts each request once, before its first run, by
 * hikebox_pass_deposit.
 *
 * If a quota carries, each window may first draw, once, what the window before left of its share: the share of its
 * requests, or what it could still have given if that is less, by the terms that the first granted draw of the later
 * window reads. Each window then gives at most 2^31 tickets of its own, and leaves at most as many. So over any run of
 * windows the tickets are at most a reserve for each window, and the share of the requests of these windows and of the
 * one before the first.
 *
 * Windows are counted from the one in which the quota is made. A deposit, a draw (even one that gets no ticket) and a
 * look open the window of their own moment for all passes of the quota, and no other: the windows between give no
 * ticket. From then on it is the latest window, and a call with an earlier moment counts in the latest window. So if
 * every clock is right, there are between two moments that are n periods apart at most n + 2 reserves and the shares of
 * the requests, however long the quota was idle (and if it carries, the share of the requests of the window before
 * them). Each call whose clock is ahead adds at most one reserve and its share; no other window begins before `next` of
 * hikebox_usage, which is then that far ahead. With its 2^32nd request a window ends before its time, and the next one
 * begins, with its reserve. The last window that a moment opens has the number 2999999999, and contains each later
 * moment; once it has had 2^32 requests, those of later calls are not counted.
 *
 * Nothing grants each draw, and counts it: the policy alone bounds the retries.
 */

/* Makes a budget of `limit` tickets and puts its first pass into `pass`. HIKEBOX_FULL; _LIMIT_TOO_LARGE; _NO_MEMORY. */
HIKEBOX_CHECKED hikebox_status hikebox_budget_fixed(uint64_t limit, hikebox_pass *pass);

/* The same with a limit that can be raised. A refused draw uses no ticket up: raising the limit by some grants as many
 * more tickets. */
HIKEBOX_CHECKED hikebox_status hikebox_budget_rising(uint64_t limit, hikebox_pass *pass);

/* Makes a quota at the moment `now`, which carries if `carries` is true, and puts its first pass into `pass`.
 * HIKEBOX_TOO_LARGE, of the moment; _FULL; _RESERVE_TOO_LARGE; _SHARE_TOO_LARGE; _PERIOD_TOO_SHORT; _TOO_LARGE, of the
 * period; _NO_MEMORY. */
HIKEBOX_CHECKED hikebox_status hikebox_quota_new(uint64_t now, uint64_t reserve, uint64_t share, uint64_t period,
                                                 bool carries, hikebox_pass *pass);

/* Puts a pass that draws on nothing into `pass`. HIKEBOX_FULL; _NO_MEMORY. */
HIKEBOX_CHECKED hikebox_status hikebox_pass_unlimited(hikebox_pass *pass);

/*
 * Draws a ticket at the moment `now`, and writes its number, which no other draw of the budget or of the quota gets.
 * For a budget it is below the limit. For a quota it is of the window of `now`, or of the latest window if that is
 * later; the number divided by 2^32 is that of the window, or of the one before if the ticket was carried from there.
 * For nothing it is how many this pass was granted before. Only a quota heeds the moment. HIKEBOX_TOO_LARGE; _EMPTY;
 * _WRONG_KIND; _NO_TICKET; of a quota _RACES_LOST.
 *
 * _NO_TICKET of a budget: as many were drawn as the limit. If the budget keeps its limit, the pass is refused for good;
 * if it is rising, the pass draws again once the limit is raised. Of a quota: the window has given out as many as its
 * requests allow; _RACES_LOST: 64 other draws came first during this call. Either way the pass may draw again: more
 * requests and later windows bring more tickets. _NO_TICKET of nothing: 2^64 - 1 were granted.
 */
HIKEBOX_CHECKED hikebox_status hikebox_pass_draw(hikebox_pass *pass, uint64_t now, uint64_t *ticket);

/* Counts requests of a quota in the window of `now`, or in the latest window if that is later: one, or several at once,
 * for an expensive request or for those of a while. Past the last window it counts none, and a pass of a budget or of
 * nothing counts none. HIKEBOX_TOO_LARGE, of the moment; _EMPTY; _WRONG_KIND; _TOO_MANY_REQUESTS: they are more than
 * the pass of a quota has parts; a pass that was split off has at most 1,048,576. */
HIKEBOX_CHECKED hikebox_status hikebox_pass_deposit(hikebox_pass *pass, uint64_t now, uint64_t requests);

/* Hands back the latest ticket of a quota that was drawn with this pass, or with one joined into it since: for a retry
 * that was cancelled while it waited, or for the last retry of a call that succeeded. Any pass may then draw one more
 * in the ticket's window; if that window is over, or the ticket was carried, none may. HIKEBOX_EMPTY; _WRONG_KIND;
 * _NOTHING_TO_HAND_BACK: no ticket was drawn since one was handed back, or the pass is of a budget or of nothing;
 * _RACES_LOST: 64 other tickets came back first during this call. */
HIKEBOX_CHECKED hikebox_status hikebox_pass_hand_back(hikebox_pass *pass);

/* Sets the reserve and the share of a quota. Each draw with any pass goes by them from now on, in the present window
 * too; the period stays. HIKEBOX_EMPTY; _WRONG_KIND; _NO_TERMS, of a budget and of nothing; _RESERVE_TOO_LARGE;
 * _SHARE_TOO_LARGE. */
HIKEBOX_CHECKED hikebox_status hikebox_pass_set_terms(hikebox_pass *pass, uint64_t reserve, uint64_t share);

/* Puts a new pass of the same budget or quota, or of nothing, into `part`. It has no ticket. HIKEBOX_FULL; _EMPTY;
 * _WRONG_KIND; _NO_MEMORY; _TOO_MANY_PASSES: the pass has one part. */
HIKEBOX_CHECKED hikebox_status hikebox_pass_split(hikebox_pass *pass, hikebox_pass *part);

/* Joins `other` into `pass`, which then has the tickets and parts of both; `other` is then empty. Both are of the same
 * budget or quota, or both of nothing. Of `other`, then of `pass`, HIKEBOX_EMPTY and _WRONG_KIND; _DRAWS_ELSEWHERE. */
HIKEBOX_CHECKED hikebox_status hikebox_pass_join(hikebox_pass *pass, hikebox_pass *other);

/* Raises the limit of a rising budget to `to`, unless it is higher already, and writes it to `limit`. HIKEBOX_EMPTY;
 * _WRONG_KIND; of a budget _LIMIT_TOO_LARGE; _FIXED, also of a quota and of nothing. */
HIKEBOX_CHECKED hikebox_status hikebox_pass_raise(hikebox_pass *pass, uint64_t to, uint64_t *limit);

/* Writes how many tickets were drawn with this pass, and with those joined into it, and not handed back: 0 if each of
 * 1,000 came back. HIKEBOX_EMPTY; _WRONG_KIND. */
HIKEBOX_CHECKED hikebox_status hikebox_pass_count(hikebox_pass *pass, uint64_t *tickets);

/* The use of a window of a quota. */
typedef struct {
    /* The size of this struct. */
    size_t size;
    /* Which window it is, from 0 on. */
    uint64_t window;
    /* The requests that were counted in it. */
    uint64_t asked;
    /* The tickets of its own that it has given out, less those that were handed back. */
    uint64_t given;
    /* The tickets that it may still give for the requests counted, and those carried to it. */
    uint64_t left;
    /* When the next window begins; HIKEBOX_MAX_NUMBER for the last. */
    uint64_t next;
} hikebox_usage;

#define HIKEBOX_USAGE                                                                                                  \
    { sizeof(hikebox_usage), 0, 0, 0, 0, 0 }

/* Writes the use of a quota's window of `now`, or of the latest window if that is later, and when the next one begins.
 * HIKEBOX_WRONG_SIZE; _TOO_LARGE; _EMPTY; _WRONG_KIND, also of a pass of a budget or of nothing: these have no windows.
 */
HIKEBOX_CHECKED hikebox_status hikebox_pass_seen(hikebox_pass *pass, uint64_t now, hikebox_usage *usage);

/* Closes the budget or the quota if this pass has all its parts: frees it, and writes exactly how many tickets were
 * drawn of it and not handed back, for a quota in all windows. It takes no memory. HIKEBOX_EMPTY; _WRONG_KIND;
 * _PASSES_OUT, exactly if the pass has fewer parts: a handle or a retry holds another pass, or one was freed. The pass
 * then goes on as before. A pass of nothing is always closed, and its own tickets are written. */
HIKEBOX_CHECKED hikebox_status hikebox_pass_close(hikebox_pass *pass, uint64_t *tickets);

/* Frees the pass, with its tickets. The budget or the quota can't be closed after that; its other passes go on.
 * HIKEBOX_EMPTY; _WRONG_KIND. */
hikebox_status hikebox_pass_free(hikebox_pass *pass);

/* Writes how many tickets a window of `asked` requests may give, for a quota with this reserve and share: `reserve`,
 * and `share` thousandths of a ticket for each of the first HIKEBOX_MAX_TICKETS requests; at most HIKEBOX_MAX_TICKETS.
 * It always returns HIKEBOX_OK. */
HIKEBOX_CHECKED hikebox_status hikebox_quota_allows(uint64_t reserve, uint64_t share, uint64_t asked,
                                                    uint64_t *tickets);

/* ---- Leases ------------------------------------------------------------------------------------------------------ */

/*
 * Processes share a budget or a quota by a store that keeps three numbers for it: a file, a server, a row of a table. A
 * process that needs tickets leases a range of them in one step of the store: it reads the store's numbers, passes them
 * to one of the two calls below, and stores what they are then, with no other step between. It hands the range to a
 * leased pass, and draws from that without the store.
 *
 * However the steps of all processes follow one another, each number of a window is in at most one range. If all of
 * them name the same limit or terms, the ranges of a window have together at most as many tickets as the window may
 * give for the requests reported in it. That holds for a store that keeps its numbers, skips tickets, loses requests,
 * or goes on to later windows; it does not hold for one that goes back to what it kept earlier.
 */

/* What a store keeps. Each number is 0 for a budget or a quota that it doesn't know yet. */
typedef struct {
    /* The number of the window of its last lease; always 0 if there are no windows. */
    uint64_t window;
    /* How many tickets of that window were leased. */
    uint64_t given;
    /* How many requests of that window were reported. */
    uint64_t asked;
} hikebox_stored;

/* What a process asks of a store. */
typedef struct {
    /* The present window, by the store's clock: its moment divided by the window's length. */
    uint64_t window;
    /* The requests of that window that the process reports. */
    uint64_t told;
    /* How many tickets it asks for. */
    uint64_t wanted;
} hikebox_asking;

/* A range of tickets, from the number `first` on. */
typedef struct {
    uint64_t first;
    uint64_t tickets;
} hikebox_range;

/* Leases tickets of a budget that has `limit` of them, in all or in each window: those that follow the ones leased
 * before, as many of the wanted ones as there are, or none. `stored` then has what the store must keep before anything
 * is drawn from the range. HIKEBOX_BACKWARDS: the store counts a later window, and no longer has the count of the one
 * that is asked for. */
HIKEBOX_CHECKED hikebox_status hikebox_lease_of_budget(uint64_t limit, const hikebox_asking *asking,
                                                       hikebox_stored *stored, hikebox_range *range);

/* The same for a window of a quota, which has as many tickets as hikebox_quota_allows writes for the window's requests,
 * including those that are reported now. HIKEBOX_BACKWARDS. */
HIKEBOX_CHECKED hikebox_status hikebox_lease_of_quota(uint64_t reserve, uint64_t share, const hikebox_asking *asking,
                                                      hikebox_stored *stored, hikebox_range *range);

/*
 * A leased pass is what one thread or process has of a budget or a quota that a store keeps: tickets of one window.
 * Some are at hand, and may be drawn until the window ends. Others are out: they were drawn, and each may come back
 * once while the pass is in their window. A leased pass has no clock, no store and no lock. The program asks the store,
 * hands over what it answered, and uses each pass from one thread at a time.
 *
 *     status = hikebox_leased_draw(&leased, now(), &ticket, &again);
 *     if (status == HIKEBOX_LEASE_WANTED) {
 *         grant = ask_the_store();                          in its step: hikebox_leased_tell and hikebox_lease_of_quota
 *         hikebox_leased_granted(&leased, &grant);          or, if it failed: hikebox_leased_leave_alone
 *         status = hikebox_leased_draw(&leased, now(), &ticket, &again);
 *     }
 *
 * Whatever a store answers, and however often an answer is handed over, a pass draws each number of a window at most
 * once more than it was handed back, and draws none once the window is over. Now take all passes of a limit, if each
 * range comes from the store or from hikebox_leased_lend. They draw each number at most once more than it was handed
 * back. If all of them name the same limit or terms, the tickets drawn in a window are at most as many as it may give
 * for the requests that were reported, and one for each that was handed back. Answers that are lost or late cost
 * tickets, and break nothing.
 *
 * A pass keeps 1,024 spans of the numbers that are out; numbers that follow one another are one span. A ticket of an
 * earlier span does not come back, and a range that begins before the end of such a span is refused. A forked child
 * must begin a pass anew: two processes that go on with one pass's tickets would draw them twice.
 *
 * A retry does not draw by a leased pass, since it would have to wait for the store within a poll. The program gives it
 * a pass of nothing, and draws by hand when a poll that reported HIKEBOX_LOST goes on: without a ticket it cancels the
 * retry.
 */

/* A ticket of a leased pass: its window, and its number there. */
typedef struct {
    uint64_t window;
    uint64_t number;
} hikebox_ticket;

/* What a store granted: `tickets` numbers of a window from `first` on, or none, and the moment at which the window
 * ends, by the program's clock: HIKEBOX_MAX_NUMBER if there are no windows. */
typedef struct {
    uint64_t window;
    uint64_t first;
    uint64_t tickets;
    uint64_t until;
} hikebox_grant;

/* Puts a leased pass without tickets into `leased`. `period` is the length of the store's windows, or 0 if there are
 * none. Requests are counted by sixteenths of a window. HIKEBOX_FULL; _TOO_LARGE; _NO_MEMORY. */
HIKEBOX_CHECKED hikebox_status hikebox_leased_new(uint64_t period, hikebox_leased *leased);

/* Draws one of the tickets at hand, at the moment `now`. HIKEBOX_TOO_LARGE; _EMPTY; _WRONG_KIND; _LEASE_WANTED: none
 * is at hand, or the window is over, and the store may be asked; _NO_TICKET: the same, and the store is not to be asked
 * before the moment written to `again`; _NO_MEMORY. */
HIKEBOX_CHECKED hikebox_status hikebox_leased_draw(hikebox_leased *leased, uint64_t now, hikebox_ticket *ticket,
                                                   uint64_t *again);

/*
 * Takes what the store granted. A range of the pass's window is added to what the pass has; the window ends at the
 * earliest end that was given for it. A range of a later window takes the pass to that window, and the pass has nothing
 * of the earlier one any more. After a range with tickets the store may be asked as soon as they are used up, and after
 * one without any from its `until` on. HIKEBOX_TOO_LARGE, of `until`; _EMPTY; _WRONG_KIND; _TOO_LARGE, of first +
 * tickets past 2^64 - 1; _BACKWARDS: it is of a window before the pass's, and its tickets are lost; _HELD_ALREADY;
 * _NO_MEMORY.
 */
HIKEBOX_CHECKED hikebox_status hikebox_leased_granted(hikebox_leased *leased, const hikebox_grant *grant);

/* Leaves the store alone until this moment, for instance after it failed: before it, a draw that needs a lease returns
 * _NO_TICKET. 0 ends that. HIKEBOX_TOO_LARGE; _EMPTY; _WRONG_KIND. */
HIKEBOX_CHECKED hikebox_status hikebox_leased_leave_alone(hikebox_leased *leased, uint64_t until);

/* Hands back a ticket that was drawn with this pass and not used: it may be drawn again while its window lasts.
 * HIKEBOX_EMPTY; _WRONG_KIND; _NOT_OUT; _NO_MEMORY, and then it is still out. */
HIKEBOX_CHECKED hikebox_status hikebox_leased_hand_back(hikebox_leased *leased, const hikebox_ticket *ticket);

/* Counts requests at the moment `now`, to be reported to the store. HIKEBOX_TOO_LARGE; _EMPTY; _WRONG_KIND; _NO_MEMORY.
 */
HIKEBOX_CHECKED hikebox_status hikebox_leased_deposit(hikebox_leased *leased, uint64_t now, uint64_t requests);

/* Writes how many requests to report to the store, whose present window began at the moment `since`: those counted from
 * then on, at most 2^64 - 1, but not the first of them if they were counted together with some from before. Requests
 * counted so far are not reported again, even if the store then fails. HIKEBOX_TOO_LARGE; _EMPTY; _WRONG_KIND. */
HIKEBOX_CHECKED hikebox_status hikebox_leased_tell(hikebox_leased *leased, uint64_t since, uint64_t *requests);

/* Writes how many tickets of all windows were drawn with this pass and not handed back, how many are at hand, and how
 * many requests were counted and not reported. HIKEBOX_EMPTY; _WRONG_KIND. */
HIKEBOX_CHECKED hikebox_status hikebox_leased_seen(hikebox_leased *leased, uint64_t *drawn, uint64_t *at_hand,
                                                   uint64_t *untold);

/* Gives up to `tickets` of those at hand, in one range, to another pass of the same limit, which takes what is written
 * to `grant` by hikebox_leased_granted. From then on `leased` may take these tickets again, as when they are lent back:
 * so hand it no answer of the store twice. HIKEBOX_EMPTY; _WRONG_KIND; _NO_TICKET: none is at hand, or `tickets` is 0.
 */
HIKEBOX_CHECKED hikebox_status hikebox_leased_lend(hikebox_leased *leased, uint64_t tickets, hikebox_grant *grant);

/* Frees the pass, with what it has. HIKEBOX_EMPTY; _WRONG_KIND. */
hikebox_status hikebox_leased_free(hikebox_leased *leased);

/* ---- Limits ------------------------------------------------------------------------------------------------------ */

/*
 * Limits of other systems: a bucket of tokens, a bound on the retries in flight, an adaptive bound on the requests in
 * flight, a circuit breaker, and a throttle. The makers differ, and the calls don't. Each thread asks with a handle of
 * its own, which hikebox_limit_split gives it. A handle serves one request at a time. A call takes no lock and no
 * memory, and never waits.
 *
 *     won = false;
 *     status = hikebox_limit_admit(&limit, now(), random(), &number);
 *     while (status == HIKEBOX_OK && !(won = run())) {
 *         hikebox_limit_failed(&limit, now());
 *         if (!policy_goes_on())
 *             break;
 *         status = hikebox_limit_draw(&limit, now(), cost, random(), &number);
 *         if (status == HIKEBOX_OK)
 *             wait();
 *     }
 *     if (won)
 *         hikebox_limit_succeeded(&limit, now());
 *     hikebox_limit_ended(&limit);
 *
 * All calls on a limit, with any handles and from any threads, act as one sequence: each acts on the state that the one
 * before it left. A request holds its place among the requests in flight, and the slot of its retry. When it ends, or
 * when its handle is freed, what it still holds is given back, once. A breaker's probe is nothing that a request holds:
 * without a result it counts as out until the deadline of the probes. `random` is a random number of 32 bits, which
 * only a throttle reads. `cost` is in thousandths of a token, and only a bucket reads it. `number` is written if the
 * call is refused: the level of the bucket, or the moment until which the breaker is open, and otherwise 0.
 */

/* A bucket. Its levels are in thousandths of a token, and it is full at first. */
typedef struct {
    /* The size of this struct. */
    size_t size;
    /* The level of a full bucket, at most 2^40. The numbers below are at most as much. */
    uint64_t capacity;
    /* The least level that a draw may leave. */
    uint64_t floor;
    /* What each failed run takes, down to 0. */
    uint64_t debit;
    /* What each success gives back, up to the capacity. */
    uint64_t credit;
    /* Whether a success of a request that drew gives back the cost of its last draw instead of the credit. */
    bool refund;
} hikebox_bucket;

/* gRPC's retryThrottling with this `maxTokens`, and this `tokenRatio` in thousandths: each failure takes a token, and a
 * retry is granted while more than half are left. A draw costs nothing. */
#define HIKEBOX_BUCKET_GRPC(max_tokens, token_ratio)                                                                   \
    {                                                                                                                  \
        sizeof(hikebox_bucket), UINT64_C(1000) * (max_tokens), UINT64_C(500) * (max_tokens) + 1, 1000,                 \
            UINT64_C(1) * (token_ratio), false                                                                         \
    }

/* The standard mode of the AWS SDKs: 500 tokens. A draw costs 5,000 thousandths, and 10,000 after a timeout. */
#define HIKEBOX_BUCKET_AWS                                                                                             \
    { sizeof(hikebox_bucket), 500000, 0, 0, 1000, true }

/* Makes a bucket. HIKEBOX_WRONG_SIZE; _FULL; _OUT_OF_RANGE; _NO_MEMORY. */
HIKEBOX_CHECKED hikebox_status hikebox_bucket_new(const hikebox_bucket *bucket, hikebox_limit *limit);

/* The `most` of a bound that sets none: as many requests in flight as can be counted. */
#define HIKEBOX_NO_MOST UINT32_C(4294967295)

/*
 * Makes a bound on what is in flight. Requests are at most `most`, and else HIKEBOX_NO_MOST; retries are at most the
 * greater of `least`, and `share` thousandths of the requests in flight. For Envoy's retry_budget, `least` is
 * `min_retry_concurrency` (3 by default), and `share` is ten times `budget_percent` (200 by default). A request is in
 * flight from its admission to its end. A retry is in flight from its draw to the request's next draw or its end, or
 * until it is cancelled. HIKEBOX_FULL; _NO_MEMORY.
 */
HIKEBOX_CHECKED hikebox_status hikebox_in_flight_new(uint32_t least, uint32_t share, uint32_t most,
                                                     hikebox_limit *limit);

/* An adaptive limit. It finds by itself how many requests at once its peer bears. */
typedef struct {
    /* The size of this struct. */
    size_t size;
    /* The least and the most requests in flight that it admits, and how many at first: 1 <= least <= first <= most <=
     * 65,535. */
    uint64_t least;
    uint64_t most;
    uint64_t first;
    /* How many thousandths of its level a failure leaves, 1 to 999. */
    uint64_t backoff;
} hikebox_adaptive;

/* From 1 to 200 requests, at first 20. A failure leaves nine tenths. */
#define HIKEBOX_ADAPTIVE                                                                                               \
    { sizeof(hikebox_adaptive), 1, 200, 20, 900 }

/*
 * Makes an adaptive limit. It admits as many requests at once as its level, in thousandths, which is at first `first`.
 * A failure multiplies the level by `backoff`, down to `least`. A success while at least half of the level is in use
 * adds to it, one request for as many successes as it admits, up to `most`. It grants each retry. HIKEBOX_WRONG_SIZE;
 * _FULL; _OUT_OF_RANGE; _NO_MEMORY.
 */
HIKEBOX_CHECKED hikebox_status hikebox_adaptive_new(const hikebox_adaptive *adaptive, hikebox_limit *limit);

/* A breaker, without its open times. */
typedef struct {
    /* The size of this struct. */
    size_t size;
    /* How many failures open it, 1 to 2^32 - 1: in a row, or among its last results. */
    uint64_t failures;
    /* How many probes a half open breaker admits, and how many successes close it: 1 to 15. */
    uint64_t probes;
    /* If all probes are out, how many milliseconds after the last one a half open breaker begins anew. */
    uint64_t deadline;
    /* Among how many of its last results the failures count: from `failures` to 32. 0: they count in a row. */
    uint64_t results;
} hikebox_breaker;

/* Opens after five failures in a row, with one probe and a deadline of 30 seconds. */
#define HIKEBOX_BREAKER                                                                                                \
    { sizeof(hikebox_breaker), 5, 1, 30000, 0 }

/*
 * Makes a breaker at the moment `now`, which is closed. It is open for the first of these `count` times, in
 * milliseconds, and for the next one each time that a probe fails. After the last one, it is that one again. A policy
 * gives such times by hikebox_policy_course: `start` less `moment` of each line. The clock of a breaker stands still
 * from 2^37 - 1 ms after `now` on, which is more than four years: make a new one before then. HIKEBOX_WRONG_SIZE;
 * _TOO_LARGE, of the moment; _FULL; _OUT_OF_RANGE, of a number of the breaker, and if there are no times, or more than
 * 64; _NO_MEMORY.
 */
HIKEBOX_CHECKED hikebox_status hikebox_breaker_new(uint64_t now, const hikebox_breaker *breaker, const uint64_t *times,
                                                   size_t count, hikebox_limit *limit);

/*
 * Makes a throttle at the moment `now`. It counts requests and accepts over two windows of `period` milliseconds, the
 * present one and the one before; the first begins at `now`. It refuses a request or a retry with the probability
 * (requests - ratio/1000 x accepts) / (requests + 1), if that is above 0, and counts what it refuses as a request too.
 * The SRE book has a ratio of 2000 over two minutes, a period of 60000. A window counts at most 1,048,575 requests, and
 * as many accepts. HIKEBOX_TOO_LARGE, of the moment; _FULL; _OUT_OF_RANGE: the ratio is below 1000, or the period is 0
 * or above HIKEBOX_MAX_NUMBER; _NO_MEMORY.
 */
HIKEBOX_CHECKED hikebox_status hikebox_throttle_new(uint64_t now, uint32_t ratio, uint64_t period,
                                                    hikebox_limit *limit);

/*
 * Joins the limits of another handle into `limit`, whose own are asked first; `second` is then empty. From then on all
 * admit a request or grant a retry, or none is charged: if one refuses, what those before it gave comes back. Put
 * breakers and throttles last: a probe that a breaker admitted does not come back, nor does what a throttle counted.
 * A draw takes the same `cost` of each bucket among them. If a request is under way on one of them alone, calls are out
 * of turn until hikebox_limit_ended. HIKEBOX_EMPTY; _WRONG_KIND; _OUT_OF_RANGE: they are more than four. Both handles
 * are then as they were.
 */
HIKEBOX_CHECKED hikebox_status hikebox_limit_both(hikebox_limit *limit, hikebox_limit *second);

/* Puts another handle of the same limit, which has no request, into `part`. A handle that was made is split up to 2^42
 * times, one that was split off it fewer than 2^20 times, and one that was split off that never. So give
 * hikebox_limit_both handles that were made, or that were split off those. HIKEBOX_FULL; _EMPTY; _WRONG_KIND;
 * _NO_MEMORY; _TOO_MANY_PASSES. */
HIKEBOX_CHECKED hikebox_status hikebox_limit_split(hikebox_limit *limit, hikebox_limit *part);

/*
 * Asks before the first run of a request. HIKEBOX_TOO_LARGE, of the moment; _EMPTY; _WRONG_KIND; _OUT_OF_TURN: the
 * handle's request before has not ended; of what is in flight and of an adaptive limit _REQUESTS_FULL; of a breaker
 * _BREAKER_OPEN and _PROBING; of a throttle _THROTTLED; _RACES_LOST: 64 other calls came first.
 */
HIKEBOX_CHECKED hikebox_status hikebox_limit_admit(hikebox_limit *limit, uint64_t now, uint32_t random,
                                                   uint64_t *number);

/*
 * Asks for a retry, after a run failed and the policy goes on, before the wait. The slot that an earlier retry of the
 * request held is given back. HIKEBOX_TOO_LARGE, of the moment; _EMPTY; _WRONG_KIND; _OUT_OF_TURN: no request is under
 * way; of a bucket _LEVEL_LOW; of what is in flight _RETRIES_FULL; of a breaker _BREAKER_OPEN and _PROBING; of a
 * throttle _THROTTLED; _RACES_LOST.
 */
HIKEBOX_CHECKED hikebox_status hikebox_limit_draw(hikebox_limit *limit, uint64_t now, uint64_t cost, uint32_t random,
                                                  uint64_t *number);

/* Reports that a run failed, whether it is retried or not. HIKEBOX_TOO_LARGE; _EMPTY; _WRONG_KIND. */
hikebox_status hikebox_limit_failed(hikebox_limit *limit, uint64_t now);

/* Reports that a run succeeded. HIKEBOX_TOO_LARGE; _EMPTY; _WRONG_KIND. */
hikebox_status hikebox_limit_succeeded(hikebox_limit *limit, uint64_t now);

/* Reports that the retry drawn last is cancelled while it waits: what it cost and its slot come back, once.
 * HIKEBOX_EMPTY; _WRONG_KIND. */
hikebox_status hikebox_limit_cancelled(hikebox_limit *limit);

/* Reports that the request is over, however it ended: what it holds is given back, once. HIKEBOX_EMPTY; _WRONG_KIND. */
hikebox_status hikebox_limit_ended(hikebox_limit *limit);

/* Ends the request, if one is under way, and frees the handle. The limit lives as long as it has a handle.
 * HIKEBOX_EMPTY; _WRONG_KIND. */
hikebox_status hikebox_limit_free(hikebox_limit *limit);

/* What a limit is: its kind, and of a breaker also its state. */
typedef enum {
    /* A bucket: `first` is its level, and `second` its capacity. */
    HIKEBOX_STATE_BUCKET = 1,
    /* A bound on what is in flight: `first` is the requests, `second` the retries, and `third` the most requests. */
    HIKEBOX_STATE_IN_FLIGHT = 2,
    /* A breaker that is closed: `first` is the failures in a row, or among its last results. */
    HIKEBOX_STATE_CLOSED = 3,
    /* A breaker that is open: `until` is the moment until which it is, and `first` which trip it is, from 1 on. It is
     * open until a request asks at that moment or later. */
    HIKEBOX_STATE_OPEN = 4,
    /* A breaker that is half open: `first` is the probes that it admitted, and `second` those that won. */
    HIKEBOX_STATE_HALF_OPEN = 5,
    /* A throttle: `first` is the requests, and `second` the accepts, of the present window and the one before. */
    HIKEBOX_STATE_THROTTLE = 6,
    /* An adaptive limit: `first` is the requests in flight, and `second` its level, in thousandths of one. */
    HIKEBOX_STATE_ADAPTIVE = 7
} hikebox_state_kind;

/* A limit's state. */
typedef struct {
    /* The size of this struct. */
    size_t size;
    /* A hikebox_state_kind, which says what the numbers are. Those that it does not name are 0. */
    uint64_t kind;
    uint64_t first;
    uint64_t second;
    uint64_t third;
    uint64_t until;
} hikebox_state;

/* A state to be written. */
#define HIKEBOX_STATE                                                                                                  \
    { sizeof(hikebox_state), 0, 0, 0, 0, 0 }

/* Reads the state of one limit of the handle: `which` counts from 0, in the order in which they are asked. Only a
 * throttle needs the moment. Nothing changes. HIKEBOX_WRONG_SIZE; _TOO_LARGE; _EMPTY; _WRONG_KIND; _OUT_OF_RANGE: the
 * handle has no such limit. */
HIKEBOX_CHECKED hikebox_status hikebox_limit_state(hikebox_limit *limit, uint32_t which, uint64_t now,
                                                   hikebox_state *state);

/* Opens each breaker of the handle by hand: it is open until the moment `until`, and this is its first trip. Results of
 * runs that were admitted before change nothing. HIKEBOX_TOO_LARGE, of either moment; _EMPTY; _WRONG_KIND, also if no
 * limit of the handle is a breaker. */
hikebox_status hikebox_breaker_open(hikebox_limit *limit, uint64_t now, uint64_t until);

/* Closes each breaker of the handle by hand: it has counted no failure. Results of runs that were admitted before
 * change nothing. HIKEBOX_TOO_LARGE; _EMPTY; _WRONG_KIND, also if no limit of the handle is a breaker. */
hikebox_status hikebox_breaker_close(hikebox_limit *limit, uint64_t now);

/* The words that a look saw, of the limits of a handle in the order in which they are asked. */
typedef struct {
    uint64_t first;
    uint64_t second;
    uint64_t third;
    uint64_t fourth;
} hikebox_seen;

/*
 * Looks whether all limits of the handle are quiet, and the handle has no request. A bucket is quiet while it is full,
 * and a breaker while it is closed and no failure counts, also not among its last results; other kinds never are.
 * Admitting a request, its success and its end leave a quiet limit as it is. So a look before the run and another one
 * after its success may stand for these three calls, with no moment and no change that other threads would wait for:
 *
 *     hikebox_seen before, after;
 *     bool quiet = false, begun;
 *     hikebox_limit_look(&limit, &before, &quiet);
 *     if (quiet) {
 *         won = run();
 *         if (won)
 *             hikebox_limit_look(&limit, &after, &quiet);
 *         if (!won || !quiet)
 *             hikebox_limit_begin(&limit, &before, &begun);
 *     }
 *
 * If the first look is not quiet, ask by hikebox_limit_admit. If the run failed, or the second look is not quiet, the
 * request begins by what the first look saw, and its other calls follow. `quiet` must hold a bool before the call.
 * HIKEBOX_EMPTY; _WRONG_KIND.
 */
hikebox_status hikebox_limit_look(hikebox_limit *limit, hikebox_seen *seen, bool *quiet);

/* Begins a request that was admitted when a look of this handle, which was quiet, saw these words, and writes to
 * `begun` whether it did: nothing changes if a word is not quiet, or a request is under way. `begun` must hold a bool
 * before the call. HIKEBOX_EMPTY; _WRONG_KIND. */
hikebox_status hikebox_limit_begin(hikebox_limit *limit, const hikebox_seen *seen, bool *begun);

/*
 * Processes share a bucket or a breaker by a store that keeps one word of it. Each call of a request is one step of the
 * store: the process reads what the store keeps, passes it to one of the two calls below with what the request asks or
 * tells, and stores what is kept then, with no other step between. It keeps what the request holds itself, from the
 * request's first call to its last.
 *
 *     hikebox_request request = {0};
 *     hikebox_told told = {HIKEBOX_TELL_DRAW, now(), 5000};
 *     lock_and_read(&kept);
 *     status = hikebox_bucket_step(&bucket, &told, &kept, &request, &number);
 *     write_and_unlock(&kept);
 *
 * However the steps of all processes follow one another, they act as one sequence of calls on one limit, also if a
 * process is killed between two of them. What its request drew of a bucket is then lost, and a probe of a breaker is
 * over at its deadline. That holds for a store that keeps its word; it does not hold for one that goes back to an
 * earlier one. The moments of all processes count from one start, such as that of the machine. A breaker's are below
 * 2^37 ms, which is more than four years, so don't count them from 1970.
 *
 * There is no such call for a bound on the retries in flight, where a killed process would hold its place for ever, nor
 * for a throttle, which has two words.
 */

/* What a store keeps. Both are 0 for a limit that it doesn't know yet. */
typedef struct {
    bool known;
    uint64_t word;
} hikebox_kept;

/* What a request holds. All are 0 before its first call. */
typedef struct {
    /* Whether it is admitted, and not over. */
    bool counted;
    /* Whether its last draw was granted and not cancelled, the slot that it then holds, and what it cost. */
    bool drew;
    uint64_t slots;
    uint64_t cost;
    /* The generation and the state of the breaker in which the run was admitted: its result counts in these alone. */
    uint64_t generation;
} hikebox_request;

/* The calls of a request, as hikebox_limit_admit, _draw, _failed, _succeeded, _cancelled and _ended are made. */
enum {
    HIKEBOX_TELL_ADMIT = 0,
    HIKEBOX_TELL_DRAW = 1,
    HIKEBOX_TELL_FAILED = 2,
    HIKEBOX_TELL_SUCCEEDED = 3,
    HIKEBOX_TELL_CANCELLED = 4,
    HIKEBOX_TELL_ENDED = 5
};

/* One call of a request, at this moment. `cost` is that of a draw. */
typedef struct {
    uint32_t call;
    uint64_t at;
    uint64_t cost;
} hikebox_told;

/*
 * Makes a call of a request on a bucket. `kept` then has what the store must keep, and `request` what the request
 * holds, also if the call is refused by the limit, that is by _LEVEL_LOW or _OUT_OF_TURN; `number` is then as for a
 * limit in memory. HIKEBOX_WRONG_SIZE; _OUT_OF_RANGE, of a number of the bucket or of the call; _TOO_LARGE, of the
 * moment; _LEVEL_LOW; _OUT_OF_TURN.
 */
HIKEBOX_CHECKED hikebox_status hikebox_bucket_step(const hikebox_bucket *bucket, const hikebox_told *told,
                                                   hikebox_kept *kept, hikebox_request *request, uint64_t *number);

/*
 * The same on a breaker with these `count` open times. HIKEBOX_WRONG_SIZE; _OUT_OF_RANGE, of a number of the breaker or
 * of the call, and if there are no times, or more than 64; _TOO_LARGE, of a moment from 2^37 on; _BREAKER_OPEN;
 * _PROBING; _OUT_OF_TURN.
 */
HIKEBOX_CHECKED hikebox_status hikebox_breaker_step(const hikebox_breaker *breaker, const uint64_t *times, size_t count,
                                                    const hikebox_told *told, hikebox_kept *kept,
                                                    hikebox_request *request, uint64_t *number);

/* ---- Pace -------------------------------------------------------------------------------------------------------- */

/*
 * A pace keeps calls to a rate that a peer allows, such as ten a second and twenty at once. Before each run, first or
 * retry, a call takes its place, is told the moment at which it may begin, and waits for that. There is no queue and no
 * thread. Each thread takes with a handle of its own, which hikebox_pace_split gives it. This is the generic cell rate
 * algorithm of ITU-T I.371.
 *
 *     status = hikebox_pace_take(&pace, now(), 1, &at);
 *     if (status == HIKEBOX_OK) {
 *         if (wait_until(at))
 *             run();
 *         else
 *             hikebox_pace_give_back(&pace, &given);
 *     }
 *
 * All takes with any handles act as one sequence. Of the takes that were granted and not given back, those that begin
 * in any l milliseconds have a cost of at most burst + (1000 l - 1) / each, where the quotient is rounded down. That
 * holds for any number of threads, whatever their clocks say: a thread whose clock is behind, or goes back, uses no
 * time that others have used. Where the clock of one is ahead, the others wait for what it took. The moments are those
 * that are told: a call that begins later than at its own may begin close to the next one.
 *
 * A pace begins at the moment 0 of its clock, and all at once may begin at its first moments. Its clock stands still
 * from 2^51 - 1 ms on, which is more than 71,000 years: later moments count as that one.
 */

/* Makes a pace of one call each `each` microseconds (1 to 2^40) and up to `burst` calls at once (1 to 2^20), where no
 * call waits longer than `longest` milliseconds (at most 2^37). HIKEBOX_FULL; _OUT_OF_RANGE; _NO_MEMORY. */
HIKEBOX_CHECKED hikebox_status hikebox_pace_new(uint64_t each, uint64_t burst, uint64_t longest, hikebox_pace *pace);

/* Puts another handle of the same pace into `part`, which has taken nothing. A handle that was made is split up to 2^42
 * times, one that was split off it fewer than 2^20 times, and one that was split off that never. HIKEBOX_FULL; _EMPTY;
 * _WRONG_KIND; _NO_MEMORY; _TOO_MANY_PASSES. */
HIKEBOX_CHECKED hikebox_status hikebox_pace_split(hikebox_pace *pace, hikebox_pace *part);

/*
 * Takes the place of a call of this cost, 1 to the burst, and writes to `at` the moment at which it may begin: `now`
 * itself wherever the rate and the burst allow it, and at most `longest` milliseconds later. If the call would wait
 * longer it is refused, and `at` is the moment at which it would be granted if nobody takes until then, and not a
 * millisecond before. Whatever is returned but _TOO_LARGE, _EMPTY and _WRONG_KIND, the take before it can't be given
 * back any more. HIKEBOX_TOO_LARGE, of the moment; _EMPTY; _WRONG_KIND; _OUT_OF_RANGE, of the cost; _TOO_SOON;
 * _RACES_LOST: 64 other calls came first.
 */
HIKEBOX_CHECKED hikebox_status hikebox_pace_take(hikebox_pace *pace, uint64_t now, uint64_t cost, uint64_t *at);

/* Gives the last take of this handle back, for a call that is cancelled while it waits, and writes to `given` whether
 * it has come back. It has not if a take was granted after it that stands: it then stays taken, and the bound holds.
 * What was refused, or given back already, can't be given back. `given` must hold a bool before the call.
 * HIKEBOX_EMPTY; _WRONG_KIND. */
hikebox_status hikebox_pace_give_back(hikebox_pace *pace, bool *given);

/* Writes the moment at which a call of cost 1 would begin that takes now, however long it would wait. Nothing changes.
 * HIKEBOX_TOO_LARGE, of the moment; _EMPTY; _WRONG_KIND. */
hikebox_status hikebox_pace_seen(hikebox_pace *pace, uint64_t now, uint64_t *at);

/* Frees the handle. What it took stays taken. The pace lives as long as it has a handle. HIKEBOX_EMPTY; _WRONG_KIND. */
hikebox_status hikebox_pace_free(hikebox_pace *pace);

/*
 * Processes share a pace by a store that keeps one word of it, as for a bucket above: each take, or each one that is
 * given back, is one step of the store.
 *
 *     hikebox_rate rate = {100000, 20, 5000};
 *     hikebox_mark mark = {0};
 *     lock_and_read(&kept);
 *     status = hikebox_pace_step(&rate, now(), 1, &kept, &mark, &at);
 *     write_and_unlock(&kept);
 *
 * However the steps of all processes follow one another, they act as one sequence of takes on one pace, and the bound
 * above holds if each process gives back by the mark that its own last take left, and by no other. What a process took
 * that is killed stays taken. The moments of all processes count from one start.
 */

/* The terms of a pace, as hikebox_pace_new takes them. */
typedef struct {
    uint64_t each;
    uint64_t burst;
    uint64_t longest;
} hikebox_rate;

/* What gives the last take of a process back. All are 0 before its first take. */
typedef struct {
    /* Whether it was granted, and is not given back. */
    bool granted;
    /* Its cost, and the microseconds from moment 0 up to which the takes until then use the rate up. */
    uint64_t cost;
    uint64_t due;
} hikebox_mark;

/* Takes the place of a call, as hikebox_pace_take does. `kept` then has what the store must keep, and `mark` what gives
 * the take back, also if it is refused by _TOO_SOON, or for its cost. HIKEBOX_OUT_OF_RANGE, of the rate; _TOO_LARGE, of
 * the moment; _OUT_OF_RANGE, of the cost; _TOO_SOON. */
HIKEBOX_CHECKED hikebox_status hikebox_pace_step(const hikebox_rate *rate, uint64_t now, uint64_t cost,
                                                 hikebox_kept *kept, hikebox_mark *mark, uint64_t *at);

/* Gives the last take of the process back, as hikebox_pace_give_back does. `given` must hold a bool before the call.
 * HIKEBOX_OUT_OF_RANGE, of the rate. */
hikebox_status hikebox_pace_step_back(const hikebox_rate *rate, hikebox_kept *kept, hikebox_mark *mark, bool *given);

/* ---- Retries ----------------------------------------------------------------------------------------------------- */

/* How a run went, as the program reports it. */
enum {
    HIKEBOX_NO_REPORT = 0,
    HIKEBOX_WON = 1,
    HIKEBOX_LOST = 2
};

/* What the program should do next. */
enum {
    /* Poll: no run was begun yet. HIKEBOX_NEXT begins with it, and no call writes it. */
    HIKEBOX_POLL = 0,
    /* Run the call, and report how it went at the next poll. A run is under way until then. */
    HIKEBOX_RUN = 1,
    /* Wait until the moment `until`, and poll. */
    HIKEBOX_WAIT = 2,
    /* Nothing: the retry is over. */
    HIKEBOX_OVER = 3
};

/* How a retry ended. */
enum {
    /* It is not over. */
    HIKEBOX_UNENDED = 0,
    /* The last run succeeded. */
    HIKEBOX_ENDED_WON = 1,
    /* The last run failed, and the policy does not go on. */
    HIKEBOX_ENDED_DONE = 2,
    /* The last run failed, the policy goes on, and its limit, a budget or a quota, gave no ticket. */
    HIKEBOX_ENDED_LIMIT_REFUSED = 3,
    /* It was cancelled. */
    HIKEBOX_ENDED_CANCELLED = 4,
    /* It could not go on: there was no memory, or a run failed at a moment before that of the last failure. */
    HIKEBOX_ENDED_NO_MEMORY = 5,
    HIKEBOX_ENDED_BACKWARDS = 7,
    /* The last run failed and the policy goes on, but the next run would begin past the deadline: the start planned is
     * later, or the retry was polled only after it. */
    HIKEBOX_ENDED_DEADLINE = 8
};

/* Where a retry is. */
typedef struct {
    /* The size of this struct. */
    size_t size;
    /* HIKEBOX_POLL, HIKEBOX_RUN, HIKEBOX_WAIT or HIKEBOX_OVER. */
    uint32_t what;
    /* How it ended: HIKEBOX_UNENDED, or one of HIKEBOX_ENDED_.. if it is over. */
    uint32_t how;
    /* The moment to wait for if it waits; otherwise 0. */
    uint64_t until;
    /* How many retries it was granted: tickets drawn of the budget or of the quota, or counted if it draws on
     * nothing. */
    uint64_t granted;
    /* How many runs were reported, at most UINT64_MAX. */
    uint64_t runs;
    /* The milliseconds from the moment of the poll to the deadline, which a run may take: 0 if the deadline is past,
     * and HIKEBOX_NO_DEADLINE if there is none. */
    uint64_t left;
} hikebox_next;

#define HIKEBOX_NEXT                                                                                                   \
    { sizeof(hikebox_next), HIKEBOX_POLL, HIKEBOX_UNENDED, 0, 0, 0, 0 }

/*
 * Puts a retry into `retry`. It has the policy, which is not copied, and a pass of its own, which is split off `pass`;
 * both handles stay as they are. It draws at the moment of the poll, and deposits nothing. It keeps no list of its
 * runs: there may be any number of failures, and it takes no more memory for them, unless an output of the policy
 * grows, as that of `gather` does.
 *
 * `deadline` is a moment, or HIKEBOX_NO_DEADLINE. The first run is made in any case, and each later one begins at or
 * before the deadline. If the policy plans a later start, the retry is over, as HIKEBOX_ENDED_DEADLINE, and draws no
 * ticket for it. If the program wakes too late for a planned start, the next poll ends the retry in the same way. It
 * has then drawn a ticket for the run that is not made. A quota takes that back: call hikebox_retry_end and then
 * hikebox_pass_hand_back, as after a cancelled retry. A budget takes none back. A retry that a late poll ended has one
 * ticket for each failure (`granted` equals `runs`); one whose policy planned too late a start has one fewer.
 *
 * HIKEBOX_TOO_LARGE, of the deadline; _FULL; _EMPTY, of either; _WRONG_KIND, of the policy; _NO_MEMORY; _WRONG_KIND, of
 * the pass; _TOO_MANY_PASSES.
 */
HIKEBOX_CHECKED hikebox_status hikebox_retry_new(hikebox_policy *policy, hikebox_pass *pass, uint64_t deadline,
                                                 hikebox_retry *retry);

/*
 * Steps the retry at the moment `now`, with these random words, and writes what to do next.
 *
 * With HIKEBOX_WON or HIKEBOX_LOST the run under way ends with this code. If it succeeded, the retry is over. If it
 * failed, the policy is stepped with the code as its input. If the policy goes on, a ticket is drawn; with a ticket the
 * retry waits for the planned start, or runs at once if that is now.
 *
 * With HIKEBOX_NO_REPORT the code is ignored. A run begins if none is under way and `now` is not before the moment
 * waited for. Past the deadline the retry is over instead, with HIKEBOX_ENDED_DEADLINE, unless no run was made yet. A
 * retry that is over does not change.
 *
 * HIKEBOX_WRONG_SIZE; _TOO_LARGE, of the moment; _NO_SUCH_REPORT; _TOO_LARGE, of the code; _EMPTY; _WRONG_KIND;
 * _NO_RUN. If there is no memory, or a run failed at a moment before that of the last failure, the call returns
 * HIKEBOX_OK and the retry is over.
 */
HIKEBOX_CHECKED hikebox_status hikebox_retry_poll(hikebox_retry *retry, uint64_t now, const uint32_t words[4],
                                                  uint32_t report, uint64_t code, hikebox_next *next);

/* A whole run of a retry. */
typedef struct {
    /* The moments at which it began and ended. */
    uint64_t began;
    uint64_t ended;
    /* The code that is reported. */
    uint64_t code;
    /* HIKEBOX_WON or HIKEBOX_LOST, or HIKEBOX_NO_REPORT for a run that has not ended. */
    uint32_t report;
    /* The random words of the step that follows the run. */
    uint32_t words[4];
} hikebox_run;

/*
 * Reports a whole run in one call. It does what hikebox_retry_poll does at `began` with HIKEBOX_NO_REPORT, and then at
 * `ended` with the report, and writes what is next then. A program that waits for each planned start and makes its runs
 * by itself needs no other call between two failures. HIKEBOX_WRONG_SIZE; _TOO_LARGE, of either moment;
 * _NO_SUCH_REPORT; _TOO_LARGE, of the code; _EMPTY; _WRONG_KIND; _NO_RUN, if no run may begin at `began`.
 */
HIKEBOX_CHECKED hikebox_status hikebox_retry_ran(hikebox_retry *retry, const hikebox_run *run, hikebox_next *next);

/* Ends a retry that is not over as HIKEBOX_ENDED_CANCELLED, even if a run is under way. HIKEBOX_EMPTY; _WRONG_KIND. */
hikebox_status hikebox_retry_cancel(hikebox_retry *retry);

/* Frees the retry, whether it is over or not, and joins its pass, with the tickets that it was granted, into `pass`.
 * That is of the same budget or quota, or of nothing if the retry draws on nothing. HIKEBOX_EMPTY and _WRONG_KIND, of
 * the retry first, then of the pass; _DRAWS_ELSEWHERE. */
HIKEBOX_CHECKED hikebox_status hikebox_retry_end(hikebox_retry *retry, hikebox_pass *pass);

/*
 * Begins a retry again with the memory and the pass that it has: it is then one that has not begun, by the same policy,
 * with this deadline. The pass keeps the tickets that it was granted: `granted` does not count them, and
 * hikebox_retry_end joins them with the rest. One that is not over is cancelled. Where the call is refused nothing
 * changes. HIKEBOX_TOO_LARGE, of the deadline; _EMPTY; _WRONG_KIND.
 */
HIKEBOX_CHECKED hikebox_status hikebox_retry_again(hikebox_retry *retry, uint64_t deadline);

/* Frees the retry and its pass: the budget or the quota can't be closed after that. HIKEBOX_EMPTY; _WRONG_KIND. */
hikebox_status hikebox_retry_free(hikebox_retry *retry);

/* ---- Storms ------------------------------------------------------------------------------------------------------ */

/* What the retries of a storm draw on. */
enum {
    /* Nothing: the policy alone bounds the retries. */
    HIKEBOX_ON_NOTHING = 0,
    /* A budget of `limit` tickets. */
    HIKEBOX_ON_BUDGET = 1,
    /* A quota of `reserve`, `share` and `period`. */
    HIKEBOX_ON_QUOTA = 2,
    /* A limit, which a request asks before its first call too: a bucket, a bound on what is in flight, a breaker, a
     * throttle or an adaptive limit. */
    HIKEBOX_ON_BUCKET = 3,
    HIKEBOX_ON_IN_FLIGHT = 4,
    HIKEBOX_ON_BREAKER = 5,
    HIKEBOX_ON_THROTTLE = 6,
    HIKEBOX_ON_ADAPTIVE = 7
};

/* A phase of a storm's rate: from the end of the phase before it, or from 0, until this moment, so many requests a
 * second come. */
typedef struct {
    /* The first moment after it: later than that of the phase before it, and at most 3,600,000. */
    uint64_t until;
    /* Requests a second, 0 to 1,000,000. */
    uint64_t rate;
} hikebox_phase;

/* A population of clients of a storm, beside the first one. Each population has its policy. */
typedef struct {
    /* Its share of the requests, in per cent; 0 if there is no such population. */
    uint64_t share;
    /* How long a client waits for a call before it gives up, 1 to 3,600,000; 0 to 3,600,000 if the share is 0. */
    uint64_t patience;
    /* Whether it draws on what the storm's `draws_on` says, as the first population does: 1; or on nothing, and then no
     * limit refuses its first calls, and no quota counts its requests: 0. */
    uint64_t limited;
} hikebox_population;

/* The policies of a storm's populations. A further handle that is empty stands for the policy of the first. */
typedef struct {
    hikebox_policy first;
    hikebox_policy second;
    hikebox_policy third;
    hikebox_policy fourth;
} hikebox_policies;

/* No policies yet. */
#define HIKEBOX_POLICIES                                                                                               \
    { HIKEBOX_INIT, HIKEBOX_INIT, HIKEBOX_INIT, HIKEBOX_INIT }

/* A storm: many requests, on a peer that fails for a while. All are under one policy, or they are of up to four
 * populations of clients, each with its policy. Moments and durations are in milliseconds, from 0 on. HIKEBOX_STORM has
 * usual numbers to begin with. */
typedef struct {
    /* The size of this struct. */
    size_t size;
    /* Requests a second, 1 to 1,000,000; after the phases of the rate, if there are any. */
    uint64_t rate;
    /* Requests that come at one moment, 1 to 1,000,000. */
    uint64_t together;
    /* For how long requests come, 1 to 3,600 seconds; in these come at most 1,048,576. */
    uint64_t seconds;
    /* Calls that each replica of the peer can do in a second, 1 to 1,000,000. */
    uint64_t capacity;
    /* How long a client of the first population waits for a call before it gives up, 1 to 3,600,000. */
    uint64_t patience;
    /* A call is shed if this many calls of work are ahead of it at its replica, 0 to 1,048,576. */
    uint64_t queue;
    /* In outage_from <= moment < outage_to the peer refuses all calls, or `down` of its replicas do; 0 <= from <= to
     * <= 3,600,000. */
    uint64_t outage_from;
    uint64_t outage_to;
    /* In slow_from <= moment < slow_to the peer works at slow_percent, 1 to 100, of its capacity; 0 <= from <= to <=
     * 3,600,000. If slow_percent is 0 there is no brown-out, and both moments are 0. */
    uint64_t slow_from;
    uint64_t slow_to;
    uint64_t slow_percent;
    /* The length of a window of the report, 1 to 3,600,000; until / window, rounded down, is at most 65,536. */
    uint64_t window;
    /* The last moment that is played, 0 to 7,200,000. */
    uint64_t until;
    /* The number of calls after which the storm is cut, 1 to 2^32. */
    uint64_t calls;
    /* The seed of the random words. */
    uint64_t words;
    /* What retries draw on: HIKEBOX_ON_NOTHING to HIKEBOX_ON_ADAPTIVE. */
    uint64_t draws_on;
    /* The limit of a budget: at most HIKEBOX_MAX_TICKETS. */
    uint64_t limit;
    /* The terms of a quota, as hikebox_quota_new takes them. */
    uint64_t reserve;
    uint64_t share;
    uint64_t period;
    /* The terms of a bucket, as hikebox_bucket has them; `bucket_refund` is 0 or 1. A retry takes `cost` of it, and
     * `late_cost` after a call that its client gave up; each is at most the capacity. */
    uint64_t bucket_capacity;
    uint64_t bucket_floor;
    uint64_t bucket_debit;
    uint64_t bucket_credit;
    uint64_t bucket_refund;
    uint64_t cost;
    uint64_t late_cost;
    /* The least number of retries in flight and the most requests, as hikebox_in_flight_new takes them with `share`; or
     * the terms of an adaptive limit, as hikebox_adaptive has them. */
    uint64_t least;
    uint64_t most;
    uint64_t first;
    uint64_t backoff;
    /* The terms of a breaker, as hikebox_breaker has them. */
    uint64_t failures;
    uint64_t results;
    uint64_t probes;
    uint64_t deadline;
    /* The ratio of a throttle, as hikebox_throttle_new takes it with `period`. */
    uint64_t ratio;
    /* A breaker's open times, of which the first `open_count` count, 1 to 64. */
    uint64_t open_count;
    uint64_t open_times[64];
    /* How many replicas the peer is, 1 to 4. Each has the capacity and the queue; the calls go to them in turn. */
    uint64_t replicas;
    /* How many replicas refuse calls in the outage, the first ones, 1 to `replicas`; 0 for all. */
    uint64_t down;
    /* The phases of the rate, of which the first `phase_count` count, 0 to 16. */
    uint64_t phase_count;
    hikebox_phase phases[16];
    /* The populations beside the first one, which has the share that these leave: their shares add up to at most 99. Of
     * each hundred requests that come in order, each population has exactly its share, spread out. */
    hikebox_population second;
    hikebox_population third;
    hikebox_population fourth;
    /* The population whose requests the report is on, 1 for the first to 4; 0 for all requests. That population has a
     * share. */
    uint64_t of;
} hikebox_storm;

/* 800 requests a second for a minute, on a peer that does 1,000 and is down from 10 to 20 s. */
/* clang-format off */
#define HIKEBOX_STORM                                                                                                  \
    {                                                                                                                  \
        sizeof(hikebox_storm), 800, 1, 60, 1000, 500, 5000, 10000, 20000, 0, 0, 0, 1000, 120000, 16777216, 0,          \
            HIKEBOX_ON_NOTHING, 0, 0, 0, 1, 0, 0, 0, 0, 0, 0, 0, 0, HIKEBOX_NO_MOST, 0, 0, 0, 0, 0, 0, 0, 0, { 0 }, 1, \
            0, 0, { { 0, 0 } }, { 0, 0, 0 }, { 0, 0, 0 }, { 0, 0, 0 }, 0                                               \
    }
/* clang-format on */

/* A window of a storm. */
typedef struct {
    /* Its first moment. */
    uint64_t from;
    /* The requests that began in it, and how many of these were won in the end. */
    uint64_t requests;
    uint64_t won;
    /* The retries that began in it. */
    uint64_t retries;
    /* The calls that ended in it: those that succeeded, that the peer refused for its outage, that it shed for its
     * queue, and that their clients gave up. */
    uint64_t succeeded;
    uint64_t refused;
    uint64_t shed;
    uint64_t late;
    /* The calls of work that stand at the peer's replicas at its end, those of each rounded down; 0 in a report on one
     * population. */
    uint64_t waiting;
} hikebox_window;

/* The totals of a storm. */
typedef struct {
    /* The size of this struct. */
    size_t size;
    /* The windows of the report. */
    uint64_t windows;
    /* The requests, and how they ended: won; lost, if the policy was done; denied, if there was no ticket, or if a
     * limit refused them; or open. */
    uint64_t requests;
    uint64_t won;
    uint64_t lost;
    uint64_t denied;
    uint64_t open;
    /* The calls that were begun, and those for each request, in hundredths. */
    uint64_t calls;
    uint64_t hundredths;
    /* The most calls begun in a window, and the first moment of the first window with so many. A request that a limit
     * denied before its first call counts as a call here. */
    uint64_t most_calls;
    uint64_t most_from;
    /* The tickets that were given. */
    uint64_t tickets;
    /* Of the requests that were won, the time from the beginning of the first call to the success: 50 and 99 in 100
     * took at most so long, and the slowest; 0 if none was won. */
    uint64_t p50;
    uint64_t p99;
    uint64_t slowest;
    /* If the storm recovers, the first moment of the window from which on it has; otherwise 0. */
    uint64_t recovered;
    bool recovers;
    /* Whether it was cut, because it would have made more than `calls` calls. */
    bool cut;
} hikebox_totals;

#define HIKEBOX_TOTALS                                                                                                 \
    { sizeof(hikebox_totals), 0, 0, 0, 0, 0, 0, 0, 0, 0, 0, 0, 0, 0, 0, 0, false, false }

/* Plays a storm of requests under the policy, as `zsched storm` does; all populations have it. The windows of its
 * report go to `windows`, which has room for `capacity`, and their number with its totals to `totals`. The room that is
 * needed is until / window, rounded down, and one more. A report on one population counts its requests and their calls
 * alone, and its last window is that of their last event. Two calls with the same parameters write the same. The call
 * returns once the whole storm is played; only `calls` cuts it short. HIKEBOX_WRONG_SIZE, of the storm or the totals;
 * _OUT_OF_RANGE, of a parameter; _NO_ROOM, and then `totals->windows` is the room that is needed; _EMPTY; _WRONG_KIND;
 * _NO_MEMORY. */
HIKEBOX_CHECKED hikebox_status hikebox_storm_play(hikebox_policy *policy, const hikebox_storm *storm,
                                                  hikebox_window *windows, size_t capacity, hikebox_totals *totals);

/*
 * The same, of populations of which each has its own policy. All policies stay in their handles. For a report on each
 * population, play the same storm once for each, with another `of`.
 *
 * The requests may come at moments of their own: `arrivals` has `given` of them, in milliseconds, at most 1,048,576,
 * none before that in front of it and none after 7,200,000. Each is the moment of one request, in the place of the
 * storm's `rate`, `together`, `seconds` and phases, which must be in their ranges all the same. If `given` is 0 the
 * requests come by these, and `arrivals` may be any pointer that is not null. A request whose moment is after `until`
 * is none of the storm's. The call reads the moments while it runs, and keeps none.
 *
 * HIKEBOX_WRONG_SIZE, of the storm or the totals; _OUT_OF_RANGE, of a parameter or a moment, or of too many moments;
 * _NO_ROOM, and then `totals->windows` is the room that is needed; _EMPTY, of the first policy; _WRONG_KIND, of any of
 * the four; _NO_MEMORY, at any point.
 */
HIKEBOX_CHECKED hikebox_status hikebox_storm_play_populations(hikebox_policies *policies, const hikebox_storm *storm,
                                                              const uint64_t *arrivals, size_t given,
                                                              hikebox_window *windows, size_t capacity,
                                                              hikebox_totals *totals);

#ifdef __cplusplus
}
#endif

#endif
