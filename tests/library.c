// Calls the library as a C program does. The first word says what it does:
//   plan STEPS FROM TOOK INPUTS WORD  steps the policy on standard input along a course, and prints what `zsched plan` prints:
//                                     one input or more, a word or seed:N
//   plans                             the same for each line of standard input, which has these words and, after a tab, the
//                                     policy; with the status of each
//   retry BUDGET RUN..                runs a retry of the policy on standard input, whose runs end as the words say
//                                     (won:1, lost:7, the last one repeated), and prints `zsched pool`'s line of it
//   fault                             says what is wrong with the policy on standard input, as `zsched check` does
//   groups                            prints the names of the groups below, each of which is a word, but draw and calls
//   version                           the version as numbers, as a text, and of the library
//   handles                           empty handles, full ones, those of another kind, and second frees
//   budgets                           passes of budgets without end, and limits that are raised after refusals
//   deadlines                         retries with a deadline, which the plan or the deadline ends
//   quotas                            quotas: windows, their borders and passes, requests at once, terms that are set, tickets
//                                     handed back, and retries on a quota and on nothing
//   leases                            leases of a budget and of a quota worked out by hand, and what a window allows
//   leased                            leased passes by hand, and eight threads with one each of a store in memory
//   faults                            texts that are no policy, each with its fault, its place and what is wanted there
//   nodes                             policies of a node by its name and numbers, and each refusal
//   policies                          what is written of policies, and their bounds
//   courses                           a course worked out by hand, and each refusal
//   lasting                           a retry past 65,536 failures, and handles of one policy
//   shares                            threads retry by one policy, each with a share of it, and free it; others draw of one
//                                     quota, in windows that are apart
//   limits                            limits worked out by hand, each refusal, two at once, and eight threads that count
//   paces                             paces worked out by hand, each refusal, a store's word, and four threads that take
//   storms                            storms worked out by hand, and each refusal
//   runs                              whole runs in one call, worked out by hand, and each refusal
//   draw THREADS TICKETS              threads draw all tickets of a budget, and each is drawn once
//   calls                             each call that takes memory at least once; one that is refused for want of memory is made again
#include "checks.h"
#include <pthread.h>
#ifdef _WIN32
#include <windows.h>

#include <psapi.h>
#undef far
#else
#include <sys/resource.h>
#endif

int wrong;
char input[1 << 20];
static const uint32_t no_words[4] = {0, 0, 0, 0};

void wants_at(const char *file, int line, hikebox_status got, hikebox_status wanted) {
    if (got == wanted) return;
    fprintf(stderr, "%s:%d: status %u, wanted %u\n", file, line, got, wanted);
    wrong = 1;
}

void holds_at(const char *file, int line, bool holds) {
    if (holds) return;
    fprintf(stderr, "%s:%d: does not hold\n", file, line);
    wrong = 1;
}

hikebox_status read_policy(const char *json, hikebox_policy *policy) {
    hikebox_place place;
    return hikebox_policy_read(json, strlen(json), policy, &place);
}

// A retry that draws on nothing.
static hikebox_status retry_on_nothing(hikebox_policy *policy, uint64_t deadline, hikebox_retry *retry) {
    hikebox_pass nothing = HIKEBOX_INIT;
    hikebox_status status = hikebox_pass_unlimited(&nothing);
    if (status) return status;
    status = hikebox_retry_new(policy, &nothing, deadline, retry);
    hikebox_status freed = hikebox_pass_free(&nothing);
    return status ? status : freed;
}

static hikebox_status say_fault(const char *json, char *text, size_t capacity, size_t *length) {
    return hikebox_policy_fault(json, strlen(json), text, capacity, length);
}

void read_input(void) {
    size_t length = fread(input, 1, sizeof input - 1, stdin);
    input[length] = 0;
}

static int plans(void) {
    static char line[1 << 20];
    while (fgets(line, sizeof line, stdin)) {
        char *words[5] = {0}, *policy = strchr(line, '\t');
        size_t at = 0;
        if (!policy) return 101;
        line[strcspn(line, "\r\n")] = 0;
        strcpy(input, policy + 1);
        *policy = 0;
        for (char *word = strtok(line, " "); word && at < 5; word = strtok(0, " "))
            words[at++] = word;
        if (at < 5) return 101;
        printf("status %d\n", plan(words));
    }
    return wrong;
}

static int retry(char **words, int count) {
    hikebox_policy policy = HIKEBOX_INIT;
    hikebox_pass pass = HIKEBOX_INIT;
    hikebox_retry machine = HIKEBOX_INIT;
    hikebox_next next = HIKEBOX_NEXT;
    uint64_t now = 0, code = 0, tickets;
    uint32_t report = HIKEBOX_NO_REPORT;
    int run = 1;
    read_input();
    wants(read_policy(input, &policy), HIKEBOX_OK);
    wants(hikebox_budget_fixed(strtoull(words[0], 0, 10), &pass), HIKEBOX_OK);
    wants(hikebox_retry_new(&policy, &pass, HIKEBOX_NO_DEADLINE, &machine), HIKEBOX_OK);
    for (;;) {
        wants(hikebox_retry_poll(&machine, now, no_words, report, code, &next), HIKEBOX_OK);
        report = HIKEBOX_NO_REPORT;
        if (next.what == HIKEBOX_OVER) break;
        if (next.what == HIKEBOX_WAIT) {
            now = next.until;
            continue;
        }
        holds(next.what == HIKEBOX_RUN);
        report = words[run][0] == 'w' ? HIKEBOX_WON : HIKEBOX_LOST;
        code = strtoull(strchr(words[run], ':') + 1, 0, 10);
        if (run + 1 < count) run++;
    }
    static const char *const endings[] = {"", "won", "schedule done, failure", "budget refused, failure"};
    printf("job 0: %s %llu, granted %llu\n", next.how < 4 ? endings[next.how] : "?", (unsigned long long)code,
           (unsigned long long)next.granted);
    wants(hikebox_retry_end(&machine, &pass), HIKEBOX_OK);
    wants(hikebox_pass_close(&pass, &tickets), HIKEBOX_OK);
    holds(tickets == next.granted);
    wants(hikebox_policy_free(&policy), HIKEBOX_OK);
    return wrong;
}

static int fault(void) {
    static char text[1 << 20];
    size_t length;
    read_input();
    wants(say_fault(input, text, sizeof text, &length), HIKEBOX_OK);
    printf("%.*s\n", (int)length, text);
    return wrong;
}

// Each place and each hint was worked out by hand.
static int faults(void) {
    static const char *const table[][2] = {
        {"{\"recurs\":3}", ""},
        {"", "not JSON: line 1, column 1: the text is empty"},
        {"[\n{\"plan\":]", "not JSON: line 2, column 9: what stands here is not JSON, or is nested more than 127 deep"},
        {"[]", "top: expected a plan, a string or an object with one member, got []"},
        {"{\"fixed\":0}", "top: expected {\"fixed\":D}, D from 1 to 4611686018427387903, got {\"fixed\":0}"},
        {"{\"meet\":[\"forever\",{\"cap\":[5,{\"exponental\":[1,2]}]}]}",
         "meet[1].cap[1]: no node is called \"exponental\"; did you mean \"exponential\"?"},
        {"\"\\u0000\\u001b[1m\"", "top: no node is called \"\\u0000\\u001b[1m\""},
        {"{\"first\":{\"join\":[{\"lone\":-1},7]}}",
         "first.join[0]: expected {\"lone\":D}, D from 0 to 4611686018427387903, got {\"lone\":-1}"},
    };
    char text[128];
    size_t length;
    for (size_t at = 0; at < sizeof table / sizeof *table; at++) {
        size_t wanted = strlen(table[at][1]);
        memset(text, '#', sizeof text);
        if (wanted > 0) {
            wants(say_fault(table[at][0], text, wanted - 1, &length), HIKEBOX_NO_ROOM);
            holds(length == wanted && text[0] == '#');
        }
        wants(say_fault(table[at][0], text, wanted, &length), HIKEBOX_OK);
        holds(length == wanted && memcmp(text, table[at][1], wanted) == 0 && text[wanted] == '#');
    }
    return wrong;
}

// The greatest size that the program had in memory, in bytes.
static uint64_t most_memory(void) {
#ifdef _WIN32
    PROCESS_MEMORY_COUNTERS used;
    holds(K32GetProcessMemoryInfo(GetCurrentProcess(), &used, sizeof used));
    return used.PeakWorkingSetSize;
#else
    struct rusage used;
    getrusage(RUSAGE_SELF, &used);
    return (uint64_t)used.ru_maxrss * 1024;
#endif
}

// A retry keeps none of its failures, and has no last one.
static void past_the_journal(void) {
    hikebox_policy policy = HIKEBOX_INIT;
    hikebox_pass pass = HIKEBOX_INIT;
    hikebox_retry machine = HIKEBOX_INIT, other = HIKEBOX_INIT;
    hikebox_next next = HIKEBOX_NEXT;
    uint64_t number, before = 0;
    wants(read_policy("\"forever\"", &policy), HIKEBOX_OK);
    wants(hikebox_budget_fixed(100000, &pass), HIKEBOX_OK);
    wants(hikebox_retry_new(&policy, &pass, HIKEBOX_NO_DEADLINE, &machine), HIKEBOX_OK);
    wants(retry_on_nothing(&policy, HIKEBOX_NO_DEADLINE, &other), HIKEBOX_OK);
    wants(hikebox_policy_free(&policy), HIKEBOX_OK);
    wants(hikebox_retry_poll(&machine, 0, no_words, HIKEBOX_NO_REPORT, 0, &next), HIKEBOX_OK);
    wants(hikebox_retry_poll(&other, 0, no_words, HIKEBOX_NO_REPORT, 0, &next), HIKEBOX_OK);
    for (uint64_t failure = 1; failure <= 70000; failure++) {
        if (failure == 1000) before = most_memory();
        wants(hikebox_retry_poll(&other, failure, no_words, HIKEBOX_LOST, 7, &next), HIKEBOX_OK);
        holds(next.what == HIKEBOX_RUN && next.granted == failure && next.runs == failure);
        wants(hikebox_retry_poll(&machine, failure, no_words, HIKEBOX_LOST, 7, &next), HIKEBOX_OK);
        holds(next.what == HIKEBOX_RUN && next.granted == failure && next.runs == failure);
    }
    holds(most_memory() - before < 1 << 20);
    wants(hikebox_retry_poll(&machine, 70000, no_words, HIKEBOX_WON, 200, &next), HIKEBOX_OK);
    holds(next.what == HIKEBOX_OVER && next.how == HIKEBOX_ENDED_WON && next.runs == 70001 && next.granted == 70000);
    wants(hikebox_retry_end(&machine, &pass), HIKEBOX_OK);
    wants(hikebox_pass_close(&pass, &number), HIKEBOX_OK);
    holds(number == 70000);
    wants(hikebox_retry_free(&other), HIKEBOX_OK);
}

// 10,000 handles have one policy of 256 nodes: it is copied for none of them, and lives as long as one.
static void one_policy(void) {
    enum {
        HANDLES = 10000
    };
    static hikebox_policy shares[HANDLES];
    static char text[8192];
    hikebox_policy policy = HIKEBOX_INIT;
    hikebox_retry machine = HIKEBOX_INIT;
    hikebox_next next = HIKEBOX_NEXT;
    uint64_t nodes, depth, most, before;
    // 128 leaves that meet by pairs, seven levels deep, with 127 meets and one `first` over all.
    strcpy(text, "{\"recurs\":2}");
    for (int level = 0; level < 7; level++) {
        static char half[8192];
        strcpy(half, text);
        snprintf(text, sizeof text, "{\"meet\":[%.4000s,%.4000s]}", half, half);
    }
    memmove(text + 9, text, strlen(text) + 1);
    memcpy(text, "{\"first\":", 9);
    strcat(text, "}");
    wants(read_policy(text, &policy), HIKEBOX_OK);
    before = most_memory();
    for (int at = 0; at < HANDLES; at++)
        wants(hikebox_policy_share(&policy, &shares[at]), HIKEBOX_OK);
    holds(most_memory() - before < 16 << 20);
    wants(hikebox_policy_free(&policy), HIKEBOX_OK);
    for (int at = 0; at + 1 < HANDLES; at++)
        wants(hikebox_policy_free(&shares[at]), HIKEBOX_OK);
    wants(hikebox_policy_size(&shares[HANDLES - 1], &nodes, &depth, &most), HIKEBOX_OK);
    holds(nodes == 256 && depth == 9 && most == 2);
    wants(retry_on_nothing(&shares[HANDLES - 1], HIKEBOX_NO_DEADLINE, &machine), HIKEBOX_OK);
    wants(hikebox_policy_free(&shares[HANDLES - 1]), HIKEBOX_OK);
    wants(hikebox_retry_poll(&machine, 0, no_words, HIKEBOX_NO_REPORT, 0, &next), HIKEBOX_OK);
    wants(hikebox_retry_poll(&machine, 5, no_words, HIKEBOX_LOST, 0, &next), HIKEBOX_OK);
    holds(next.what == HIKEBOX_RUN && next.granted == 1);
    wants(hikebox_retry_free(&machine), HIKEBOX_OK);
}

static int lasting(void) {
    one_policy();
    past_the_journal();
    return wrong;
}

// Every call on a handle of every kind and on an empty one. Each kind is tried as each other one.
static int handles(void) {
    hikebox_policy policy = HIKEBOX_INIT, copy = HIKEBOX_INIT, other_policy = HIKEBOX_INIT;
    hikebox_pass pass = HIKEBOX_INIT, part = HIKEBOX_INIT, other_pass = HIKEBOX_INIT;
    hikebox_pass quota = HIKEBOX_INIT, other_quota = HIKEBOX_INIT;
    hikebox_retry machine = HIKEBOX_INIT, other_machine = HIKEBOX_INIT, quota_machine = HIKEBOX_INIT;
    hikebox_usage usage = {sizeof usage, 6, 6, 6, 6, 6};
    hikebox_place place = {7, 7};
    hikebox_next next = {sizeof next, 9, 9, 9, 9, 9, 9};
    const hikebox_course course = {sizeof course, 1, 0, 0};
    const hikebox_event event = {0, {0, 0, 0, 0}};
    hikebox_line line = {5, 5, 5, true};
    uint64_t number = 77, other = 78, most = 76;
    size_t length = 79;
    char text[8] = "unread";
    wants(read_policy("{\"recurs\":2}", &policy), HIKEBOX_OK);
    wants(hikebox_budget_rising(3, &pass), HIKEBOX_OK);
    wants(hikebox_retry_new(&policy, &pass, HIKEBOX_NO_DEADLINE, &machine), HIKEBOX_OK);
    wants(hikebox_policy_share(&policy, &other_policy), HIKEBOX_OK);
    wants(hikebox_pass_split(&pass, &other_pass), HIKEBOX_OK);
    wants(hikebox_retry_new(&policy, &other_pass, HIKEBOX_NO_DEADLINE, &other_machine), HIKEBOX_OK);
    wants(hikebox_quota_new(0, 1, 0, 100, false, &quota), HIKEBOX_OK);
    wants(hikebox_pass_split(&quota, &other_quota), HIKEBOX_OK);
    wants(hikebox_retry_new(&policy, &quota, HIKEBOX_NO_DEADLINE, &quota_machine), HIKEBOX_OK);
    hikebox_limit limit = HIKEBOX_INIT, other_limit = HIKEBOX_INIT;
    wants(hikebox_in_flight_new(3, 200, HIKEBOX_NO_MOST, &limit), HIKEBOX_OK);
    wants(hikebox_limit_split(&limit, &other_limit), HIKEBOX_OK);
    void *kinds[] = {&policy, &pass, &quota, &machine, &limit, &part};
    enum {
        POLICY,
        PASS,
        QUOTA,
        RETRY,
        LIMIT,
        NOTHING,
        KINDS
    };
    for (int kind = 0; kind < KINDS; kind++) {
        void *handle = kinds[kind];
        hikebox_status refused = kind == NOTHING ? HIKEBOX_EMPTY : HIKEBOX_WRONG_KIND;
        hikebox_policy spare = HIKEBOX_INIT;
        if (kind != POLICY) {
            wants(hikebox_policy_share(handle, &spare), refused);
            wants(hikebox_policy_size(handle, &number, &other, &most), refused);
            wants(hikebox_policy_json(handle, text, sizeof text, &length), refused);
            wants(hikebox_policy_course(handle, &course, &event, 1, &line, 1, &length), refused);
            wants(hikebox_policy_outputs(handle, &course, &event, 1, text, sizeof text, &length), refused);
            wants(hikebox_retry_new(handle, &other_pass, HIKEBOX_NO_DEADLINE, (hikebox_retry *)&spare), refused);
            wants(hikebox_retry_new(handle, &other_quota, HIKEBOX_NO_DEADLINE, (hikebox_retry *)&spare), refused);
            wants(retry_on_nothing(handle, HIKEBOX_NO_DEADLINE, (hikebox_retry *)&spare), refused);
            wants(hikebox_policy_free(handle), refused);
        }
        if (kind != PASS && kind != QUOTA) {
            wants(hikebox_pass_draw(handle, 0, &number), refused);
            wants(hikebox_pass_deposit(handle, 0, 1), refused);
            wants(hikebox_pass_hand_back(handle), refused);
            wants(hikebox_pass_set_terms(handle, 1, 1), refused);
            wants(hikebox_pass_split(handle, (hikebox_pass *)&spare), refused);
            wants(hikebox_pass_join(handle, &other_pass), refused);
            wants(hikebox_pass_join(&other_pass, handle), refused);
            wants(hikebox_pass_join(handle, &other_quota), refused);
            wants(hikebox_pass_join(&other_quota, handle), refused);
            wants(hikebox_pass_raise(handle, 9, &number), refused);
            wants(hikebox_pass_count(handle, &number), refused);
            wants(hikebox_pass_close(handle, &number), refused);
            wants(hikebox_pass_free(handle), refused);
            wants(hikebox_retry_new(&other_policy, handle, HIKEBOX_NO_DEADLINE, (hikebox_retry *)&spare), refused);
            wants(hikebox_retry_end(&other_machine, handle), refused);
            wants(hikebox_retry_end(&quota_machine, handle), refused);
        }
        // A budget has no windows, and a quota no limit.
        if (kind != QUOTA) wants(hikebox_pass_seen(handle, 0, &usage), refused);
        if (kind == QUOTA) wants(hikebox_pass_raise(handle, 9, &number), HIKEBOX_FIXED);
        // Each draws elsewhere than the others.
        if (kind == PASS) wants(hikebox_pass_join(handle, &other_quota), HIKEBOX_DRAWS_ELSEWHERE);
        if (kind == QUOTA) wants(hikebox_pass_join(handle, &other_pass), HIKEBOX_DRAWS_ELSEWHERE);
        if (kind != RETRY) {
            wants(hikebox_retry_poll(handle, 0, no_words, HIKEBOX_NO_REPORT, 0, &next), refused);
            wants(hikebox_retry_cancel(handle), refused);
            wants(hikebox_retry_end(handle, &other_pass), refused);
            wants(hikebox_retry_end(handle, &other_quota), refused);
            wants(hikebox_retry_again(handle, HIKEBOX_NO_DEADLINE), refused);
            wants(hikebox_retry_again(handle, 9), refused);
            wants(hikebox_retry_free(handle), refused);
        }
        if (kind != LIMIT) {
            wants(hikebox_limit_admit(handle, 0, 0, &number), refused);
            wants(hikebox_limit_draw(handle, 0, 0, 0, &number), refused);
            wants(hikebox_limit_failed(handle, 0), refused);
            wants(hikebox_limit_succeeded(handle, 0), refused);
            wants(hikebox_limit_cancelled(handle), refused);
            wants(hikebox_limit_ended(handle), refused);
            wants(hikebox_limit_split(handle, (hikebox_limit *)&spare), refused);
            wants(hikebox_limit_both(handle, &other_limit), refused);
            wants(hikebox_limit_both(&other_limit, handle), refused);
            wants(hikebox_limit_free(handle), refused);
        }
        holds(spare.held == NULL);
        if (kind == NOTHING) continue;
        // A handle that holds something, of whatever kind, is not filled.
        wants(hikebox_policy_read("[", 1, handle, &place), HIKEBOX_FULL);
        wants(hikebox_policy_share(&other_policy, handle), HIKEBOX_FULL);
        wants(make_node("nonsense", &number, 0, (hikebox_policy *)&pass, &other_policy, handle), HIKEBOX_FULL);
        wants(hikebox_budget_fixed(1, handle), HIKEBOX_FULL);
        wants(hikebox_budget_rising(1, handle), HIKEBOX_FULL);
        wants(hikebox_pass_split(&other_pass, handle), HIKEBOX_FULL);
        wants(hikebox_retry_new(&other_policy, &other_pass, HIKEBOX_NO_DEADLINE, handle), HIKEBOX_FULL);
        wants(hikebox_quota_new(0, 1, 0, 0, false, handle), HIKEBOX_FULL);
        wants(hikebox_pass_unlimited(handle), HIKEBOX_FULL);
        wants(hikebox_pass_split(&other_quota, handle), HIKEBOX_FULL);
        wants(hikebox_retry_new(&other_policy, &other_quota, HIKEBOX_NO_DEADLINE, handle), HIKEBOX_FULL);
        wants(retry_on_nothing(&other_policy, HIKEBOX_NO_DEADLINE, handle), HIKEBOX_FULL);
        wants(hikebox_in_flight_new(3, 200, HIKEBOX_NO_MOST, handle), HIKEBOX_FULL);
        wants(hikebox_limit_split(&other_limit, handle), HIKEBOX_FULL);
        holds(place.line == 0 && place.column == 0);
    }
    wants(hikebox_retry_end(&other_machine, &other_pass), HIKEBOX_OK);
    wants(hikebox_pass_join(&pass, &other_pass), HIKEBOX_OK);
    wants(hikebox_retry_end(&quota_machine, &other_quota), HIKEBOX_OK);
    wants(hikebox_pass_join(&quota, &other_quota), HIKEBOX_OK);
    wants(hikebox_policy_free(&other_policy), HIKEBOX_OK);
    wants(hikebox_limit_both(&limit, &other_limit), HIKEBOX_OK);
    wants(hikebox_limit_free(&limit), HIKEBOX_OK);
    // Nothing was lost and no result was written.
    holds(number == 77 && other == 78 && most == 76 && length == 79 && line.moment == 5 && next.what == 9 &&
          next.granted == 9);
    holds(strcmp(text, "unread") == 0 && usage.window == 6 && usage.left == 6 && usage.next == 6);
    wants(hikebox_pass_close(&quota, &number), HIKEBOX_OK);
    holds(number == 0);
    wants(hikebox_pass_free(&quota), HIKEBOX_EMPTY);
    wants(hikebox_policy_size(&policy, &number, &other, &most), HIKEBOX_OK);
    holds(number == 1 && other == 1 && most == 2);
    wants(hikebox_pass_count(&pass, &number), HIKEBOX_OK);
    holds(number == 0);
    // Numbers and reports that are none, and reports out of turn.
    wants(hikebox_retry_poll(&machine, HIKEBOX_MAX_NUMBER + 1, no_words, 0, 0, &next), HIKEBOX_TOO_LARGE);
    wants(hikebox_retry_poll(&machine, 0, no_words, HIKEBOX_LOST, HIKEBOX_MAX_NUMBER + 1, &next), HIKEBOX_TOO_LARGE);
    wants(hikebox_retry_poll(&machine, 0, no_words, 3, 0, &next), HIKEBOX_NO_SUCH_REPORT);
    wants(hikebox_retry_poll(&machine, 0, no_words, HIKEBOX_WON, 0, &next), HIKEBOX_NO_RUN);
    wants(hikebox_retry_poll(&machine, 0, no_words, HIKEBOX_NO_REPORT, HIKEBOX_MAX_NUMBER + 1, &next), HIKEBOX_OK);
    holds(next.what == HIKEBOX_RUN && next.runs == 0);
    wants(hikebox_retry_poll(&machine, 9, no_words, HIKEBOX_LOST, 5, &next), HIKEBOX_OK);
    holds(next.what == HIKEBOX_RUN && next.granted == 1 && next.runs == 1);
    wants(hikebox_retry_poll(&machine, 8, no_words, HIKEBOX_LOST, 5, &next), HIKEBOX_OK);
    holds(next.what == HIKEBOX_OVER && next.how == HIKEBOX_ENDED_BACKWARDS && next.granted == 1 && next.runs == 2);
    wants(hikebox_retry_poll(&machine, 9, no_words, HIKEBOX_WON, 5, &next), HIKEBOX_NO_RUN);
    wants(hikebox_retry_cancel(&machine), HIKEBOX_OK);
    wants(hikebox_retry_poll(&machine, 0, no_words, HIKEBOX_NO_REPORT, 0, &next), HIKEBOX_OK);
    holds(next.what == HIKEBOX_OVER && next.how == HIKEBOX_ENDED_BACKWARDS && next.granted == 1 && next.runs == 2);
    // Budgets: what a limit may be, and when one is closed.
    wants(hikebox_budget_fixed(HIKEBOX_MAX_TICKETS + 1, &part), HIKEBOX_LIMIT_TOO_LARGE);
    wants(hikebox_pass_raise(&pass, HIKEBOX_MAX_TICKETS + 1, &number), HIKEBOX_LIMIT_TOO_LARGE);
    wants(hikebox_pass_raise(&pass, 2, &number), HIKEBOX_OK);
    holds(number == 3);
    wants(hikebox_pass_raise(&pass, 4, &number), HIKEBOX_OK);
    holds(number == 4);
    wants(hikebox_pass_close(&pass, &number), HIKEBOX_PASSES_OUT);
    wants(hikebox_retry_end(&machine, &pass), HIKEBOX_OK);
    wants(hikebox_retry_free(&machine), HIKEBOX_EMPTY);
    wants(hikebox_pass_count(&pass, &number), HIKEBOX_OK);
    holds(number == 1);
    wants(hikebox_pass_split(&pass, &part), HIKEBOX_OK);
    wants(hikebox_pass_draw(&part, 0, &number), HIKEBOX_OK);
    holds(number == 1);
    wants(hikebox_pass_join(&pass, &part), HIKEBOX_OK);
    wants(hikebox_pass_count(&part, &number), HIKEBOX_EMPTY);
    wants(hikebox_pass_close(&pass, &number), HIKEBOX_OK);
    holds(number == 2);
    wants(hikebox_pass_free(&pass), HIKEBOX_EMPTY);
    wants(hikebox_budget_fixed(0, &pass), HIKEBOX_OK);
    wants(hikebox_pass_raise(&pass, 1, &number), HIKEBOX_FIXED);
    wants(hikebox_pass_draw(&pass, 0, &number), HIKEBOX_NO_TICKET);
    wants(hikebox_pass_split(&pass, &part), HIKEBOX_OK);
    wants(hikebox_pass_free(&part), HIKEBOX_OK);
    wants(hikebox_pass_close(&pass, &number), HIKEBOX_PASSES_OUT);
    wants(hikebox_pass_free(&pass), HIKEBOX_OK);
    wants(hikebox_pass_free(&pass), HIKEBOX_EMPTY);
    wants(hikebox_policy_free(&policy), HIKEBOX_OK);
    wants(hikebox_policy_free(&policy), HIKEBOX_EMPTY);
    // What is no policy, and where it stops being JSON.
    wants(hikebox_policy_read("", 0, &copy, &place), HIKEBOX_NOT_JSON);
    holds(place.line == 1 && place.column == 1);
    wants(hikebox_policy_read("{\n", 2, &copy, &place), HIKEBOX_NOT_JSON);
    holds(place.line == 2 && place.column == 1);
    holds(strcmp(hikebox_version(), HIKEBOX_VERSION) == 0);
    holds(strcmp(hikebox_status_text(HIKEBOX_NO_TICKET), "there is no ticket") == 0);
    holds(strcmp(hikebox_status_text(HIKEBOX_OK), "done") == 0);
    holds(strcmp(hikebox_status_text(HIKEBOX_WRONG_SIZE), "a struct has another size than its call expects") == 0);
    holds(strcmp(hikebox_status_text(8), "no such status") == 0);
    wants(hikebox_policy_read("{\n \"recurs\" 2}", 14, &copy, &place), HIKEBOX_NOT_JSON);
    holds(place.line == 2 && place.column > 0);
    wants(hikebox_policy_read("\"\xff\"", 3, &copy, &place), HIKEBOX_NOT_JSON);
    wants(read_policy("{\"recurs\":true}", &copy), HIKEBOX_NOT_A_POLICY);
    wants(read_policy("{\"fixed\":0}", &copy), HIKEBOX_OUT_OF_RANGE);
    holds(copy.held == NULL);
    return wrong;
}

// Passes of a budget, split and joined without end; and a limit raised by some, whatever was refused before.
static int budgets(void) {
    hikebox_policy policy = HIKEBOX_INIT;
    hikebox_pass pass = HIKEBOX_INIT, part = HIKEBOX_INIT, last = HIKEBOX_INIT, none = HIKEBOX_INIT;
    hikebox_retry machine = HIKEBOX_INIT;
    hikebox_next next = HIKEBOX_NEXT;
    uint64_t number;
    wants(read_policy("{\"recurs\":1}", &policy), HIKEBOX_OK);
    for (int rises = 0; rises < 2; rises++) {
        wants(rises ? hikebox_budget_rising(70001, &pass) : hikebox_budget_fixed(70001, &pass), HIKEBOX_OK);
        for (uint64_t times = 0; times < 70000; times++) {
            wants(hikebox_pass_split(&pass, &part), HIKEBOX_OK);
            wants(hikebox_pass_draw(&part, 0, &number), HIKEBOX_OK);
            holds(number == times);
            wants(hikebox_pass_join(&pass, &part), HIKEBOX_OK);
            wants(hikebox_retry_new(&policy, &pass, HIKEBOX_NO_DEADLINE, &machine), HIKEBOX_OK);
            wants(hikebox_retry_end(&machine, &pass), HIKEBOX_OK);
        }
        wants(hikebox_retry_new(&policy, &pass, HIKEBOX_NO_DEADLINE, &machine), HIKEBOX_OK);
        wants(hikebox_retry_poll(&machine, 0, no_words, HIKEBOX_NO_REPORT, 0, &next), HIKEBOX_OK);
        wants(hikebox_retry_poll(&machine, 0, no_words, HIKEBOX_LOST, 7, &next), HIKEBOX_OK);
        holds(next.granted == 1);
        wants(hikebox_pass_close(&pass, &number), HIKEBOX_PASSES_OUT);
        wants(hikebox_retry_end(&machine, &pass), HIKEBOX_OK);
        wants(hikebox_pass_draw(&pass, 0, &number), HIKEBOX_NO_TICKET);
        wants(hikebox_pass_close(&pass, &number), HIKEBOX_OK);
        holds(number == 70001);
    }
    wants(hikebox_budget_rising(1, &pass), HIKEBOX_OK);
    wants(hikebox_pass_split(&pass, &part), HIKEBOX_OK);
    wants(hikebox_pass_split(&part, &last), HIKEBOX_OK);
    wants(hikebox_pass_split(&last, &none), HIKEBOX_TOO_MANY_PASSES);
    wants(hikebox_pass_draw(&last, 0, &number), HIKEBOX_OK);
    for (int times = 0; times < 1000; times++)
        wants(hikebox_pass_draw(&part, 0, &number), HIKEBOX_NO_TICKET);
    wants(hikebox_pass_raise(&pass, 3, &number), HIKEBOX_OK);
    wants(hikebox_pass_draw(&part, 0, &number), HIKEBOX_OK);
    holds(number == 1);
    wants(hikebox_pass_draw(&last, 0, &number), HIKEBOX_OK);
    holds(number == 2);
    wants(hikebox_pass_draw(&pass, 0, &number), HIKEBOX_NO_TICKET);
    wants(hikebox_pass_join(&last, &part), HIKEBOX_OK);
    wants(hikebox_pass_close(&last, &number), HIKEBOX_PASSES_OUT);
    wants(hikebox_pass_join(&last, &pass), HIKEBOX_OK);
    wants(hikebox_pass_close(&last, &number), HIKEBOX_OK);
    holds(number == 3);
    wants(hikebox_policy_free(&policy), HIKEBOX_OK);
    return wrong;
}

// The number of the first ticket of a window.
static uint64_t first_of(uint64_t window) {
    return window << 32;
}

static void sees_at(int line, hikebox_pass *quota, uint64_t now, hikebox_usage wanted) {
    hikebox_usage got = HIKEBOX_USAGE;
    wants_at(__FILE__, line, hikebox_pass_seen(quota, now, &got), HIKEBOX_OK);
    holds_at(__FILE__, line,
             got.window == wanted.window && got.asked == wanted.asked && got.given == wanted.given &&
                 got.left == wanted.left && got.next == wanted.next);
}
#define sees(quota, now, ...) sees_at(__LINE__, quota, now, (hikebox_usage){sizeof(hikebox_usage), __VA_ARGS__})

static void draws_at(int line, hikebox_pass *quota, uint64_t now, uint64_t wanted) {
    uint64_t ticket = 0;
    wants_at(__FILE__, line, hikebox_pass_draw(quota, now, &ticket), HIKEBOX_OK);
    holds_at(__FILE__, line, ticket == wanted);
}
#define draws(quota, now, wanted) draws_at(__LINE__, quota, now, wanted)

static void closes_at(int line, hikebox_pass *quota, uint64_t wanted) {
    uint64_t tickets = 0;
    wants_at(__FILE__, line, hikebox_pass_close(quota, &tickets), HIKEBOX_OK);
    holds_at(__FILE__, line, tickets == wanted);
}
#define closes(quota, wanted) closes_at(__LINE__, quota, wanted)

// What a quota may be made with.
static void terms(void) {
    hikebox_pass quota = HIKEBOX_INIT;
    uint64_t tickets = HIKEBOX_MAX_TICKETS, share = HIKEBOX_MAX_SHARE, far = HIKEBOX_MAX_NUMBER;
    for (int carries = 0; carries < 2; carries++) {
        wants(hikebox_quota_new(far + 1, tickets + 1, share + 1, 0, carries, &quota), HIKEBOX_TOO_LARGE);
        wants(hikebox_quota_new(0, tickets + 1, share + 1, 0, carries, &quota), HIKEBOX_RESERVE_TOO_LARGE);
        wants(hikebox_quota_new(0, tickets + 1, share, far + 1, carries, &quota), HIKEBOX_RESERVE_TOO_LARGE);
        wants(hikebox_quota_new(0, tickets, share + 1, 0, carries, &quota), HIKEBOX_SHARE_TOO_LARGE);
        wants(hikebox_quota_new(0, tickets, share + 1, far + 1, carries, &quota), HIKEBOX_SHARE_TOO_LARGE);
        wants(hikebox_quota_new(0, tickets, share, 99, carries, &quota), HIKEBOX_PERIOD_TOO_SHORT);
        wants(hikebox_quota_new(0, tickets, share, far + 1, carries, &quota), HIKEBOX_TOO_LARGE);
    }
    holds(quota.held == NULL);
    wants(hikebox_quota_new(0, tickets, share, far, false, &quota), HIKEBOX_OK);
    sees(&quota, far - 1, 0, 0, 0, HIKEBOX_MAX_TICKETS, far);
    sees(&quota, far, 1, 0, 0, HIKEBOX_MAX_TICKETS, far);
    closes(&quota, 0);
    wants(hikebox_quota_new(far, 1, 0, 100, false, &quota), HIKEBOX_OK);
    draws(&quota, far, 0);
    sees(&quota, 0, 0, 0, 1, 0, far);
    closes(&quota, 1);
}

// Windows of 100 ms, each of 2 tickets and half a ticket a request; then no reserve, no share, and windows far apart.
static void windows(void) {
    hikebox_pass quota = HIKEBOX_INIT;
    uint64_t ticket = 77;
    wants(hikebox_quota_new(0, 2, 500, 100, false, &quota), HIKEBOX_OK);
    sees(&quota, 0, 0, 0, 0, 2, 100);
    draws(&quota, 0, 0);
    draws(&quota, 99, 1);
    wants(hikebox_pass_draw(&quota, 99, &ticket), HIKEBOX_NO_TICKET);
    wants(hikebox_pass_deposit(&quota, 99, 1), HIKEBOX_OK);
    wants(hikebox_pass_draw(&quota, 99, &ticket), HIKEBOX_NO_TICKET);
    holds(ticket == 77);
    wants(hikebox_pass_deposit(&quota, 0, 1), HIKEBOX_OK);
    sees(&quota, 50, 0, 2, 2, 1, 100);
    draws(&quota, 99, 2);
    sees(&quota, 99, 0, 2, 3, 0, 100);
    draws(&quota, 100, first_of(1));
    draws(&quota, 99, first_of(1) + 1);
    wants(hikebox_pass_draw(&quota, 199, &ticket), HIKEBOX_NO_TICKET);
    sees(&quota, 0, 1, 0, 2, 0, 200);
    wants(hikebox_pass_deposit(&quota, 250, 1), HIKEBOX_OK);
    sees(&quota, 200, 2, 1, 0, 2, 300);
    draws(&quota, 300, first_of(3));
    wants(hikebox_pass_draw(&quota, HIKEBOX_MAX_NUMBER + 1, &ticket), HIKEBOX_TOO_LARGE);
    closes(&quota, 6);
    wants(hikebox_quota_new(0, 0, 1000, 100, false, &quota), HIKEBOX_OK);
    wants(hikebox_pass_draw(&quota, 5, &ticket), HIKEBOX_NO_TICKET);
    wants(hikebox_pass_deposit(&quota, 5, 1), HIKEBOX_OK);
    draws(&quota, 5, 0);
    wants(hikebox_pass_draw(&quota, 5, &ticket), HIKEBOX_NO_TICKET);
    closes(&quota, 1);
    wants(hikebox_quota_new(0, 1, 0, 100, false, &quota), HIKEBOX_OK);
    for (int request = 0; request < 5; request++)
        wants(hikebox_pass_deposit(&quota, 99, 1), HIKEBOX_OK);
    draws(&quota, 99, 0);
    wants(hikebox_pass_draw(&quota, 99, &ticket), HIKEBOX_NO_TICKET);
    draws(&quota, 100, first_of(1));
    closes(&quota, 2);
    // Windows are counted from the one that the quota was made in; a call opens its own, and those between give nothing.
    wants(hikebox_quota_new(1700000000042, 1, 0, 100, false, &quota), HIKEBOX_OK);
    draws(&quota, 1700000000099, 0);
    wants(hikebox_pass_draw(&quota, 0, &ticket), HIKEBOX_NO_TICKET);
    draws(&quota, 1700000500000, first_of(5000));
    wants(hikebox_pass_draw(&quota, 1700000500099, &ticket), HIKEBOX_NO_TICKET);
    sees(&quota, 1700000000200, 5000, 0, 1, 0, 1700000500100);
    closes(&quota, 2);
    wants(hikebox_quota_new(0, 1, 0, 100, false, &quota), HIKEBOX_OK);
    draws(&quota, HIKEBOX_MAX_NUMBER, first_of(2999999999));
    sees(&quota, 0, 2999999999, 0, 1, 0, HIKEBOX_MAX_NUMBER);
    closes(&quota, 1);
    // The moment is looked at before the handle.
    wants(hikebox_pass_deposit(&quota, HIKEBOX_MAX_NUMBER + 1, 1), HIKEBOX_TOO_LARGE);
    wants(hikebox_pass_draw(&quota, HIKEBOX_MAX_NUMBER + 1, &ticket), HIKEBOX_TOO_LARGE);
    holds(ticket == 77);
}

// Windows of 100 ms, of which each draws once what the one before left of its share: half a ticket a request.
static void carried(void) {
    hikebox_pass quota = HIKEBOX_INIT, part = HIKEBOX_INIT;
    uint64_t ticket = 77;
    wants(hikebox_quota_new(0, 0, 500, 100, true, &quota), HIKEBOX_OK);
    wants(hikebox_pass_deposit(&quota, 90, 4), HIKEBOX_OK);
    draws(&quota, 95, 0);
    sees(&quota, 110, 1, 0, 0, 1, 200);
    draws(&quota, 110, first_of(1) - 1);
    wants(hikebox_pass_draw(&quota, 199, &ticket), HIKEBOX_NO_TICKET);
    sees(&quota, 199, 1, 0, 0, 0, 200);
    closes(&quota, 2);
    wants(hikebox_quota_new(0, 0, 500, 100, false, &quota), HIKEBOX_OK);
    wants(hikebox_pass_deposit(&quota, 90, 4), HIKEBOX_OK);
    draws(&quota, 95, 0);
    wants(hikebox_pass_draw(&quota, 110, &ticket), HIKEBOX_NO_TICKET);
    closes(&quota, 1);
    // Two are carried to window 1, which draws one of them. The other is not carried on, but the share of its own two requests.
    wants(hikebox_quota_new(0, 1, 500, 100, true, &quota), HIKEBOX_OK);
    wants(hikebox_pass_split(&quota, &part), HIKEBOX_OK);
    wants(hikebox_pass_deposit(&quota, 0, 4), HIKEBOX_OK);
    sees(&part, 0, 0, 4, 0, 3, 100);
    sees(&part, 100, 1, 0, 0, 3, 200);
    draws(&quota, 100, first_of(1) - 2);
    wants(hikebox_pass_deposit(&part, 150, 2), HIKEBOX_OK);
    sees(&quota, 150, 1, 2, 0, 3, 200);
    sees(&part, 200, 2, 0, 0, 2, 300);
    draws(&part, 200, first_of(2) - 1);
    draws(&quota, 200, first_of(2));
    wants(hikebox_pass_draw(&part, 299, &ticket), HIKEBOX_NO_TICKET);
    sees(&quota, 300, 3, 0, 0, 1, 400);
    wants(hikebox_pass_join(&quota, &part), HIKEBOX_OK);
    closes(&quota, 3);
    // An idle window leaves nothing, and hands nothing on. A ticket that was carried is given up where it is handed back.
    wants(hikebox_quota_new(0, 0, 500, 100, true, &quota), HIKEBOX_OK);
    wants(hikebox_pass_deposit(&quota, 0, 10), HIKEBOX_OK);
    wants(hikebox_pass_draw(&quota, 200, &ticket), HIKEBOX_NO_TICKET);
    sees(&quota, 200, 2, 0, 0, 0, 300);
    wants(hikebox_pass_deposit(&quota, 200, 4), HIKEBOX_OK);
    draws(&quota, 300, first_of(3) - 2);
    wants(hikebox_pass_hand_back(&quota), HIKEBOX_OK);
    draws(&quota, 300, first_of(3) - 1);
    wants(hikebox_pass_draw(&quota, 300, &ticket), HIKEBOX_NO_TICKET);
    closes(&quota, 1);
    // Half of a window's numbers are of its own tickets, and half of those carried from it.
    wants(hikebox_quota_new(0, HIKEBOX_MAX_TICKETS, HIKEBOX_MAX_SHARE, 100, true, &quota), HIKEBOX_OK);
    sees(&quota, 0, 0, 0, 0, UINT64_C(2147483648), 100);
    wants(hikebox_pass_deposit(&quota, 0, UINT64_C(4294967295)), HIKEBOX_OK);
    sees(&quota, 100, 1, 0, 0, UINT64_C(4294967296), 200);
    draws(&quota, 100, UINT64_C(2147483648));
    closes(&quota, 1);
    holds(ticket == 77);
}

// Several requests counted at once, of which each adds a quarter of a ticket, and those that are past a pass's parts.
static void weights(void) {
    hikebox_pass quota = HIKEBOX_INIT, part = HIKEBOX_INIT, least = HIKEBOX_INIT;
    uint64_t ticket = 77;
    wants(hikebox_quota_new(0, 1, 250, 100, false, &quota), HIKEBOX_OK);
    wants(hikebox_pass_split(&quota, &part), HIKEBOX_OK);
    wants(hikebox_pass_split(&part, &least), HIKEBOX_OK);
    wants(hikebox_pass_deposit(&least, 0, 2), HIKEBOX_TOO_MANY_REQUESTS);
    wants(hikebox_pass_deposit(&part, 0, 1048576), HIKEBOX_TOO_MANY_REQUESTS);
    wants(hikebox_pass_deposit(&part, HIKEBOX_MAX_NUMBER + 1, 1048576), HIKEBOX_TOO_LARGE);
    wants(hikebox_pass_deposit(&least, 0, 0), HIKEBOX_OK);
    sees(&quota, 0, 0, 0, 0, 1, 100);
    wants(hikebox_pass_deposit(&least, 0, 1), HIKEBOX_OK);
    wants(hikebox_pass_deposit(&part, 0, 1048575), HIKEBOX_OK);
    sees(&quota, 99, 0, 1048576, 0, 262145, 100);
    wants(hikebox_pass_deposit(&part, 100, 8), HIKEBOX_OK);
    for (uint64_t number = 0; number < 3; number++)
        draws(&least, 100, first_of(1) + number);
    wants(hikebox_pass_draw(&least, 199, &ticket), HIKEBOX_NO_TICKET);
    wants(hikebox_pass_deposit(&quota, 50, 4), HIKEBOX_OK);
    draws(&part, 50, first_of(1) + 3);
    wants(hikebox_pass_draw(&quota, 199, &ticket), HIKEBOX_NO_TICKET);
    // The last request of a window opens the next before its time.
    wants(hikebox_pass_deposit(&quota, 200, UINT64_C(4294967295)), HIKEBOX_OK);
    sees(&quota, 200, 2, UINT64_C(4294967295), 0, UINT64_C(1073741824), 300);
    wants(hikebox_pass_deposit(&least, 200, 1), HIKEBOX_OK);
    sees(&quota, 200, 3, 0, 0, 1, 400);
    wants(hikebox_pass_join(&part, &least), HIKEBOX_OK);
    wants(hikebox_pass_join(&quota, &part), HIKEBOX_OK);
    closes(&quota, 4);
}

// Terms that any pass sets, for the present window too; what was given stays given.
static void new_terms(void) {
    hikebox_pass quota = HIKEBOX_INIT, part = HIKEBOX_INIT;
    uint64_t ticket = 77, tickets = HIKEBOX_MAX_TICKETS, share = HIKEBOX_MAX_SHARE;
    wants(hikebox_quota_new(0, 2, 0, 100, false, &quota), HIKEBOX_OK);
    wants(hikebox_pass_split(&quota, &part), HIKEBOX_OK);
    draws(&quota, 0, 0);
    wants(hikebox_pass_set_terms(&part, 1, 0), HIKEBOX_OK);
    wants(hikebox_pass_draw(&quota, 0, &ticket), HIKEBOX_NO_TICKET);
    sees(&part, 0, 0, 0, 1, 0, 100);
    wants(hikebox_pass_set_terms(&quota, 3, 0), HIKEBOX_OK);
    sees(&part, 0, 0, 0, 1, 2, 100);
    draws(&part, 99, 1);
    draws(&quota, 99, 2);
    wants(hikebox_pass_draw(&part, 99, &ticket), HIKEBOX_NO_TICKET);
    wants(hikebox_pass_set_terms(&part, 0, 500), HIKEBOX_OK);
    sees(&quota, 99, 0, 0, 3, 0, 100);
    wants(hikebox_pass_deposit(&quota, 100, 5), HIKEBOX_OK);
    draws(&quota, 100, first_of(1));
    draws(&part, 100, first_of(1) + 1);
    wants(hikebox_pass_draw(&part, 199, &ticket), HIKEBOX_NO_TICKET);
    // What no quota is made with is refused, and the terms stay.
    wants(hikebox_pass_set_terms(&quota, tickets + 1, share + 1), HIKEBOX_RESERVE_TOO_LARGE);
    wants(hikebox_pass_set_terms(&quota, tickets, share + 1), HIKEBOX_SHARE_TOO_LARGE);
    sees(&quota, 199, 1, 5, 2, 0, 200);
    wants(hikebox_pass_set_terms(&quota, tickets, share), HIKEBOX_OK);
    sees(&part, 199, 1, 5, 2, tickets - 2, 200);
    wants(hikebox_pass_join(&quota, &part), HIKEBOX_OK);
    closes(&quota, 5);
}

// Passes of a quota: splits down to one part, joins, and when it is closed.
static void passes(void) {
    hikebox_pass quota = HIKEBOX_INIT, part = HIKEBOX_INIT, least = HIKEBOX_INIT, none = HIKEBOX_INIT;
    uint64_t tickets = 77;
    wants(hikebox_quota_new(0, 9, 0, 100, false, &quota), HIKEBOX_OK);
    wants(hikebox_pass_split(&quota, &part), HIKEBOX_OK);
    wants(hikebox_pass_split(&part, &least), HIKEBOX_OK);
    wants(hikebox_pass_split(&least, &none), HIKEBOX_TOO_MANY_PASSES);
    holds(none.held == NULL);
    draws(&quota, 0, 0);
    draws(&part, 0, 1);
    draws(&least, 0, 2);
    draws(&least, 0, 3);
    wants(hikebox_pass_count(&least, &tickets), HIKEBOX_OK);
    holds(tickets == 2);
    wants(hikebox_pass_close(&quota, &tickets), HIKEBOX_PASSES_OUT);
    wants(hikebox_pass_join(&part, &least), HIKEBOX_OK);
    wants(hikebox_pass_count(&least, &tickets), HIKEBOX_EMPTY);
    wants(hikebox_pass_count(&part, &tickets), HIKEBOX_OK);
    holds(tickets == 3);
    wants(hikebox_pass_join(&quota, &part), HIKEBOX_OK);
    closes(&quota, 4);
    // It counts no passes.
    wants(hikebox_quota_new(0, 1, 0, 100, false, &quota), HIKEBOX_OK);
    for (int times = 0; times < 70000; times++) {
        wants(hikebox_pass_split(&quota, &part), HIKEBOX_OK);
        wants(hikebox_pass_join(&quota, &part), HIKEBOX_OK);
    }
    wants(hikebox_pass_split(&quota, &part), HIKEBOX_OK);
    wants(hikebox_pass_free(&part), HIKEBOX_OK);
    wants(hikebox_pass_close(&quota, &tickets), HIKEBOX_PASSES_OUT);
    draws(&quota, 0, 0);
    wants(hikebox_pass_free(&quota), HIKEBOX_OK);
}

// One failed run, begun at `from` and over at `to`: what is to be done then, and what was granted so far.
static void fails_at(int line, hikebox_retry *machine, uint64_t from, uint64_t to, uint32_t what, uint64_t granted) {
    hikebox_next next = HIKEBOX_NEXT;
    wants_at(__FILE__, line, hikebox_retry_poll(machine, from, no_words, HIKEBOX_NO_REPORT, 0, &next), HIKEBOX_OK);
    holds_at(__FILE__, line, next.what == HIKEBOX_RUN);
    wants_at(__FILE__, line, hikebox_retry_poll(machine, to, no_words, HIKEBOX_LOST, 7, &next), HIKEBOX_OK);
    holds_at(__FILE__, line, next.what == what && next.granted == granted);
}
#define fails(machine, from, to, what, granted) fails_at(__LINE__, machine, from, to, what, granted)

// How a retry ended, after so many runs. A poll of one that is over changes nothing.
static void ended_at(int line, hikebox_retry *machine, uint32_t how, uint64_t runs) {
    hikebox_next next = HIKEBOX_NEXT;
    wants_at(__FILE__, line, hikebox_retry_poll(machine, 0, no_words, HIKEBOX_NO_REPORT, 0, &next), HIKEBOX_OK);
    holds_at(__FILE__, line, next.what == HIKEBOX_OVER && next.how == how && next.runs == runs);
}
#define ended(machine, how, runs) ended_at(__LINE__, machine, how, runs)

// How many tickets a pass has.
static void counts_at(int line, hikebox_pass *pass, uint64_t wanted) {
    uint64_t tickets = 0;
    wants_at(__FILE__, line, hikebox_pass_count(pass, &tickets), HIKEBOX_OK);
    holds_at(__FILE__, line, tickets == wanted);
}
#define counts(pass, wanted) counts_at(__LINE__, pass, wanted)

// Tickets handed back in their window and after it, by the pass that drew them and by one that a retry was ended into.
static void returns(void) {
    hikebox_policy policy = HIKEBOX_INIT;
    hikebox_pass quota = HIKEBOX_INIT, part = HIKEBOX_INIT;
    hikebox_retry machine = HIKEBOX_INIT;
    uint64_t ticket = 77;
    wants(read_policy("{\"meet\":[{\"recurs\":3},{\"spaced\":60}]}", &policy), HIKEBOX_OK);
    wants(hikebox_quota_new(0, 1, 0, 100, false, &quota), HIKEBOX_OK);
    wants(hikebox_pass_split(&quota, &part), HIKEBOX_OK);
    wants(hikebox_pass_hand_back(&quota), HIKEBOX_NOTHING_TO_HAND_BACK);
    draws(&quota, 0, 0);
    wants(hikebox_pass_hand_back(&part), HIKEBOX_NOTHING_TO_HAND_BACK);
    wants(hikebox_pass_draw(&part, 0, &ticket), HIKEBOX_NO_TICKET);
    // In its window any pass draws one more for it, which has a number of its own.
    wants(hikebox_pass_hand_back(&quota), HIKEBOX_OK);
    wants(hikebox_pass_hand_back(&quota), HIKEBOX_NOTHING_TO_HAND_BACK);
    counts(&quota, 0);
    sees(&quota, 0, 0, 0, 0, 1, 100);
    draws(&part, 99, 1);
    wants(hikebox_pass_draw(&quota, 99, &ticket), HIKEBOX_NO_TICKET);
    // Once the window is over none does.
    draws(&quota, 100, first_of(1));
    wants(hikebox_pass_hand_back(&part), HIKEBOX_OK);
    counts(&part, 0);
    wants(hikebox_pass_draw(&part, 100, &ticket), HIKEBOX_NO_TICKET);
    sees(&part, 100, 1, 0, 1, 0, 200);
    // A retry that is cancelled while it waits hands its ticket back by the pass that it is ended into.
    wants(hikebox_retry_new(&policy, &quota, HIKEBOX_NO_DEADLINE, &machine), HIKEBOX_OK);
    fails(&machine, 200, 210, HIKEBOX_WAIT, 1);
    wants(hikebox_retry_cancel(&machine), HIKEBOX_OK);
    wants(hikebox_retry_end(&machine, &quota), HIKEBOX_OK);
    wants(hikebox_pass_draw(&part, 210, &ticket), HIKEBOX_NO_TICKET);
    wants(hikebox_pass_hand_back(&quota), HIKEBOX_OK);
    wants(hikebox_pass_hand_back(&quota), HIKEBOX_NOTHING_TO_HAND_BACK);
    counts(&quota, 1);
    draws(&quota, 299, first_of(2) + 1);
    // One that drew nothing leaves the pass the ticket that it had.
    wants(hikebox_retry_new(&policy, &quota, HIKEBOX_NO_DEADLINE, &machine), HIKEBOX_OK);
    fails(&machine, 299, 299, HIKEBOX_OVER, 0);
    wants(hikebox_retry_end(&machine, &quota), HIKEBOX_OK);
    wants(hikebox_pass_hand_back(&quota), HIKEBOX_OK);
    counts(&quota, 1);
    wants(hikebox_pass_join(&quota, &part), HIKEBOX_OK);
    closes(&quota, 1);
    wants(hikebox_policy_free(&policy), HIKEBOX_OK);
}

// A pass of nothing: each draw is granted, and counted; and what a budget makes of calls that are meant for a quota.
static void nothings(void) {
    hikebox_policy policy = HIKEBOX_INIT;
    hikebox_pass nothing = HIKEBOX_INIT, part = HIKEBOX_INIT, budget = HIKEBOX_INIT;
    hikebox_retry machine = HIKEBOX_INIT;
    hikebox_usage usage = {sizeof usage, 6, 6, 6, 6, 6};
    uint64_t number = 9;
    wants(hikebox_pass_unlimited(&nothing), HIKEBOX_OK);
    for (uint64_t ticket = 0; ticket < 3; ticket++) {
        wants(hikebox_pass_draw(&nothing, 7, &number), HIKEBOX_OK);
        holds(number == ticket);
    }
    wants(hikebox_pass_draw(&nothing, HIKEBOX_MAX_NUMBER + 1, &number), HIKEBOX_TOO_LARGE);
    wants(hikebox_pass_deposit(&nothing, 7, UINT64_MAX), HIKEBOX_OK);
    wants(hikebox_pass_hand_back(&nothing), HIKEBOX_NOTHING_TO_HAND_BACK);
    wants(hikebox_pass_set_terms(&nothing, HIKEBOX_MAX_TICKETS + 1, 0), HIKEBOX_NO_TERMS);
    wants(hikebox_pass_raise(&nothing, HIKEBOX_MAX_TICKETS + 1, &number), HIKEBOX_FIXED);
    wants(hikebox_pass_seen(&nothing, 7, &usage), HIKEBOX_WRONG_KIND);
    wants(hikebox_pass_split(&nothing, &part), HIKEBOX_OK);
    wants(hikebox_pass_draw(&part, 0, &number), HIKEBOX_OK);
    holds(number == 0 && usage.window == 6);
    wants(hikebox_pass_join(&nothing, &part), HIKEBOX_OK);
    // A retry on nothing gives back what it was granted.
    wants(read_policy("{\"recurs\":3}", &policy), HIKEBOX_OK);
    wants(hikebox_retry_new(&policy, &nothing, HIKEBOX_NO_DEADLINE, &machine), HIKEBOX_OK);
    fails(&machine, 0, 0, HIKEBOX_RUN, 1);
    wants(hikebox_budget_fixed(2, &budget), HIKEBOX_OK);
    wants(hikebox_pass_join(&budget, &nothing), HIKEBOX_DRAWS_ELSEWHERE);
    wants(hikebox_retry_end(&machine, &nothing), HIKEBOX_OK);
    wants(hikebox_pass_count(&nothing, &number), HIKEBOX_OK);
    holds(number == 5 && part.held == NULL);
    closes(&nothing, 5);
    wants(hikebox_pass_deposit(&budget, 3, UINT64_MAX), HIKEBOX_OK);
    draws(&budget, 3, 0);
    wants(hikebox_pass_hand_back(&budget), HIKEBOX_NOTHING_TO_HAND_BACK);
    wants(hikebox_pass_set_terms(&budget, HIKEBOX_MAX_TICKETS + 1, 0), HIKEBOX_NO_TERMS);
    wants(hikebox_pass_raise(&budget, 9, &number), HIKEBOX_FIXED);
    closes(&budget, 1);
    wants(hikebox_policy_free(&policy), HIKEBOX_OK);
}

// Retries on a quota draw at the moment of the poll; those on nothing are granted all; each ends where it draws.
static void drawings(void) {
    hikebox_policy policy = HIKEBOX_INIT, often = HIKEBOX_INIT;
    hikebox_pass quota = HIKEBOX_INIT, pass = HIKEBOX_INIT, none = HIKEBOX_INIT;
    hikebox_retry machine = HIKEBOX_INIT, free_machine = HIKEBOX_INIT, on_budget = HIKEBOX_INIT;
    uint64_t tickets;
    wants(read_policy("{\"meet\":[{\"recurs\":3},{\"spaced\":60}]}", &policy), HIKEBOX_OK);
    wants(read_policy("{\"recurs\":3}", &often), HIKEBOX_OK);
    wants(hikebox_quota_new(0, 1, 0, 100, false, &quota), HIKEBOX_OK);
    wants(hikebox_retry_new(&policy, &quota, HIKEBOX_NO_DEADLINE, &machine), HIKEBOX_OK);
    fails(&machine, 0, 99, HIKEBOX_WAIT, 1);
    fails(&machine, 159, 160, HIKEBOX_WAIT, 2);
    fails(&machine, 220, 230, HIKEBOX_WAIT, 3);
    fails(&machine, 290, 299, HIKEBOX_OVER, 3);
    ended(&machine, HIKEBOX_ENDED_DONE, 4);
    sees(&quota, 299, 2, 0, 1, 0, 300);
    wants(hikebox_retry_end(&machine, &quota), HIKEBOX_OK);
    wants(hikebox_pass_count(&quota, &tickets), HIKEBOX_OK);
    holds(machine.held == NULL && tickets == 3);
    // A second one is refused in the window that has given its ticket, and a later one draws again.
    wants(hikebox_retry_new(&often, &quota, HIKEBOX_NO_DEADLINE, &machine), HIKEBOX_OK);
    fails(&machine, 290, 290, HIKEBOX_OVER, 0);
    ended(&machine, HIKEBOX_ENDED_LIMIT_REFUSED, 1);
    wants(hikebox_retry_end(&machine, &quota), HIKEBOX_OK);
    wants(hikebox_retry_new(&often, &quota, HIKEBOX_NO_DEADLINE, &machine), HIKEBOX_OK);
    fails(&machine, 300, 300, HIKEBOX_RUN, 1);
    // Ends into what a retry does not draw on.
    wants(hikebox_budget_fixed(1, &pass), HIKEBOX_OK);
    wants(hikebox_retry_new(&often, &pass, HIKEBOX_NO_DEADLINE, &on_budget), HIKEBOX_OK);
    wants(retry_on_nothing(&often, HIKEBOX_NO_DEADLINE, &free_machine), HIKEBOX_OK);
    wants(hikebox_retry_end(&machine, &none), HIKEBOX_EMPTY);
    wants(hikebox_retry_end(&machine, (hikebox_pass *)&often), HIKEBOX_WRONG_KIND);
    wants(hikebox_retry_end(&machine, &pass), HIKEBOX_DRAWS_ELSEWHERE);
    wants(hikebox_retry_end(&free_machine, &pass), HIKEBOX_DRAWS_ELSEWHERE);
    wants(hikebox_retry_end(&on_budget, &none), HIKEBOX_EMPTY);
    wants(hikebox_retry_end(&on_budget, (hikebox_pass *)&often), HIKEBOX_WRONG_KIND);
    wants(hikebox_retry_end(&on_budget, &quota), HIKEBOX_DRAWS_ELSEWHERE);
    wants(hikebox_retry_end(&free_machine, &quota), HIKEBOX_DRAWS_ELSEWHERE);
    wants(hikebox_retry_end(&machine, &quota), HIKEBOX_OK);
    wants(hikebox_retry_end(&on_budget, &pass), HIKEBOX_OK);
    closes(&quota, 4);
    wants(hikebox_pass_close(&pass, &tickets), HIKEBOX_OK);
    for (uint64_t granted = 1; granted <= 3; granted++)
        fails(&free_machine, 0, 0, HIKEBOX_RUN, granted);
    fails(&free_machine, 0, 0, HIKEBOX_OVER, 3);
    ended(&free_machine, HIKEBOX_ENDED_DONE, 4);
    wants(hikebox_retry_free(&free_machine), HIKEBOX_OK);
    // A retry that is freed keeps its pass.
    wants(hikebox_quota_new(0, 1, 0, 100, false, &quota), HIKEBOX_OK);
    wants(hikebox_retry_new(&often, &quota, HIKEBOX_NO_DEADLINE, &machine), HIKEBOX_OK);
    wants(hikebox_retry_free(&machine), HIKEBOX_OK);
    wants(hikebox_pass_close(&quota, &tickets), HIKEBOX_PASSES_OUT);
    wants(hikebox_pass_free(&quota), HIKEBOX_OK);
    wants(hikebox_policy_free(&often), HIKEBOX_OK);
    wants(hikebox_policy_free(&policy), HIKEBOX_OK);
}

// Retries that begin again: whether they are over or not, with another deadline, from moment 0 on, and with the pass that
// they have.
static void agains(void) {
    hikebox_policy policy = HIKEBOX_INIT;
    hikebox_pass pass = HIKEBOX_INIT, quota = HIKEBOX_INIT;
    hikebox_retry machine = HIKEBOX_INIT;
    wants(read_policy("{\"meet\":[{\"recurs\":2},{\"spaced\":100}]}", &policy), HIKEBOX_OK);
    wants(hikebox_budget_rising(5, &pass), HIKEBOX_OK);
    wants(hikebox_retry_new(&policy, &pass, HIKEBOX_NO_DEADLINE, &machine), HIKEBOX_OK);
    fails(&machine, 50, 70, HIKEBOX_WAIT, 1);
    // While it waits.
    wants(hikebox_retry_again(&machine, HIKEBOX_NO_DEADLINE), HIKEBOX_OK);
    counts(&pass, 0);
    fails(&machine, 0, 10, HIKEBOX_WAIT, 1);
    fails(&machine, 110, 120, HIKEBOX_WAIT, 2);
    fails(&machine, 220, 230, HIKEBOX_OVER, 2);
    ended(&machine, HIKEBOX_ENDED_DONE, 3);
    // Nothing changes where it is refused.
    wants(hikebox_retry_again(&machine, HIKEBOX_MAX_NUMBER + 1), HIKEBOX_TOO_LARGE);
    ended(&machine, HIKEBOX_ENDED_DONE, 3);
    // The start at 110 is in time, and the one at 210 is not.
    wants(hikebox_retry_again(&machine, 209), HIKEBOX_OK);
    fails(&machine, 10, 10, HIKEBOX_WAIT, 1);
    fails(&machine, 110, 110, HIKEBOX_OVER, 1);
    ended(&machine, HIKEBOX_ENDED_DEADLINE, 2);
    // The fifth ticket is the last one, until the limit rises.
    wants(hikebox_retry_again(&machine, HIKEBOX_NO_DEADLINE), HIKEBOX_OK);
    fails(&machine, 0, 0, HIKEBOX_WAIT, 1);
    fails(&machine, 100, 100, HIKEBOX_OVER, 1);
    ended(&machine, HIKEBOX_ENDED_LIMIT_REFUSED, 2);
    wants(hikebox_retry_again(&machine, HIKEBOX_NO_DEADLINE), HIKEBOX_OK);
    wants(hikebox_retry_cancel(&machine), HIKEBOX_OK);
    wants(hikebox_retry_again(&machine, HIKEBOX_NO_DEADLINE), HIKEBOX_OK);
    fails(&machine, 0, 0, HIKEBOX_OVER, 0);
    ended(&machine, HIKEBOX_ENDED_LIMIT_REFUSED, 1);
    // All tickets are in its pass.
    counts(&pass, 0);
    wants(hikebox_retry_end(&machine, &pass), HIKEBOX_OK);
    closes(&pass, 5);
    // The latest ticket of a quota comes back by the pass into which the retry ended.
    wants(hikebox_quota_new(0, 1, 0, 100, false, &quota), HIKEBOX_OK);
    wants(hikebox_retry_new(&policy, &quota, HIKEBOX_NO_DEADLINE, &machine), HIKEBOX_OK);
    fails(&machine, 0, 0, HIKEBOX_WAIT, 1);
    wants(hikebox_retry_again(&machine, HIKEBOX_NO_DEADLINE), HIKEBOX_OK);
    wants(hikebox_pass_hand_back(&quota), HIKEBOX_NOTHING_TO_HAND_BACK);
    wants(hikebox_retry_end(&machine, &quota), HIKEBOX_OK);
    counts(&quota, 1);
    wants(hikebox_pass_hand_back(&quota), HIKEBOX_OK);
    wants(hikebox_retry_new(&policy, &quota, HIKEBOX_NO_DEADLINE, &machine), HIKEBOX_OK);
    fails(&machine, 0, 0, HIKEBOX_WAIT, 1);
    wants(hikebox_retry_end(&machine, &quota), HIKEBOX_OK);
    closes(&quota, 1);
    wants(hikebox_policy_free(&policy), HIKEBOX_OK);
}

// What a poll at a moment tells that a retry has left.
static void has_left_at(int line, hikebox_retry *machine, uint64_t now, uint64_t wanted) {
    hikebox_next next = HIKEBOX_NEXT;
    wants_at(__FILE__, line, hikebox_retry_poll(machine, now, no_words, HIKEBOX_NO_REPORT, 0, &next), HIKEBOX_OK);
    holds_at(__FILE__, line, next.left == wanted);
}
#define has_left(machine, now, wanted) has_left_at(__LINE__, machine, now, wanted)

// Runs that fail at once, 450 ms apart. The rows are worked out by hand.
static void spaced_deadlines(void) {
    static const struct {
        const char *json;
        uint64_t deadline, runs;
        uint32_t how;
    } rows[] = {
        // starts at 450 and 900, and the one at 1350 is too late
        {"{\"spaced\":450}", 1000, 3, HIKEBOX_ENDED_DEADLINE},
        // a start at the deadline is in time, and one a millisecond later isn't
        {"{\"spaced\":450}", 900, 3, HIKEBOX_ENDED_DEADLINE},
        {"{\"spaced\":450}", 899, 2, HIKEBOX_ENDED_DEADLINE},
        // the first run is made, and no more
        {"{\"spaced\":450}", 0, 1, HIKEBOX_ENDED_DEADLINE},
        // the plan is done before it, and at the failure at which the next start would be too late
        {"{\"meet\":[{\"recurs\":1},{\"spaced\":450}]}", 1000, 2, HIKEBOX_ENDED_DONE},
        {"{\"meet\":[{\"recurs\":2},{\"spaced\":450}]}", 1000, 3, HIKEBOX_ENDED_DONE},
        {"{\"meet\":[{\"recurs\":3},{\"spaced\":450}]}", 1000, 3, HIKEBOX_ENDED_DEADLINE},
        {"{\"meet\":[{\"recurs\":3},{\"spaced\":450}]}", HIKEBOX_MAX_NUMBER, 4, HIKEBOX_ENDED_DONE},
        {"{\"meet\":[{\"recurs\":3},{\"spaced\":450}]}", HIKEBOX_NO_DEADLINE, 4, HIKEBOX_ENDED_DONE},
    };
    for (size_t row = 0; row < sizeof rows / sizeof *rows; row++) {
        hikebox_policy policy = HIKEBOX_INIT;
        hikebox_pass pass = HIKEBOX_INIT;
        hikebox_retry machine = HIKEBOX_INIT;
        hikebox_next next = HIKEBOX_NEXT;
        uint64_t now = 0, tickets;
        wants(read_policy(rows[row].json, &policy), HIKEBOX_OK);
        wants(hikebox_budget_fixed(9, &pass), HIKEBOX_OK);
        wants(hikebox_retry_new(&policy, &pass, rows[row].deadline, &machine), HIKEBOX_OK);
        for (uint64_t run = 1; run < rows[row].runs; run++) {
            fails(&machine, now, now, HIKEBOX_WAIT, run);
            // (it waits on)
            wants(hikebox_retry_poll(&machine, now, no_words, HIKEBOX_NO_REPORT, 0, &next), HIKEBOX_OK);
            now += 450;
            holds(next.what == HIKEBOX_WAIT && next.until == now);
        }
        fails(&machine, now, now, HIKEBOX_OVER, rows[row].runs - 1);
        ended(&machine, rows[row].how, rows[row].runs);
        wants(hikebox_retry_end(&machine, &pass), HIKEBOX_OK);
        wants(hikebox_pass_close(&pass, &tickets), HIKEBOX_OK);
        holds(tickets == rows[row].runs - 1);
        wants(hikebox_policy_free(&policy), HIKEBOX_OK);
    }
}

// A program that wakes late for a start at 450, on a deadline of 500: by 500 the run begins, and may end later; past it
// none does. The ticket of the run that was not made is still out.
static void late_wakes(hikebox_policy *policy, hikebox_pass *pass) {
    static const struct {
        uint64_t wakes;
        uint32_t what;
    } rows[] = {
        {449, HIKEBOX_WAIT},
        {450, HIKEBOX_RUN},
        {500, HIKEBOX_RUN},
        {501, HIKEBOX_OVER},
        {HIKEBOX_MAX_NUMBER, HIKEBOX_OVER},
    };
    hikebox_retry machine = HIKEBOX_INIT;
    hikebox_pass quota = HIKEBOX_INIT;
    hikebox_next next = HIKEBOX_NEXT;
    for (size_t row = 0; row < sizeof rows / sizeof *rows; row++) {
        wants(hikebox_retry_new(policy, pass, 500, &machine), HIKEBOX_OK);
        fails(&machine, 0, 0, HIKEBOX_WAIT, 1);
        wants(hikebox_retry_poll(&machine, rows[row].wakes, no_words, HIKEBOX_NO_REPORT, 0, &next), HIKEBOX_OK);
        holds(next.what == rows[row].what && next.granted == 1 && next.runs == 1);
        if (next.what == HIKEBOX_OVER) {
            ended(&machine, HIKEBOX_ENDED_DEADLINE, 1);
            wants(hikebox_retry_poll(&machine, 502, no_words, HIKEBOX_WON, 0, &next), HIKEBOX_NO_RUN);
            wants(hikebox_retry_cancel(&machine), HIKEBOX_OK);
            ended(&machine, HIKEBOX_ENDED_DEADLINE, 1);
        }
        if (next.what == HIKEBOX_RUN) {
            has_left(&machine, 700, 0);
            wants(hikebox_retry_poll(&machine, 700, no_words, HIKEBOX_WON, 0, &next), HIKEBOX_OK);
            ended(&machine, HIKEBOX_ENDED_WON, 2);
        }
        wants(hikebox_retry_end(&machine, pass), HIKEBOX_OK);
        wants(hikebox_pass_hand_back(pass), HIKEBOX_NOTHING_TO_HAND_BACK);
    }
    // The first run is made however late it is, and no other; a report past the deadline is heard.
    wants(hikebox_retry_new(policy, pass, 500, &machine), HIKEBOX_OK);
    fails(&machine, 900, 950, HIKEBOX_OVER, 0);
    ended(&machine, HIKEBOX_ENDED_DEADLINE, 1);
    wants(hikebox_retry_end(&machine, pass), HIKEBOX_OK);
    // Of a quota, the ticket of the run that was not made comes back, once, and another retry draws it in the window.
    wants(hikebox_quota_new(0, 1, 0, 1000, false, &quota), HIKEBOX_OK);
    for (size_t times = 0; times < 3; times++) {
        wants(hikebox_retry_new(policy, &quota, 500, &machine), HIKEBOX_OK);
        fails(&machine, 0, 0, HIKEBOX_WAIT, 1);
        wants(hikebox_retry_poll(&machine, 501, no_words, HIKEBOX_NO_REPORT, 0, &next), HIKEBOX_OK);
        ended(&machine, HIKEBOX_ENDED_DEADLINE, 1);
        wants(hikebox_retry_end(&machine, &quota), HIKEBOX_OK);
        if (times == 2) break;
        wants(hikebox_pass_hand_back(&quota), HIKEBOX_OK);
        wants(hikebox_pass_hand_back(&quota), HIKEBOX_NOTHING_TO_HAND_BACK);
    }
    // The third kept it, and a fourth finds none.
    wants(hikebox_retry_new(policy, &quota, 500, &machine), HIKEBOX_OK);
    fails(&machine, 0, 0, HIKEBOX_OVER, 0);
    ended(&machine, HIKEBOX_ENDED_LIMIT_REFUSED, 1);
    wants(hikebox_retry_end(&machine, &quota), HIKEBOX_OK);
    closes(&quota, 1);
}

static int deadlines(void) {
    hikebox_policy policy = HIKEBOX_INIT, at_once = HIKEBOX_INIT, no_policy = HIKEBOX_INIT;
    hikebox_pass quota = HIKEBOX_INIT;
    hikebox_pass pass = HIKEBOX_INIT;
    hikebox_retry machine = HIKEBOX_INIT, empty = HIKEBOX_INIT;
    uint64_t tickets;
    spaced_deadlines();
    wants(read_policy("{\"spaced\":450}", &policy), HIKEBOX_OK);
    wants(read_policy("\"forever\"", &at_once), HIKEBOX_OK);
    wants(hikebox_quota_new(0, 9, 0, 1000, false, &quota), HIKEBOX_OK);
    wants(hikebox_budget_fixed(9, &pass), HIKEBOX_OK);
    // On a quota, from 5000 on: runs that take 60 fail at 5060 and 5570, and the next start would be 6020. What is left is
    // the same whatever the retry does.
    wants(hikebox_retry_new(&policy, &quota, 6019, &machine), HIKEBOX_OK);
    has_left(&machine, 5000, 1019);
    fails(&machine, 5000, 5060, HIKEBOX_WAIT, 1);
    has_left(&machine, 5510, 509);
    fails(&machine, 5510, 5570, HIKEBOX_OVER, 1);
    ended(&machine, HIKEBOX_ENDED_DEADLINE, 2);
    has_left(&machine, 6018, 1);
    has_left(&machine, 6019, 0);
    has_left(&machine, HIKEBOX_MAX_NUMBER, 0);
    wants(hikebox_retry_end(&machine, &quota), HIKEBOX_OK);
    closes(&quota, 1);
    // On nothing: runs at once, of which one fails past the deadline.
    wants(retry_on_nothing(&at_once, 100, &machine), HIKEBOX_OK);
    fails(&machine, 0, 60, HIKEBOX_RUN, 1);
    fails(&machine, 60, 100, HIKEBOX_RUN, 2);
    fails(&machine, 100, 101, HIKEBOX_OVER, 2);
    ended(&machine, HIKEBOX_ENDED_DEADLINE, 3);
    wants(hikebox_retry_cancel(&machine), HIKEBOX_OK);
    ended(&machine, HIKEBOX_ENDED_DEADLINE, 3);
    wants(hikebox_retry_free(&machine), HIKEBOX_OK);
    late_wakes(&policy, &pass);
    // One that is cancelled while it waits; and what is refused.
    wants(hikebox_retry_new(&policy, &pass, 500, &machine), HIKEBOX_OK);
    fails(&machine, 0, 0, HIKEBOX_WAIT, 1);
    wants(hikebox_retry_cancel(&machine), HIKEBOX_OK);
    ended(&machine, HIKEBOX_ENDED_CANCELLED, 1);
    wants(hikebox_retry_new(&policy, &pass, HIKEBOX_MAX_NUMBER + 1, &machine), HIKEBOX_TOO_LARGE);
    wants(hikebox_retry_new(&policy, &quota, HIKEBOX_NO_DEADLINE - 1, &empty), HIKEBOX_TOO_LARGE);
    wants(retry_on_nothing(&no_policy, HIKEBOX_MAX_NUMBER + 1, &empty), HIKEBOX_TOO_LARGE);
    holds(empty.held == NULL);
    wants(hikebox_retry_end(&machine, &pass), HIKEBOX_OK);
    // Without one there is none.
    wants(retry_on_nothing(&policy, HIKEBOX_NO_DEADLINE, &machine), HIKEBOX_OK);
    has_left(&machine, 0, HIKEBOX_NO_DEADLINE);
    wants(hikebox_retry_free(&machine), HIKEBOX_OK);
    wants(hikebox_pass_close(&pass, &tickets), HIKEBOX_OK);
    holds(tickets == 6);
    wants(hikebox_policy_free(&at_once), HIKEBOX_OK);
    wants(hikebox_policy_free(&policy), HIKEBOX_OK);
    return wrong;
}

static int quotas(void) {
    terms();
    nothings();
    windows();
    carried();
    weights();
    new_terms();
    passes();
    returns();
    drawings();
    agains();
    return wrong;
}

// A call on a store that had `stored`: its status, what is kept then, and the range.
static void leased_at(int line, hikebox_status status, const hikebox_stored *stored, const hikebox_range *range,
                      hikebox_status wanted, hikebox_stored kept, hikebox_range granted) {
    wants_at(__FILE__, line, status, wanted);
    holds_at(__FILE__, line,
             stored->window == kept.window && stored->given == kept.given && stored->asked == kept.asked);
    holds_at(__FILE__, line, range->first == granted.first && range->tickets == granted.tickets);
}

static void allows_at(int line, uint64_t reserve, uint64_t share, uint64_t asked, uint64_t wanted) {
    uint64_t tickets = 77;
    wants_at(__FILE__, line, hikebox_quota_allows(reserve, share, asked, &tickets), HIKEBOX_OK);
    holds_at(__FILE__, line, tickets == wanted);
}
#define allows(...) allows_at(__LINE__, __VA_ARGS__)

static int leases(void) {
    // Ten tickets by fours, for good; then in a later window, and in an earlier one.
    hikebox_stored stored = {0, 0, 0};
    hikebox_asking four = {0, 0, 4};
    hikebox_range range = {77, 78};
    for (uint64_t before = 0; before < 12; before += 4) {
        uint64_t tickets = before < 8 ? 4 : 2;
        leased_at(__LINE__, hikebox_lease_of_budget(10, &four, &stored, &range), &stored, &range, HIKEBOX_OK,
                  (hikebox_stored){0, before + tickets, 0}, (hikebox_range){before, tickets});
    }
    leased_at(__LINE__, hikebox_lease_of_budget(10, &four, &stored, &range), &stored, &range, HIKEBOX_OK,
              (hikebox_stored){0, 10, 0}, (hikebox_range){10, 0});
    four.window = 7;
    leased_at(__LINE__, hikebox_lease_of_budget(10, &four, &stored, &range), &stored, &range, HIKEBOX_OK,
              (hikebox_stored){7, 4, 0}, (hikebox_range){0, 4});
    four.window = 6;
    leased_at(__LINE__, hikebox_lease_of_budget(10, &four, &stored, &range), &stored, &range, HIKEBOX_BACKWARDS,
              (hikebox_stored){7, 4, 0}, (hikebox_range){0, 4});

    // Two tickets and a tenth of each request: 5 requests and 25 more are 30, so five tickets, of which one was given.
    hikebox_asking nine = {7, 25, 9};
    stored = (hikebox_stored){7, 1, 5};
    leased_at(__LINE__, hikebox_lease_of_quota(2, 100, &nine, &stored, &range), &stored, &range, HIKEBOX_OK,
              (hikebox_stored){7, 5, 30}, (hikebox_range){1, 4});
    leased_at(__LINE__, hikebox_lease_of_quota(0, 0, &nine, &stored, &range), &stored, &range, HIKEBOX_OK,
              (hikebox_stored){7, 5, 55}, (hikebox_range){5, 0});
    nine.window = 8;
    leased_at(__LINE__, hikebox_lease_of_quota(2, 100, &nine, &stored, &range), &stored, &range, HIKEBOX_OK,
              (hikebox_stored){8, 4, 25}, (hikebox_range){0, 4});
    nine.window = 7;
    leased_at(__LINE__, hikebox_lease_of_quota(2, 100, &nine, &stored, &range), &stored, &range, HIKEBOX_BACKWARDS,
              (hikebox_stored){8, 4, 25}, (hikebox_range){0, 4});

    allows(2, 100, 9, 2);
    allows(2, 100, 10, 3);
    allows(0, 100, UINT64_MAX, 429496729);
    allows(0, HIKEBOX_MAX_SHARE, 4294967, 4294967000);
    allows(0, HIKEBOX_MAX_SHARE, 4294968, HIKEBOX_MAX_TICKETS);
    allows(UINT64_MAX, UINT64_MAX, UINT64_MAX, HIKEBOX_MAX_TICKETS);
    return wrong;
}

// What a thread has: a share of the policy, and a pass of the budget.
struct worker {
    hikebox_policy policy;
    hikebox_pass pass;
};

// A retry whose first two runs fail.
static void wins_at_the_third(hikebox_retry *machine) {
    hikebox_next next = HIKEBOX_NEXT;
    uint32_t report = HIKEBOX_NO_REPORT;
    do {
        wants(hikebox_retry_poll(machine, 0, no_words, report, 7, &next), HIKEBOX_OK);
        report = next.runs < 2 ? HIKEBOX_LOST : HIKEBOX_WON;
    } while (next.what == HIKEBOX_RUN);
    holds(next.what == HIKEBOX_OVER && next.how == HIKEBOX_ENDED_WON && next.runs == 3 && next.granted == 2);
}

// A hundred retries with two failures each, which then begin again and fail as often, and as many more shares of the
// policy; then its own share is freed.
static void *retry_by_share(void *given) {
    struct worker *worker = given;
    for (int times = 0; times < 100; times++) {
        hikebox_policy second = HIKEBOX_INIT;
        hikebox_retry machine = HIKEBOX_INIT;
        wants(hikebox_policy_share(&worker->policy, &second), HIKEBOX_OK);
        wants(hikebox_retry_new(&second, &worker->pass, HIKEBOX_NO_DEADLINE, &machine), HIKEBOX_OK);
        wants(hikebox_policy_free(&second), HIKEBOX_OK);
        wins_at_the_third(&machine);
        wants(hikebox_retry_again(&machine, HIKEBOX_NO_DEADLINE), HIKEBOX_OK);
        wins_at_the_third(&machine);
        wants(hikebox_retry_end(&machine, &worker->pass), HIKEBOX_OK);
    }
    wants(hikebox_policy_free(&worker->policy), HIKEBOX_OK);
    return NULL;
}

static void policy_shares(void) {
    enum {
        THREADS = 8
    };
    static struct worker workers[THREADS];
    pthread_t threads[THREADS];
    uint64_t tickets = 0;
    wants(read_policy("{\"recurs\":5}", &workers[0].policy), HIKEBOX_OK);
    wants(hikebox_budget_fixed(100000, &workers[0].pass), HIKEBOX_OK);
    for (int at = 1; at < THREADS; at++) {
        wants(hikebox_policy_share(&workers[0].policy, &workers[at].policy), HIKEBOX_OK);
        wants(hikebox_pass_split(&workers[0].pass, &workers[at].pass), HIKEBOX_OK);
    }
    for (int at = 0; at < THREADS; at++)
        pthread_create(&threads[at], NULL, retry_by_share, &workers[at]);
    for (int at = 0; at < THREADS; at++)
        pthread_join(threads[at], NULL);
    for (int at = 1; at < THREADS; at++)
        wants(hikebox_pass_join(&workers[0].pass, &workers[at].pass), HIKEBOX_OK);
    wants(hikebox_pass_close(&workers[0].pass, &tickets), HIKEBOX_OK);
    holds(tickets == 3200);
}

// What a thread draws of a quota by a clock of its own: a pass, the window that it begins in, and its tickets.
enum {
    APART = 8,
    TURNS = 300,
    RESERVE = 5
};
struct drawer {
    hikebox_pass pass;
    uint64_t from, count, tickets[(APART + TURNS) * RESERVE];
};

// Draws in each of its windows, of 100 ms, until it is refused.
static void *draw_by_windows(void *given) {
    struct drawer *drawer = given;
    uint64_t window = drawer->from, ticket;
    for (; window < drawer->from + TURNS; window++)
        while (hikebox_pass_draw(&drawer->pass, window * 100, &ticket) == HIKEBOX_OK)
            drawer->tickets[drawer->count++] = ticket;
    return NULL;
}

// Threads whose clocks are windows apart draw at once: each window gives its tickets once, from the first on, and no more;
// a thread never comes back to an earlier window, and the last window of all gives all that it has.
static void windows_at_once(void) {
    static struct drawer drawers[APART];
    static unsigned given[APART + TURNS];
    pthread_t threads[APART];
    uint64_t tickets, total = 0;
    wants(hikebox_quota_new(0, RESERVE, 0, 100, false, &drawers[0].pass), HIKEBOX_OK);
    for (int at = 1; at < APART; at++) {
        wants(hikebox_pass_split(&drawers[0].pass, &drawers[at].pass), HIKEBOX_OK);
        drawers[at].from = at;
    }
    for (int at = 0; at < APART; at++)
        pthread_create(&threads[at], NULL, draw_by_windows, &drawers[at]);
    for (int at = 0; at < APART; at++)
        pthread_join(threads[at], NULL);
    for (int at = 0; at < APART; at++) {
        struct drawer *drawer = &drawers[at];
        for (uint64_t place = 0; place < drawer->count; place++) {
            uint64_t window = drawer->tickets[place] >> 32, ticket = drawer->tickets[place] % first_of(1);
            holds(window < APART + TURNS - 1 && ticket < RESERVE && !(given[window] >> ticket & 1));
            holds(place == 0 || drawer->tickets[place - 1] < drawer->tickets[place]);
            given[window] |= 1u << ticket;
        }
        total += drawer->count;
        if (at > 0) wants(hikebox_pass_join(&drawers[0].pass, &drawer->pass), HIKEBOX_OK);
    }
    for (int window = 0; window < APART + TURNS; window++)
        holds((given[window] & (given[window] + 1)) == 0);
    holds(given[APART + TURNS - 2] == (1u << RESERVE) - 1);
    wants(hikebox_pass_close(&drawers[0].pass, &tickets), HIKEBOX_OK);
    holds(tickets == total);
}

static int shares(void) {
    policy_shares();
    windows_at_once();
    return wrong;
}

// ---- Storms

static hikebox_window windows_told[128];

// What a storm of this policy comes to.
static hikebox_totals plays_at(int line, const char *json, const hikebox_storm *storm, size_t wanted) {
    hikebox_policy policy = HIKEBOX_INIT;
    hikebox_totals totals = HIKEBOX_TOTALS;
    wants_at(__FILE__, line, read_policy(json, &policy), HIKEBOX_OK);
    wants_at(__FILE__, line, hikebox_storm_play(&policy, storm, windows_told, 128, &totals), HIKEBOX_OK);
    holds_at(__FILE__, line, totals.windows == wanted);
    wants_at(__FILE__, line, hikebox_policy_free(&policy), HIKEBOX_OK);
    return totals;
}
#define plays(json, storm, wanted) plays_at(__LINE__, json, storm, wanted)

// What a storm of two populations of these policies comes to: of all requests, or of those of one population. Its events
// are of one window.
static hikebox_totals plays_two_at(int line, const char *json, const char *beside, hikebox_storm storm, uint64_t of) {
    hikebox_policies policies = HIKEBOX_POLICIES;
    hikebox_totals totals = HIKEBOX_TOTALS;
    storm.of = of;
    wants_at(__FILE__, line, read_policy(json, &policies.first), HIKEBOX_OK);
    wants_at(__FILE__, line, read_policy(beside, &policies.second), HIKEBOX_OK);
    wants_at(__FILE__, line,
             hikebox_storm_play_populations(&policies, &storm, &storm.of, 0, windows_told, 128, &totals), HIKEBOX_OK);
    holds_at(__FILE__, line, totals.windows == 1);
    wants_at(__FILE__, line, hikebox_policy_free(&policies.first), HIKEBOX_OK);
    wants_at(__FILE__, line, hikebox_policy_free(&policies.second), HIKEBOX_OK);
    wants_at(__FILE__, line, hikebox_policy_free(&policies.third), HIKEBOX_EMPTY);
    return totals;
}
#define plays_two(json, beside, storm, of) plays_two_at(__LINE__, json, beside, storm, of)

// A storm with one parameter changed is refused, and nothing is written.
static void refuses_at(int line, hikebox_policy *policy, hikebox_storm storm) {
    hikebox_policies policies = {*policy, HIKEBOX_INIT, HIKEBOX_INIT, HIKEBOX_INIT};
    hikebox_totals totals;
    memset(&totals, 7, sizeof totals);
    totals.size = sizeof totals;
    hikebox_totals before = totals;
    wants_at(__FILE__, line, hikebox_storm_play(&policies.first, &storm, windows_told, 128, &totals),
             HIKEBOX_OUT_OF_RANGE);
    wants_at(__FILE__, line,
             hikebox_storm_play_populations(&policies, &storm, &storm.of, 0, windows_told, 128, &totals),
             HIKEBOX_OUT_OF_RANGE);
    holds_at(__FILE__, line, memcmp(&before, &totals, sizeof totals) == 0);
    *policy = policies.first;
}
// The same of `storm` with this field changed, by `policy`.
#define refuses(field, number)                                                                                         \
    do {                                                                                                               \
        hikebox_storm changed_ = storm;                                                                                \
        changed_.field = number;                                                                                       \
        refuses_at(__LINE__, policy, changed_);                                                                        \
    } while (0)

// Storms under limits that are played, each with one of its terms out of range.
static void limits_out_of_range(hikebox_policy *policy) {
    hikebox_storm storm = HIKEBOX_STORM;
    storm.draws_on = HIKEBOX_ON_BUCKET;
    storm.bucket_capacity = 10;
    refuses(bucket_capacity, (UINT64_C(1) << 40) + 1);
    refuses(bucket_floor, 11);
    refuses(bucket_debit, 11);
    refuses(bucket_credit, 11);
    refuses(bucket_refund, 2);
    refuses(cost, 11);
    refuses(late_cost, 11);
    storm.draws_on = HIKEBOX_ON_IN_FLIGHT;
    refuses(least, UINT64_C(1) << 32);
    refuses(most, UINT64_C(1) << 32);
    storm.draws_on = HIKEBOX_ON_ADAPTIVE;
    storm.least = 2;
    storm.first = 3;
    storm.most = 4;
    storm.backoff = 500;
    refuses(least, 0);
    refuses(least, 4);
    refuses(first, 1);
    refuses(first, 5);
    refuses(most, 2);
    refuses(most, 65536);
    refuses(backoff, 0);
    refuses(backoff, 1000);
    refuses(backoff, (UINT64_C(1) << 32) + 500);
    storm.draws_on = HIKEBOX_ON_BREAKER;
    storm.failures = storm.probes = storm.open_count = 1;
    refuses(failures, 0);
    refuses(results, 33);
    storm.failures = 3;
    refuses(results, 2);
    storm.failures = 1;
    refuses(probes, 0);
    refuses(probes, 16);
    refuses(open_count, 0);
    refuses(open_count, 65);
    storm.draws_on = HIKEBOX_ON_THROTTLE;
    storm.ratio = 2000;
    storm.period = 60000;
    refuses(ratio, 999);
    refuses(period, 0);
}

static void parameters_out_of_range(hikebox_policy *policy) {
    hikebox_storm storm = HIKEBOX_STORM;
    refuses(rate, 0);
    refuses(rate, 17477);
    refuses(together, 1000001);
    refuses(seconds, 0);
    refuses(capacity, 0);
    refuses(patience, 3600001);
    refuses(queue, 1048577);
    refuses(outage_from, 20001);
    refuses(outage_to, 3600001);
    refuses(slow_from, 1);
    refuses(slow_to, 1);
    refuses(slow_percent, 101);
    refuses(window, 0);
    refuses(window, 1);
    refuses(until, 7200001);
    refuses(calls, 0);
    refuses(calls, UINT64_C(4294967297));
    refuses(draws_on, 8);
    refuses(replicas, 0);
    refuses(replicas, 5);
    refuses(down, 2);
    storm.draws_on = HIKEBOX_ON_BUDGET;
    refuses(limit, HIKEBOX_MAX_TICKETS + 1);
    storm.draws_on = HIKEBOX_ON_QUOTA;
    refuses(period, 0);
    refuses(period, HIKEBOX_MAX_NUMBER + 1);
}

// Phases of the rate, each of whose numbers is out of range in turn. (The third phase is none: it ends at 0.)
static void phases_out_of_range(hikebox_policy *policy) {
    hikebox_storm storm = HIKEBOX_STORM;
    storm.phase_count = 2;
    storm.phases[0] = (hikebox_phase){1000, 5};
    storm.phases[1] = (hikebox_phase){2000, 0};
    refuses(phase_count, 3);
    refuses(phase_count, 17);
    refuses(phases[0].until, 0);
    refuses(phases[0].until, 2000);
    refuses(phases[0].rate, 1000001);
    refuses(phases[1].until, 3600001);
    refuses(rate, 18079); // 5 in the first second, none in the second, and 58 times as many as 1,048,582
}

// Four populations, each of whose numbers is out of range in turn.
static void populations_out_of_range(hikebox_policy *policy) {
    hikebox_storm storm = HIKEBOX_STORM;
    storm.second = (hikebox_population){40, 500, 0};
    storm.third = (hikebox_population){30, 1, 1};
    storm.fourth = (hikebox_population){29, 3600000, 1};
    refuses(second.share, 41);
    refuses(third.share, 31);
    refuses(fourth.share, 30);
    refuses(second.share, UINT64_MAX - 58); // the sum of the shares would be 0 as one of 64 bits
    refuses(second.patience, 0);
    refuses(third.patience, 3600001);
    refuses(second.limited, 2);
    refuses(third.limited, UINT64_MAX);
    refuses(fourth.limited, 256);
    refuses(of, 5);
    refuses(of, UINT64_MAX);
    storm.second.share = storm.third.share = storm.fourth.share = 0;
    refuses(second.patience, 3600001);
    refuses(of, 2);
    refuses(of, 3);
    refuses(of, 4);
}

static void storms_out_of_range(void) {
    hikebox_policy policy = HIKEBOX_INIT;
    wants(read_policy("{\"recurs\":1}", &policy), HIKEBOX_OK);
    parameters_out_of_range(&policy);
    limits_out_of_range(&policy);
    phases_out_of_range(&policy);
    populations_out_of_range(&policy);
    wants(hikebox_policy_free(&policy), HIKEBOX_OK);
}

// A handle that is empty or of another kind, and too little room.
static void storms_refused(void) {
    hikebox_policy policy = HIKEBOX_INIT;
    hikebox_pass pass = HIKEBOX_INIT;
    hikebox_storm storm = HIKEBOX_STORM;
    hikebox_totals totals = HIKEBOX_TOTALS;
    wants(hikebox_storm_play(&policy, &storm, windows_told, 120, &totals), HIKEBOX_NO_ROOM);
    holds(totals.windows == 121 && totals.size == sizeof totals && totals.requests == 0);
    wants(hikebox_storm_play(&policy, &storm, windows_told, 121, &totals), HIKEBOX_EMPTY);
    wants(hikebox_budget_fixed(1, &pass), HIKEBOX_OK);
    wants(hikebox_storm_play((hikebox_policy *)&pass, &storm, windows_told, 121, &totals), HIKEBOX_WRONG_KIND);
    wants(hikebox_pass_free(&pass), HIKEBOX_OK);
}

// Requests at moments of their own: by hand, as by rates where there are none, and moments that are refused.
static void requests_at_moments(void) {
    hikebox_policies policies = HIKEBOX_POLICIES;
    hikebox_storm storm = HIKEBOX_STORM;
    hikebox_totals totals = HIKEBOX_TOTALS, by_rates = HIKEBOX_TOTALS;
    uint64_t moments[] = {0, 0, 5, 5, 100};
    wants(read_policy("{\"recurs\":0}", &policies.first), HIKEBOX_OK);
#define plays_moments(moments, length)                                                                                 \
    hikebox_storm_play_populations(&policies, &storm, moments, length, windows_told, 128, &totals)
    // the peer does a call a millisecond: the second of two waits for the first, and those in the outage are lost
    storm.outage_from = 5;
    storm.outage_to = 100;
    wants(plays_moments(moments, 5), HIKEBOX_OK);
    holds(totals.windows == 1 && totals.requests == 5 && totals.won == 3 && totals.lost == 2 && totals.slowest == 2);
    storm.until = 99;
    wants(plays_moments(moments, 5), HIKEBOX_OK);
    holds(totals.requests == 4 && totals.won == 2);
    storm.until = 60000;
    wants(plays_moments(moments, 0), HIKEBOX_OK);
    wants(hikebox_storm_play(&policies.first, &storm, windows_told, 128, &by_rates), HIKEBOX_OK);
    holds(memcmp(&by_rates, &totals, sizeof totals) == 0 && totals.requests == 48000);
    moments[2] = 101;
    wants(plays_moments(moments, 5), HIKEBOX_OUT_OF_RANGE);
    wants(plays_moments(moments, 3), HIKEBOX_OK);
    moments[2] = 7200000;
    wants(plays_moments(moments, 3), HIKEBOX_OK);
    moments[2] = 7200001;
    wants(plays_moments(moments, 3), HIKEBOX_OUT_OF_RANGE);
    static uint64_t many[1048577];
    storm.capacity = storm.calls = 1;
    wants(plays_moments(many, 1048577), HIKEBOX_OUT_OF_RANGE);
    wants(plays_moments(many, 1048576), HIKEBOX_OK);
    holds(totals.cut && totals.calls == 1);
    wants(hikebox_policy_free(&policies.first), HIKEBOX_OK);
    wants(plays_moments(moments, 2), HIKEBOX_EMPTY);
#undef plays_moments
}

// The same of populations: each handle that is wrong in turn. All keep what they hold.
static void populations_refused(void) {
    hikebox_policies policies = HIKEBOX_POLICIES;
    hikebox_policy *const four[] = {&policies.first, &policies.second, &policies.third, &policies.fourth};
    hikebox_pass pass = HIKEBOX_INIT;
    hikebox_storm storm = HIKEBOX_STORM;
    hikebox_totals totals = HIKEBOX_TOTALS;
#define plays_four(room) hikebox_storm_play_populations(&policies, &storm, &storm.of, 0, windows_told, room, &totals)
    wants(plays_four(120), HIKEBOX_NO_ROOM);
    holds(totals.windows == 121);
    wants(plays_four(121), HIKEBOX_EMPTY);
    wants(read_policy("{\"recurs\":1}", four[1]), HIKEBOX_OK);
    wants(plays_four(121), HIKEBOX_EMPTY);
    wants(hikebox_policy_share(four[1], four[0]), HIKEBOX_OK);
    wants(hikebox_policy_free(four[1]), HIKEBOX_OK);
    wants(hikebox_budget_fixed(1, &pass), HIKEBOX_OK);
    for (int at = 0; at < 4; at++) {
        hikebox_policy kept = *four[at];
        *four[at] = *(hikebox_policy *)&pass;
        wants(plays_four(120), HIKEBOX_NO_ROOM);
        wants(plays_four(121), HIKEBOX_WRONG_KIND);
        holds(totals.windows == 121 && totals.requests == 0 && memcmp(four[at], &pass, sizeof pass) == 0);
        *four[at] = kept;
    }
    wants(plays_four(121), HIKEBOX_OK);
    holds(totals.requests == 48000);
    wants(hikebox_pass_free(&pass), HIKEBOX_OK);
    wants(hikebox_policy_free(four[0]), HIKEBOX_OK);
}

// A hundred requests at one moment, thirty of them of a second population.
static void populations(void) {
    hikebox_storm storm = HIKEBOX_STORM;
    storm.rate = storm.together = 100;
    storm.seconds = 1;
    storm.capacity = 1000000;
    storm.outage_from = 0;
    storm.outage_to = 2;
    storm.second = (hikebox_population){30, 500, 0};
    // Refused at 0; the first population calls again at 1 and at 2, the second never.
    hikebox_totals all = plays_two("{\"spaced\":1}", "{\"recurs\":0}", storm, 0);
    holds(all.requests == 100 && all.won == 70 && all.lost == 30 && all.calls == 240);
    hikebox_totals first = plays_two("{\"spaced\":1}", "{\"recurs\":0}", storm, 1);
    holds(first.requests == 70 && first.won == 70 && first.lost == 0 && first.calls == 210 && first.tickets == 0);
    hikebox_totals second = plays_two("{\"spaced\":1}", "{\"recurs\":0}", storm, 2);
    holds(second.requests == 30 && second.won == 0 && second.lost == 30 && second.calls == 30);
    holds(windows_told[0].requests == 30 && windows_told[0].refused == 30 && windows_told[0].retries == 0);
    all = plays("{\"spaced\":1}", &storm, 1);
    holds(all.won == 100 && all.calls == 300);
    // A budget of 100: the first population takes 70 tickets at 0 and 30 at 1, and the second needs none.
    storm.draws_on = HIKEBOX_ON_BUDGET;
    storm.limit = 100;
    all = plays_two("{\"spaced\":1}", "{\"spaced\":1}", storm, 0);
    holds(all.won == 60 && all.denied == 40 && all.tickets == 100);
    first = plays_two("{\"spaced\":1}", "{\"spaced\":1}", storm, 1);
    holds(first.won == 30 && first.denied == 40 && first.tickets == 100);
    second = plays_two("{\"spaced\":1}", "{\"spaced\":1}", storm, 2);
    holds(second.won == 30 && second.denied == 0 && second.tickets == 0);
    // If it is limited all tickets are gone at 0.
    storm.second.limited = 1;
    first = plays_two("{\"spaced\":1}", "{\"spaced\":1}", storm, 1);
    second = plays_two("{\"spaced\":1}", "{\"spaced\":1}", storm, 2);
    holds(first.denied == 70 && first.tickets == 70 && second.denied == 30 && second.tickets == 30);
    // One call of work a millisecond: of the second population only the requests 0, 2, 5 and 7 are done within 10 ms.
    storm.capacity = 1000;
    storm.outage_to = 0;
    storm.second.patience = 10;
    first = plays_two("{\"recurs\":0}", "{\"recurs\":0}", storm, 1);
    holds(first.won == 70 && first.slowest == 100);
    second = plays_two("{\"recurs\":0}", "{\"recurs\":0}", storm, 2);
    holds(second.won == 4 && second.lost == 26 && second.slowest == 8);
    holds(windows_told[0].late == 26 && windows_told[0].waiting == 0);
}

// Ten requests at one moment, of which so many are admitted as a limit has room for. The others are denied.
static void at_one_moment(void) {
    hikebox_storm storm = HIKEBOX_STORM;
    storm.rate = storm.together = 10;
    storm.seconds = 1;
    storm.capacity = 1000000;
    storm.outage_from = storm.outage_to = 0;
    storm.draws_on = HIKEBOX_ON_IN_FLIGHT;
    hikebox_totals totals = plays("{\"spaced\":1}", &storm, 1);
    holds(totals.won == 10 && totals.denied == 0);
    storm.most = 4;
    totals = plays("{\"spaced\":1}", &storm, 1);
    holds(totals.won == 4 && totals.denied == 6 && totals.calls == 4);
    storm.draws_on = HIKEBOX_ON_ADAPTIVE;
    storm.least = 1;
    storm.most = 10;
    storm.first = 3;
    storm.backoff = 900;
    totals = plays("{\"spaced\":1}", &storm, 1);
    holds(totals.won == 3 && totals.denied == 7 && totals.calls == 3);
}

// As deep as a text and a policy may be, and a storm, on a thread with the stack that the header asks for.
static void *goes_deep(void *given) {
    char text[1024] = "";
    size_t length = 0, written;
    hikebox_policy policy = HIKEBOX_INIT;
    hikebox_storm storm = HIKEBOX_STORM;
    hikebox_totals totals = HIKEBOX_TOTALS;
    hikebox_course course = HIKEBOX_COURSE;
    hikebox_event event = {0};
    char outputs[1024];
    (void)given;
    memset(text, '[', 1000);
    wants(read_policy(text, &policy), HIKEBOX_NOT_JSON);
    for (int depth = 1; depth < 32; depth++)
        length += (size_t)sprintf(text + length, "{\"cap\":[9,");
    length += (size_t)sprintf(text + length, "{\"recurs\":1}");
    for (int depth = 1; depth < 32; depth++)
        length += (size_t)sprintf(text + length, "]}");
    wants(read_policy(text, &policy), HIKEBOX_OK);
    wants(hikebox_policy_json(&policy, outputs, sizeof outputs, &written), HIKEBOX_OK);
    holds(written == length && !memcmp(text, outputs, length));
    wants(hikebox_policy_outputs(&policy, &course, &event, 1, outputs, sizeof outputs, &written), HIKEBOX_OK);
    wants(hikebox_storm_play(&policy, &storm, windows_told, 128, &totals), HIKEBOX_OK);
    wants(hikebox_policy_free(&policy), HIKEBOX_OK);
    return NULL;
}

static void small_stacks(void) {
    pthread_attr_t attributes;
    pthread_t thread;
    pthread_attr_init(&attributes);
    holds(pthread_attr_setstacksize(&attributes, 128 * 1024) == 0);
    holds(pthread_create(&thread, &attributes, goes_deep, NULL) == 0);
    pthread_join(thread, NULL);
    pthread_attr_destroy(&attributes);
}

static int storms(void) {
    static const char eight[] = "{\"meet\":[{\"recurs\":8},{\"cap\":[10000,{\"exponential\":[100,2]}]}]}";
    hikebox_storm one = HIKEBOX_STORM;
    one.rate = one.seconds = 1;
    one.outage_from = one.outage_to = 0;
    hikebox_totals totals = plays("{\"recurs\":3}", &one, 1);
    holds(totals.requests == 1 && totals.won == 1 && totals.calls == 1 && totals.hundredths == 100);
    holds(totals.p50 == 1 && totals.p99 == 1 && totals.slowest == 1 && totals.recovers && totals.recovered == 0 &&
          !totals.cut);
    holds(windows_told[0].requests == 1 && windows_told[0].succeeded == 1 && windows_told[0].waiting == 0);

    // Refused at 0, denied at 1: the budget has one ticket.
    hikebox_storm denied = one;
    denied.outage_to = 2;
    denied.draws_on = HIKEBOX_ON_BUDGET;
    denied.limit = 1;
    totals = plays("{\"spaced\":1}", &denied, 1);
    holds(totals.denied == 1 && totals.calls == 2 && totals.tickets == 1 && totals.p50 == 0 && !totals.recovers);

    // Ten thousand clients at one moment: waves that come at 0, 100, 300, 700 ms and so on find room for 3,700 calls.
    hikebox_storm herd = HIKEBOX_STORM;
    herd.rate = herd.together = 10000;
    herd.seconds = 1;
    herd.patience = 1000;
    herd.queue = 500;
    herd.outage_from = herd.outage_to = 0;
    herd.until = 61000;
    totals = plays(eight, &herd, 24);
    holds(totals.requests == 10000 && totals.won == 3700 && totals.lost == 6300);

    // Four requests at one moment, on two replicas of which the first is down: a retry at once comes to the other. All of
    // them are down if nothing is said.
    hikebox_storm half = one;
    half.rate = half.together = 4;
    half.replicas = 2;
    half.outage_to = 1000;
    half.down = 1;
    totals = plays("{\"recurs\":1}", &half, 1);
    holds(totals.won == 4 && totals.calls == 8 && totals.p50 == 2 && totals.slowest == 4);
    half.down = 0;
    totals = plays("{\"recurs\":1}", &half, 1);
    holds(totals.lost == 4 && totals.calls == 8 && windows_told[0].refused == 8);
    // Two a second until 1 s, ten until 1.5 s, none until 2 s, and then four: windows of 1, 1, 5, 0, 2 and 2 requests.
    hikebox_storm phased = one;
    phased.rate = 4;
    phased.seconds = 3;
    phased.window = 500;
    phased.until = 63000;
    phased.phase_count = 3;
    phased.phases[0] = (hikebox_phase){1000, 2};
    phased.phases[1] = (hikebox_phase){1500, 10};
    phased.phases[2] = (hikebox_phase){2000, 0};
    totals = plays("{\"recurs\":0}", &phased, 6);
    holds(totals.requests == 11 && totals.won == 11 && totals.most_calls == 5 && totals.most_from == 1000);
    holds(windows_told[3].requests == 0 && windows_told[4].requests == 2 && windows_told[5].requests == 2);

    hikebox_storm cut = one;
    cut.outage_to = 10;
    cut.calls = 5;
    totals = plays("\"forever\"", &cut, 1);
    holds(totals.cut && totals.calls == 5 && totals.open == 1);
    populations();
    at_one_moment();
    storms_out_of_range();
    storms_refused();
    requests_at_moments();
    populations_refused();
    small_stacks();
    return wrong;
}

static uint8_t *drawn;

static void *draw_all(void *handle) {
    uint64_t ticket;
    while (hikebox_pass_draw(handle, 0, &ticket) == HIKEBOX_OK)
        if (__atomic_fetch_or(&drawn[ticket / 8], 1 << ticket % 8, __ATOMIC_SEQ_CST) & 1 << ticket % 8) wrong = 1;
    return NULL;
}

static int draw(char **words) {
    enum {
        MAX_THREADS = 64
    };
    static hikebox_pass passes[MAX_THREADS];
    pthread_t threads[MAX_THREADS];
    int count = atoi(words[0]);
    uint64_t tickets = strtoull(words[1], 0, 10), closed = 0;
    drawn = calloc(tickets / 8 + 1, 1);
    wants(hikebox_budget_fixed(tickets, &passes[0]), HIKEBOX_OK);
    for (int at = 1; at < count; at++)
        wants(hikebox_pass_split(&passes[0], &passes[at]), HIKEBOX_OK);
    for (int at = 0; at < count; at++)
        pthread_create(&threads[at], NULL, draw_all, &passes[at]);
    for (int at = 0; at < count; at++)
        pthread_join(threads[at], NULL);
    for (int at = 1; at < count; at++)
        wants(hikebox_pass_join(&passes[0], &passes[at]), HIKEBOX_OK);
    for (uint64_t ticket = 0; ticket < tickets; ticket++)
        holds(drawn[ticket / 8] >> ticket % 8 & 1);
    wants(hikebox_pass_close(&passes[0], &closed), HIKEBOX_OK);
    holds(closed == tickets);
    free(drawn);
    return wrong;
}

// Makes the call, again where it is refused for want of memory, and says so.
#define again(call)                                                                                                    \
    do {                                                                                                               \
        hikebox_status status_ = call;                                                                                 \
        if (status_ == HIKEBOX_NO_MEMORY) printf("NoMemory: line %d\n", __LINE__), status_ = call;                     \
        wants(status_, HIKEBOX_OK);                                                                                    \
    } while (0)

// One retry to its end. It is over where there is no memory for a step.
static void run_once(hikebox_policy *policy, hikebox_pass *pass) {
    hikebox_retry machine = HIKEBOX_INIT;
    hikebox_next next = HIKEBOX_NEXT;
    uint64_t now = 0;
    uint32_t report = HIKEBOX_NO_REPORT;
    again(hikebox_retry_new(policy, pass, HIKEBOX_NO_DEADLINE, &machine));
    for (;;) {
        wants(hikebox_retry_poll(&machine, now, no_words, report, 7, &next), HIKEBOX_OK);
        report = next.what == HIKEBOX_RUN ? HIKEBOX_LOST : HIKEBOX_NO_REPORT;
        if (next.what == HIKEBOX_WAIT) now = next.until;
        if (next.what == HIKEBOX_OVER) break;
    }
    if (next.how == HIKEBOX_ENDED_NO_MEMORY)
        printf("NoMemory: a retry with %u runs\n", (unsigned)next.runs);
    else
        holds(next.how == HIKEBOX_ENDED_DONE && next.runs == 3 && next.granted == 2);
    wants(hikebox_retry_end(&machine, pass), HIKEBOX_OK);
}

// A leased pass from its beginning to its end.
static void lease_once(void) {
    hikebox_leased leased = HIKEBOX_INIT;
    const hikebox_grant grant = {1, 5, 2, 9};
    hikebox_ticket ticket = {0, 0};
    uint64_t number, at_hand, untold;
    again(hikebox_leased_new(0, &leased));
    again(hikebox_leased_deposit(&leased, 3, 4));
    again(hikebox_leased_granted(&leased, &grant));
    again(hikebox_leased_draw(&leased, 3, &ticket, &number));
    holds(ticket.window == 1 && ticket.number == 5);
    again(hikebox_leased_hand_back(&leased, &ticket));
    again(hikebox_leased_draw(&leased, 3, &ticket, &number));
    holds(ticket.window == 1 && ticket.number == 5);
    again(hikebox_leased_seen(&leased, &number, &at_hand, &untold));
    holds(number == 1 && at_hand == 1 && untold == 4);
    again(hikebox_leased_free(&leased));
}

// A pace from its beginning to its end. A split that is refused takes no part.
static void pace_once(void) {
    hikebox_pace pace = HIKEBOX_INIT, part = HIKEBOX_INIT;
    uint64_t at = 7;
    bool given = false;
    again(hikebox_pace_new(1000, 1, 5, &pace));
    again(hikebox_pace_take(&pace, 2, 1, &at));
    holds(at == 2);
    again(hikebox_pace_split(&pace, &part));
    again(hikebox_pace_take(&part, 2, 1, &at));
    holds(at == 3);
    again(hikebox_pace_give_back(&part, &given));
    again(hikebox_pace_seen(&pace, 2, &at));
    holds(given && at == 3);
    again(hikebox_pace_free(&part));
    again(hikebox_pace_free(&pace));
}

static int calls(void) {
    hikebox_policy policy = HIKEBOX_INIT, second = HIKEBOX_INIT, both = HIKEBOX_INIT, none = HIKEBOX_INIT;
    const hikebox_course course = {sizeof course, 4, 0, 0};
    const hikebox_event event = {7, {0, 0, 0, 0}};
    hikebox_line lines[3];
    hikebox_pass pass = HIKEBOX_INIT, part = HIKEBOX_INIT, sole = HIKEBOX_INIT;
    hikebox_pass quota = HIKEBOX_INIT, quota_part = HIKEBOX_INIT;
    hikebox_retry machine = HIKEBOX_INIT;
    hikebox_usage usage = HIKEBOX_USAGE;
    hikebox_next next = HIKEBOX_NEXT;
    hikebox_storm storm = HIKEBOX_STORM;
    hikebox_policies policies = HIKEBOX_POLICIES;
    hikebox_totals totals = HIKEBOX_TOTALS;
    uint64_t number = 5, other, most;
    char text[128];
    size_t length, count;
    static const char json[] = "{\"gather\":[\"list\",{\"meet\":[{\"recurs\":2},{\"spaced\":10}]}]}";
    static const uint64_t moments[] = {0, 500, 1000, 1500};
    again(say_fault("{\"first\":{\"recurs\":-1}}", text, sizeof text, &length));
    holds(length == 80 && memcmp(text, "first: expected {\"recurs\":N}, N from 0 to", 41) == 0);
    again(say_fault(json, text, sizeof text, &length));
    holds(length == 0);
    again(read_policy(json, &policy));
    again(hikebox_policy_share(&policy, &second));
    storm.rate = storm.seconds = 2;
    storm.outage_from = 0;
    storm.until = 100000;
    again(hikebox_storm_play(&policy, &storm, windows_told, 128, &totals));
    holds(totals.requests == 4 && totals.lost == 4 && totals.calls == 12);
    storm.second = (hikebox_population){50, 500, 0};
    policies.first = policy;
    policies.second = second;
    again(hikebox_storm_play_populations(&policies, &storm, moments, 0, windows_told, 128, &totals));
    holds(totals.requests == 4 && totals.lost == 4 && totals.calls == 12);
    again(hikebox_storm_play_populations(&policies, &storm, moments, 4, windows_told, 128, &totals));
    holds(totals.requests == 4 && totals.lost == 4 && totals.calls == 12);
    policy = policies.first;
    second = policies.second;
    again(make_node("cap", &number, 1, &policy, &none, &both));
    again(hikebox_policy_free(&both));
    again(make_node("follow", &number, 0, &policy, &second, &both));
    again(hikebox_policy_size(&both, &number, &other, &most));
    holds(number == 9 && other == 4 && most == 4);
    again(hikebox_policy_free(&both));
    again(hikebox_policy_json(&second, text, sizeof text, &length));
    holds(length == sizeof json - 1 && memcmp(text, json, length) == 0);
    again(hikebox_policy_course(&second, &course, &event, 1, lines, 3, &count));
    again(hikebox_policy_outputs(&second, &course, &event, 1, text, sizeof text, &length));
    holds(count == 3 && length == 26 && memcmp(text, "[][(0, 0)][(0, 0), (1, 1)]", 26) == 0);
    again(hikebox_budget_rising(3, &pass));
    again(hikebox_pass_split(&pass, &part));
    again(hikebox_pass_draw(&part, 0, &number));
    again(hikebox_pass_raise(&part, 9, &number));
    holds(number == 9);
    again(hikebox_pass_join(&pass, &part));
    run_once(&policy, &pass);
    run_once(&second, &pass);
    again(hikebox_retry_new(&policy, &pass, HIKEBOX_NO_DEADLINE, &machine));
    again(hikebox_retry_cancel(&machine));
    again(hikebox_retry_poll(&machine, 0, no_words, HIKEBOX_NO_REPORT, 0, &next));
    holds(next.what == HIKEBOX_OVER && next.how == HIKEBOX_ENDED_CANCELLED);
    again(hikebox_retry_end(&machine, &pass));
    again(hikebox_pass_count(&pass, &number));
    again(hikebox_pass_close(&pass, &other));
    holds(number == other);
    again(hikebox_quota_new(0, 1, 1000, 100, false, &quota));
    again(hikebox_pass_split(&quota, &quota_part));
    again(hikebox_pass_deposit(&quota_part, 0, 1));
    again(hikebox_pass_draw(&quota_part, 0, &number));
    again(hikebox_pass_seen(&quota_part, 0, &usage));
    holds(number == 0 && usage.asked == 1 && usage.given == 1 && usage.left == 1);
    again(hikebox_retry_new(&policy, &quota, HIKEBOX_NO_DEADLINE, &machine));
    again(hikebox_retry_again(&machine, HIKEBOX_NO_DEADLINE));
    again(hikebox_retry_end(&machine, &quota));
    again(hikebox_pass_join(&quota, &quota_part));
    again(hikebox_pass_count(&quota, &number));
    again(hikebox_pass_close(&quota, &other));
    holds(number == 1 && other == 1);
    lease_once();
    pace_once();
    again(hikebox_quota_new(0, 1, 0, 100, false, &quota));
    again(hikebox_retry_new(&policy, &quota, HIKEBOX_NO_DEADLINE, &machine));
    again(hikebox_retry_free(&machine));
    wants(hikebox_pass_close(&quota, &number), HIKEBOX_PASSES_OUT);
    again(hikebox_pass_free(&quota));
    again(retry_on_nothing(&policy, HIKEBOX_NO_DEADLINE, &machine));
    again(hikebox_retry_free(&machine));
    again(hikebox_budget_fixed(1, &sole));
    again(hikebox_retry_new(&policy, &sole, HIKEBOX_NO_DEADLINE, &machine));
    again(hikebox_retry_free(&machine));
    // A close takes no memory, and leaves the pass where it is refused.
    wants(hikebox_pass_close(&sole, &number), HIKEBOX_PASSES_OUT);
    again(hikebox_pass_free(&sole));
    again(hikebox_policy_free(&second));
    again(hikebox_policy_free(&policy));
    printf("done\n");
    return wrong;
}

// The version of the header as numbers and as a text, and that of the library.
static int version(void) {
    char text[32];
    snprintf(text, sizeof text, "%d.%d.%d", HIKEBOX_VERSION_MAJOR, HIKEBOX_VERSION_MINOR, HIKEBOX_VERSION_PATCH);
    holds(!strcmp(text, HIKEBOX_VERSION) && !strcmp(text, hikebox_version()));
    holds(strstr(hikebox_build(), " proved") || strstr(hikebox_build(), " of "));
    holds(HIKEBOX_VERSION_NUMBER / 1000000 == HIKEBOX_VERSION_MAJOR && HIKEBOX_VERSION_NUMBER >= 1000000);
#if HIKEBOX_VERSION_NUMBER < 1000000
#error "the number of the version is no number for the preprocessor"
#endif
    return wrong;
}

// The groups of tests that take no more words.
static const struct {
    const char *name;
    int (*run)(void);
} groups[] = {
    {"version", version}, {"handles", handles}, {"budgets", budgets}, {"deadlines", deadlines}, {"quotas", quotas},
    {"leases", leases},   {"leased", leased},   {"faults", faults},   {"nodes", nodes},         {"policies", policies},
    {"courses", courses}, {"storms", storms},   {"lasting", lasting}, {"shares", shares},       {"sizes", sizes},
    {"reads", reads},     {"runs", runs},       {"limits", limits},   {"paces", paces},
};

int main(int count, char **words) {
    const char *what = count > 1 ? words[1] : "";
    if (!strcmp(what, "plan") && count == 7) return read_input(), plan(words + 2);
    if (!strcmp(what, "plans")) return plans();
    if (!strcmp(what, "retry") && count > 3) return retry(words + 2, count - 2);
    if (!strcmp(what, "draw") && count == 4) return draw(words + 2);
    if (!strcmp(what, "fault")) return fault();
    if (!strcmp(what, "calls")) return calls();
    for (size_t at = 0; at < sizeof groups / sizeof *groups; at++) {
        if (!strcmp(what, "groups")) puts(groups[at].name);
        if (!strcmp(what, groups[at].name)) return groups[at].run();
    }
    return strcmp(what, "groups") ? 100 : 0;
}
