// Policies, as a C program has them: their courses, their nodes, and what is written and told of them.
#include "checks.h"

hikebox_status make_node(const char *name, const uint64_t *numbers, size_t count, hikebox_policy *first,
                         hikebox_policy *second, hikebox_policy *made) {
    return hikebox_policy_node(name, strlen(name), numbers, count, first, second, made);
}

static uint32_t turned(uint32_t word, int by) {
    return word << by | word >> (32 - by);
}

static uint64_t mixed(uint64_t *state) {
    uint64_t mix = *state += UINT64_C(0x9e3779b97f4a7c15);
    mix = (mix ^ mix >> 30) * UINT64_C(0xbf58476d1ce4e5b9);
    mix = (mix ^ mix >> 27) * UINT64_C(0x94d049bb133111eb);
    return mix ^ mix >> 31;
}

// The next word of xoshiro128++.
static uint32_t next_word(uint32_t state[4]) {
    uint32_t word = turned(state[0] + state[3], 7) + state[0], shifted = state[1] << 9;
    state[2] ^= state[0];
    state[3] ^= state[1];
    state[1] ^= state[2];
    state[0] ^= state[3];
    state[2] ^= shifted;
    state[3] = turned(state[3], 11);
    return word;
}

// Gives each event the words that `zsched plan --words SEED` gives it.
static void seed_words(uint64_t seed, hikebox_event *events, size_t count) {
    uint64_t low = mixed(&seed), high = mixed(&seed);
    uint32_t state[4] = {(uint32_t)low, (uint32_t)(low >> 32), (uint32_t)high, (uint32_t)(high >> 32)};
    for (size_t at = 0; at < count; at++)
        for (int lane = 0; lane < 4; lane++)
            events[at].words[lane] = next_word(state);
}

// The policy once more, as it is written.
static void read_again(hikebox_policy *policy) {
    static char text[1 << 20];
    size_t length, needed;
    wants(hikebox_policy_json(policy, text, 0, &needed), HIKEBOX_NO_ROOM);
    wants(hikebox_policy_json(policy, text, needed, &length), HIKEBOX_OK);
    holds(length == needed);
    text[length] = 0;
    wants(hikebox_policy_free(policy), HIKEBOX_OK);
    wants(read_policy(text, policy), HIKEBOX_OK);
}

// Of the policy in `input`. The words are STEPS FROM TOOK INPUTS WORD, as zsched's options of these names have them, or
// seed:N for WORD.
int plan(char **words) {
    static hikebox_event events[HIKEBOX_MAX_STEPS];
    static hikebox_line lines[HIKEBOX_MAX_STEPS];
    static char text[1 << 22];
    hikebox_course course = {sizeof course, strtoull(words[0], 0, 10), strtoull(words[1], 0, 10),
                             strtoull(words[2], 0, 10)};
    hikebox_policy policy = HIKEBOX_INIT;
    size_t given = 0, count, length, needed, bytes;
    for (char *next = words[3]; *next; next += *next == ',')
        events[given++].input = strtoull(next, &next, 10);
    for (size_t at = 0; at < given; at++)
        for (int lane = 0; lane < 4; lane++)
            events[at].words[lane] = (uint32_t)strtoull(words[4], 0, 10);
    if (!strncmp(words[4], "seed:", 5)) {
        for (; given < course.steps; given++)
            events[given].input = events[given - 1].input;
        seed_words(strtoull(words[4] + 5, 0, 10), events, given);
    }
    hikebox_status status = read_policy(input, &policy);
    if (status != HIKEBOX_OK) return (int)status;
    read_again(&policy);
    hikebox_status short_of = course.steps ? HIKEBOX_NO_ROOM : HIKEBOX_OK;
    wants(hikebox_policy_course(&policy, &course, events, given, lines, 0, &needed), short_of);
    wants(hikebox_policy_course(&policy, &course, events, given, lines, needed, &count), HIKEBOX_OK);
    wants(hikebox_policy_outputs(&policy, &course, events, given, text, 0, &bytes), short_of);
    wants(hikebox_policy_outputs(&policy, &course, events, given, text, bytes, &length), HIKEBOX_OK);
    holds(count == needed && length == bytes && length == (count ? lines[count - 1].text_to : 0));
    for (size_t at = 0, from = 0; at < count; from = lines[at++].text_to) {
        printf("%llu: %.*s", (unsigned long long)lines[at].moment, (int)(lines[at].text_to - from), text + from);
        if (lines[at].goes_on)
            printf(" next %llu\n", (unsigned long long)lines[at].start);
        else
            printf(" done\n");
    }
    wants(hikebox_policy_free(&policy), HIKEBOX_OK);
    return wrong;
}

// The node over the policy, which it stands for then.
static void put_over(const char *name, hikebox_policy *policy, hikebox_policy *second) {
    hikebox_policy made = HIKEBOX_INIT;
    uint64_t number = 0;
    wants(make_node(name, &number, 0, policy, second, &made), HIKEBOX_OK);
    wants(hikebox_policy_free(policy), HIKEBOX_OK);
    *policy = made;
}

// Policies that are as deep, and as large, as a policy may be.
static void largest_nodes(hikebox_policy *leaf) {
    hikebox_policy deep = HIKEBOX_INIT, large = HIKEBOX_INIT, half = HIKEBOX_INIT, none = HIKEBOX_INIT,
                   spare = HIKEBOX_INIT;
    uint64_t number = 0, has, depth, most;
    wants(hikebox_policy_share(leaf, &deep), HIKEBOX_OK);
    for (int level = 1; level < 32; level++)
        put_over("nothing", &deep, &none);
    wants(make_node("nothing", &number, 0, &deep, &none, &spare), HIKEBOX_TOO_DEEP);
    wants(hikebox_policy_size(&deep, &has, &depth, &most), HIKEBOX_OK);
    holds(has == 32 && depth == 32);
    // 128 leaves, and 127 nodes over them
    wants(hikebox_policy_share(leaf, &large), HIKEBOX_OK);
    for (int level = 0; level < 7; level++) {
        wants(hikebox_policy_share(&large, &half), HIKEBOX_OK);
        put_over("meet", &large, &half);
        wants(hikebox_policy_free(&half), HIKEBOX_OK);
    }
    wants(make_node("meet", &number, 0, &large, leaf, &spare), HIKEBOX_TOO_MANY);
    put_over("first", &large, &none);
    wants(make_node("first", &number, 0, &large, &none, &spare), HIKEBOX_TOO_MANY);
    wants(hikebox_policy_size(&large, &has, &depth, &most), HIKEBOX_OK);
    holds(has == 256 && depth == 9 && most == 3);
    holds(spare.held == NULL && none.held == NULL);
    wants(hikebox_policy_free(&deep), HIKEBOX_OK);
    wants(hikebox_policy_free(&large), HIKEBOX_OK);
}

// Nodes by their names and numbers: each refusal leaves all handles as they were.
int nodes(void) {
    static const uint64_t numbers[5] = {3, 100, 2000, 5000, 7}, far[1] = {HIKEBOX_MAX_NUMBER + 1};
    static const char wanted[] = "{\"follow\":[{\"cap\":[3,{\"decorrelated\":[3,100,2000,5000]}]},\"forever\"]}";
    hikebox_policy none = HIKEBOX_INIT, nothing = HIKEBOX_INIT, leaf = HIKEBOX_INIT, capped = HIKEBOX_INIT;
    hikebox_policy forever = HIKEBOX_INIT, both = HIKEBOX_INIT, spare = HIKEBOX_INIT;
    hikebox_pass pass = HIKEBOX_INIT;
    char text[128] = "";
    size_t length;
    wants(make_node("decorrelated", numbers, 4, &none, &nothing, &leaf), HIKEBOX_OK);
    wants(make_node("cap", numbers, 1, &leaf, &nothing, &capped), HIKEBOX_OK);
    wants(make_node("forever", numbers, 0, &none, &nothing, &forever), HIKEBOX_OK);
    wants(make_node("follow", numbers, 0, &capped, &forever, &both), HIKEBOX_OK);
    wants(hikebox_policy_json(&both, text, sizeof text, &length), HIKEBOX_OK);
    holds(length == sizeof wanted - 1 && !memcmp(text, wanted, length));
    wants(make_node("cap", numbers, 1, &leaf, &nothing, &capped), HIKEBOX_FULL);
    wants(make_node("recurs", numbers, 0, &none, &nothing, &spare), HIKEBOX_NOT_A_POLICY);
    wants(make_node("recurs", numbers, 2, &none, &nothing, &spare), HIKEBOX_NOT_A_POLICY);
    wants(make_node("decorrelated", numbers, 5, &none, &nothing, &spare), HIKEBOX_NOT_A_POLICY);
    wants(make_node("recur", numbers, 1, &none, &nothing, &spare), HIKEBOX_NOT_A_POLICY);
    wants(make_node("", numbers, 0, &none, &nothing, &spare), HIKEBOX_NOT_A_POLICY);
    wants(make_node("\xff", numbers, 1, &none, &nothing, &spare), HIKEBOX_NOT_A_POLICY);
    wants(make_node("recurs", numbers, 1, &leaf, &nothing, &spare), HIKEBOX_NOT_A_POLICY);
    wants(make_node("meet", numbers, 0, &leaf, &nothing, &spare), HIKEBOX_NOT_A_POLICY);
    wants(make_node("first", numbers, 0, &nothing, &leaf, &spare), HIKEBOX_NOT_A_POLICY);
    wants(make_node("cap", numbers, 1, &leaf, &forever, &spare), HIKEBOX_NOT_A_POLICY);
    wants(make_node("gather", numbers, 1, &leaf, &nothing, &spare), HIKEBOX_NOT_A_POLICY);
    wants(make_node("recurs", far, 1, &none, &nothing, &spare), HIKEBOX_OUT_OF_RANGE);
    wants(make_node("cap", far, 1, &leaf, &nothing, &spare), HIKEBOX_OUT_OF_RANGE);
    wants(hikebox_budget_fixed(1, &pass), HIKEBOX_OK);
    wants(make_node("cap", numbers, 1, (hikebox_policy *)&pass, &nothing, &spare), HIKEBOX_WRONG_KIND);
    wants(make_node("meet", numbers, 0, &leaf, (hikebox_policy *)&pass, &spare), HIKEBOX_WRONG_KIND);
    wants(make_node("nonsense", far, 1, &leaf, (hikebox_policy *)&pass, &spare), HIKEBOX_WRONG_KIND);
    wants(hikebox_pass_free(&pass), HIKEBOX_OK);
    holds(spare.held == NULL && none.held == NULL && nothing.held == NULL);
    wants(hikebox_policy_free(&leaf), HIKEBOX_OK);
    wants(make_node("recurs", numbers, 1, &none, &nothing, &leaf), HIKEBOX_OK);
    largest_nodes(&leaf);
    wants(hikebox_policy_free(&both), HIKEBOX_OK);
    wants(hikebox_policy_free(&forever), HIKEBOX_OK);
    wants(hikebox_policy_free(&capped), HIKEBOX_OK);
    wants(hikebox_policy_free(&leaf), HIKEBOX_OK);
    return wrong;
}

// What is written of a policy, and its bound.
int policies(void) {
    static const struct {
        const char *read, *written;
        uint64_t most;
    } table[] = {
        {" \"forever\"\n", "\"forever\"", HIKEBOX_NO_BOUND},
        {"{ \"recurs\" : 5 }", "{\"recurs\":5}", 5},
        {"{\"lone\":4611686018427387903}", "{\"lone\":4611686018427387903}", 1},
        {"{\"\\u0073paced\":0}", "{\"spaced\":0}", HIKEBOX_NO_BOUND},
        {"{\"unfold\":[1,\n2,\n3]}", "{\"unfold\":[1,2,3]}", HIKEBOX_NO_BOUND},
        {"{\"meet\":[{\"recurs\":5},{\"recurs\":3}]}", "{\"meet\":[{\"recurs\":5},{\"recurs\":3}]}", 3},
        {"{\"join\":[{\"recurs\":5},{\"lone\":9}]}", "{\"join\":[{\"recurs\":5},{\"lone\":9}]}", 5},
        {"{\"join\":[{\"recurs\":5},\"elapsed\"]}", "{\"join\":[{\"recurs\":5},\"elapsed\"]}", HIKEBOX_NO_BOUND},
        {"{\"follow\":[{\"recurs\":5},{\"recurs\":4611686018427387903}]}",
         "{\"follow\":[{\"recurs\":5},{\"recurs\":4611686018427387903}]}", HIKEBOX_MAX_NUMBER},
        {"{\"renew\":[9, {\"recurs\":5}]}", "{\"renew\":[9,{\"recurs\":5}]}", HIKEBOX_NO_BOUND},
        {"{\"gate\":[\"output\", false, \"at_least\", 7, {\"gather\":[\"max\", \"identity\"]}]}",
         "{\"gate\":[\"output\",false,\"at_least\",7,{\"gather\":[\"max\",\"identity\"]}]}", HIKEBOX_NO_BOUND},
    };
    for (size_t at = 0; at < sizeof table / sizeof *table; at++) {
        hikebox_policy policy = HIKEBOX_INIT;
        char text[128] = "";
        size_t length = 0, wanted = strlen(table[at].written);
        uint64_t has, depth, most = 7;
        wants(read_policy(table[at].read, &policy), HIKEBOX_OK);
        wants(hikebox_policy_json(&policy, text, wanted - 1, &length), HIKEBOX_NO_ROOM);
        holds(length == wanted && text[0] == 0);
        wants(hikebox_policy_json(&policy, text, wanted, &length), HIKEBOX_OK);
        holds(length == wanted && !strcmp(text, table[at].written));
        wants(hikebox_policy_size(&policy, &has, &depth, &most), HIKEBOX_OK);
        holds(most == table[at].most);
        wants(hikebox_policy_free(&policy), HIKEBOX_OK);
    }
    return wrong;
}

// A course that is refused writes nothing, save where there is no room.
static void refuses(hikebox_policy *policy, hikebox_course course, const hikebox_event *events, size_t given,
                    hikebox_status wanted) {
    hikebox_line line = {1, 2, 3, true};
    size_t count = 77, length = 78;
    char text = '#';
    wants(hikebox_policy_course(policy, &course, events, given, &line, 1, &count), wanted);
    wants(hikebox_policy_outputs(policy, &course, events, given, &text, 1, &length), wanted);
    holds(line.moment == 1 && line.start == 2 && line.text_to == 3 && line.goes_on && text == '#');
    if (wanted != HIKEBOX_NO_ROOM) holds(count == 77 && length == 78);
}

// A course worked out by hand, and each refusal in the order of the header.
int courses(void) {
    static const hikebox_event events[3] = {
        {7, {0, 0, 0, 0}}, {9, {0, 0, 0, UINT32_MAX}}, {HIKEBOX_MAX_NUMBER + 1, {0, 0, 0, 0}}};
    static const char json[] =
        "{\"meet\":[{\"recurs\":2},{\"jitter\":[3,1000,1500,{\"meet\":[\"identity\",{\"spaced\":100}]}]}]}";
    static const char wanted[] = "(0, (7, 0))(1, (9, 1))(2, (9, 2))";
    const hikebox_course course = {sizeof course, 4096, 5, 20};
    hikebox_policy policy = HIKEBOX_INIT, empty = HIKEBOX_INIT;
    hikebox_pass pass = HIKEBOX_INIT;
    hikebox_line lines[4] = {{0, 0, 0, false}, {0, 0, 0, false}, {0, 0, 0, true}, {8, 8, 8, true}};
    size_t count, length;
    char text[40];
    memset(text, '#', sizeof text);
    wants(read_policy(json, &policy), HIKEBOX_OK);
    wants(hikebox_policy_course(&policy, &course, events, 2, lines, 4, &count), HIKEBOX_OK);
    wants(hikebox_policy_outputs(&policy, &course, events, 2, text, sizeof text, &length), HIKEBOX_OK);
    holds(count == 3 && length == sizeof wanted - 1 && !memcmp(text, wanted, length) && text[length] == '#');
    // the word of lane 3 makes the second delay 149, and the third event has the last words
    holds(lines[0].moment == 5 && lines[0].start == 105 && lines[0].text_to == 11 && lines[0].goes_on);
    holds(lines[1].moment == 125 && lines[1].start == 274 && lines[1].text_to == 22 && lines[1].goes_on);
    holds(lines[2].moment == 294 && lines[2].start == 0 && lines[2].text_to == 33 && !lines[2].goes_on);
    holds(lines[3].moment == 8 && lines[3].start == 8 && lines[3].text_to == 8 && lines[3].goes_on);
    wants(hikebox_policy_course(&policy, &course, events, 2, lines, 2, &count), HIKEBOX_NO_ROOM);
    wants(hikebox_policy_outputs(&policy, &course, events, 2, text, 32, &length), HIKEBOX_NO_ROOM);
    holds(count == 3 && length == 33 && !memcmp(text, wanted, length));
    wants(hikebox_policy_course(&policy, &course, events, 2, lines, 3, &count), HIKEBOX_OK);
    wants(hikebox_policy_outputs(&policy, &course, events, 2, text, 33, &length), HIKEBOX_OK);
    // no event is stepped, and none has to be there for that but the one that gives the input
    const hikebox_course none = {sizeof none, 0, 0, 0};
    wants(hikebox_policy_course(&policy, &none, events, 1, lines, 0, &count), HIKEBOX_OK);
    wants(hikebox_policy_outputs(&policy, &none, events, 1, text, 0, &length), HIKEBOX_OK);
    holds(count == 0 && length == 0);
    wants(hikebox_budget_fixed(1, &pass), HIKEBOX_OK);
    refuses(&empty, (hikebox_course){sizeof(hikebox_course), 4097, 0, 0}, events, 1, HIKEBOX_OUT_OF_RANGE);
    refuses(&empty, (hikebox_course){sizeof(hikebox_course), 1, HIKEBOX_MAX_NUMBER + 1, 0}, events, 1,
            HIKEBOX_OUT_OF_RANGE);
    refuses(&empty, (hikebox_course){sizeof(hikebox_course), 1, 0, HIKEBOX_MAX_NUMBER + 1}, events, 1,
            HIKEBOX_OUT_OF_RANGE);
    refuses(&empty, (hikebox_course){sizeof(hikebox_course), 1, 0, 0}, events, 0, HIKEBOX_OUT_OF_RANGE);
    refuses(&empty, (hikebox_course){sizeof(hikebox_course), 1, 0, 0}, events, 3, HIKEBOX_OUT_OF_RANGE);
    refuses(&empty, (hikebox_course){sizeof(hikebox_course), 1, HIKEBOX_MAX_NUMBER, HIKEBOX_MAX_NUMBER}, events, 2,
            HIKEBOX_EMPTY);
    refuses((hikebox_policy *)&pass, (hikebox_course){sizeof(hikebox_course), 1, 0, 0}, events, 2, HIKEBOX_WRONG_KIND);
    refuses(&policy, (hikebox_course){sizeof(hikebox_course), 4, 0, 0}, events, 2, HIKEBOX_NO_ROOM);
    wants(hikebox_pass_free(&pass), HIKEBOX_OK);
    wants(hikebox_policy_free(&policy), HIKEBOX_OK);
    return wrong;
}
