// Leased passes, as a C program uses them. Each test is a word of library.c's.
#include "checks.h"
#include <pthread.h>

#define THREADS 8
#define LIMIT 200003

// Asserts what a draw comes to: its status, and the ticket or the moment that is written.
static void draws_at(int line, hikebox_leased *leased, uint64_t now, hikebox_status wanted, uint64_t first,
                     uint64_t second) {
    hikebox_ticket ticket = {77, 78};
    uint64_t again = 79;
    wants_at(__FILE__, line, hikebox_leased_draw(leased, now, &ticket, &again), wanted);
    bool drew = wanted == HIKEBOX_OK, waits = wanted == HIKEBOX_NO_TICKET;
    holds_at(__FILE__, line, ticket.window == (drew ? first : 77) && ticket.number == (drew ? second : 78));
    holds_at(__FILE__, line, again == (waits ? first : 79));
}
#define draws(...) draws_at(__LINE__, __VA_ARGS__)

static void takes_at(int line, hikebox_leased *leased, hikebox_grant grant, hikebox_status wanted) {
    wants_at(__FILE__, line, hikebox_leased_granted(leased, &grant), wanted);
}
#define takes(leased, wanted, ...) takes_at(__LINE__, leased, (hikebox_grant){__VA_ARGS__}, wanted)

static void comes_back_at(int line, hikebox_leased *leased, hikebox_ticket ticket, hikebox_status wanted) {
    wants_at(__FILE__, line, hikebox_leased_hand_back(leased, &ticket), wanted);
}
#define comes_back(leased, wanted, ...) comes_back_at(__LINE__, leased, (hikebox_ticket){__VA_ARGS__}, wanted)

static void has_at(int line, hikebox_leased *leased, uint64_t drawn, uint64_t at_hand, uint64_t untold) {
    uint64_t was[3] = {77, 77, 77};
    wants_at(__FILE__, line, hikebox_leased_seen(leased, &was[0], &was[1], &was[2]), HIKEBOX_OK);
    holds_at(__FILE__, line, was[0] == drawn && was[1] == at_hand && was[2] == untold);
}
#define has(...) has_at(__LINE__, __VA_ARGS__)

// Two windows of a second, by hand.
static void by_hand(void) {
    hikebox_leased one = HIKEBOX_INIT, other = HIKEBOX_INIT;
    hikebox_grant lent = {0, 0, 0, 0};
    uint64_t told = 77;
    wants(hikebox_leased_new(1000, &one), HIKEBOX_OK);
    wants(hikebox_leased_new(1000, &other), HIKEBOX_OK);
    draws(&one, 0, HIKEBOX_LEASE_WANTED, 0, 0);
    takes(&one, HIKEBOX_OK, 3, 10, 4, 1000);
    takes(&one, HIKEBOX_HELD_ALREADY, 3, 10, 4, 1000);
    draws(&one, 0, HIKEBOX_OK, 3, 10);
    draws(&one, 999, HIKEBOX_OK, 3, 11);
    comes_back(&one, HIKEBOX_OK, 3, 10);
    comes_back(&one, HIKEBOX_NOT_OUT, 3, 10);
    comes_back(&one, HIKEBOX_NOT_OUT, 3, 12);
    comes_back(&one, HIKEBOX_NOT_OUT, 2, 11);
    comes_back(&other, HIKEBOX_NOT_OUT, 3, 11);
    draws(&one, 0, HIKEBOX_OK, 3, 10);
    wants(hikebox_leased_lend(&one, 1, &lent), HIKEBOX_OK);
    holds(lent.window == 3 && lent.first == 12 && lent.tickets == 1 && lent.until == 1000);
    wants(hikebox_leased_granted(&other, &lent), HIKEBOX_OK);
    draws(&other, 0, HIKEBOX_OK, 3, 12);
    draws(&one, 0, HIKEBOX_OK, 3, 13);
    wants(hikebox_leased_lend(&one, 1, &lent), HIKEBOX_NO_TICKET);
    has(&one, 3, 0, 0);

    // Requests are told once, and those of the window alone.
    wants(hikebox_leased_deposit(&one, 900, 5), HIKEBOX_OK);
    wants(hikebox_leased_deposit(&one, 1000, 7), HIKEBOX_OK);
    has(&one, 3, 0, 12);
    wants(hikebox_leased_tell(&one, 1000, &told), HIKEBOX_OK);
    holds(told == 7);
    wants(hikebox_leased_tell(&one, 0, &told), HIKEBOX_OK);
    holds(told == 0);

    // A store that has none, and one that is left alone.
    takes(&one, HIKEBOX_OK, 4, 9, 0, 2000);
    draws(&one, 1999, HIKEBOX_NO_TICKET, 2000, 0);
    draws(&one, 2000, HIKEBOX_LEASE_WANTED, 0, 0);
    wants(hikebox_leased_leave_alone(&one, 1500), HIKEBOX_OK);
    draws(&one, 1499, HIKEBOX_NO_TICKET, 1500, 0);
    draws(&one, 1500, HIKEBOX_LEASE_WANTED, 0, 0);
    comes_back(&one, HIKEBOX_NOT_OUT, 3, 13);
    takes(&one, HIKEBOX_BACKWARDS, 3, 50, 1, 1000);
    has(&one, 3, 0, 0);
    wants(hikebox_leased_free(&one), HIKEBOX_OK);
    wants(hikebox_leased_free(&other), HIKEBOX_OK);
}

// Numbers out of range, empty handles, full ones and those of another kind.
static void refused(void) {
    hikebox_leased leased = HIKEBOX_INIT;
    hikebox_pass pass = HIKEBOX_INIT;
    hikebox_policy policy = HIKEBOX_INIT;
    hikebox_retry machine = HIKEBOX_INIT;
    hikebox_grant lent = {1, 2, 3, 4};
    uint64_t told = 77, far = HIKEBOX_MAX_NUMBER + 1;
    wants(hikebox_leased_new(far, &leased), HIKEBOX_TOO_LARGE);
    draws(&leased, 0, HIKEBOX_EMPTY, 0, 0);
    draws(&leased, far, HIKEBOX_TOO_LARGE, 0, 0);
    takes(&leased, HIKEBOX_EMPTY, 0, 0, 1, 0);
    comes_back(&leased, HIKEBOX_EMPTY, 0, 0);
    wants(hikebox_leased_leave_alone(&leased, 0), HIKEBOX_EMPTY);
    wants(hikebox_leased_deposit(&leased, 0, 1), HIKEBOX_EMPTY);
    wants(hikebox_leased_tell(&leased, 0, &told), HIKEBOX_EMPTY);
    wants(hikebox_leased_seen(&leased, &told, &lent.first, &lent.tickets), HIKEBOX_EMPTY);
    wants(hikebox_leased_lend(&leased, 1, &lent), HIKEBOX_EMPTY);
    wants(hikebox_leased_free(&leased), HIKEBOX_EMPTY);
    wants(hikebox_leased_new(HIKEBOX_MAX_NUMBER, &leased), HIKEBOX_OK);
    wants(hikebox_leased_new(0, &leased), HIKEBOX_FULL);
    takes(&leased, HIKEBOX_TOO_LARGE, 0, 0, 1, far);
    takes(&leased, HIKEBOX_TOO_LARGE, 0, UINT64_MAX, 1, 0);
    takes(&leased, HIKEBOX_OK, 0, UINT64_MAX - 1, 1, HIKEBOX_MAX_NUMBER);
    draws(&leased, HIKEBOX_MAX_NUMBER - 1, HIKEBOX_OK, 0, UINT64_MAX - 1);
    comes_back(&leased, HIKEBOX_NOT_OUT, 0, UINT64_MAX);
    wants(hikebox_leased_leave_alone(&leased, far), HIKEBOX_TOO_LARGE);
    wants(hikebox_leased_deposit(&leased, far, 1), HIKEBOX_TOO_LARGE);
    wants(hikebox_leased_tell(&leased, far, &told), HIKEBOX_TOO_LARGE);
    holds(told == 77 && lent.window == 1 && lent.first == 2 && lent.tickets == 3 && lent.until == 4);

    // A retry draws by a pass, and not by a leased one; neither is taken for the other.
    wants(read_policy("\"forever\"", &policy), HIKEBOX_OK);
    wants(hikebox_retry_new(&policy, (hikebox_pass *)&leased, HIKEBOX_NO_DEADLINE, &machine), HIKEBOX_WRONG_KIND);
    wants(hikebox_pass_draw((hikebox_pass *)&leased, 0, &told), HIKEBOX_WRONG_KIND);
    wants(hikebox_pass_free((hikebox_pass *)&leased), HIKEBOX_WRONG_KIND);
    wants(hikebox_pass_unlimited(&pass), HIKEBOX_OK);
    draws((hikebox_leased *)&pass, 0, HIKEBOX_WRONG_KIND, 0, 0);
    wants(hikebox_leased_free((hikebox_leased *)&pass), HIKEBOX_WRONG_KIND);
    wants(hikebox_pass_free(&pass), HIKEBOX_OK);
    wants(hikebox_policy_free(&policy), HIKEBOX_OK);
    wants(hikebox_leased_free(&leased), HIKEBOX_OK);
}

// A store in memory, of a budget without windows; and how often each ticket is out.
static struct {
    pthread_mutex_t lock;
    hikebox_stored stored;
    uint8_t *out;
} store = {.lock = PTHREAD_MUTEX_INITIALIZER};

// One step of the store: a lease of 5 tickets, handed over twice.
static void lease(hikebox_leased *leased) {
    hikebox_asking asking = {0, 0, 5};
    hikebox_range range;
    pthread_mutex_lock(&store.lock);
    wants(hikebox_lease_of_budget(LIMIT, &asking, &store.stored, &range), HIKEBOX_OK);
    pthread_mutex_unlock(&store.lock);
    takes(leased, HIKEBOX_OK, 0, range.first, range.tickets, HIKEBOX_MAX_NUMBER);
    if (range.tickets > 0) takes(leased, HIKEBOX_HELD_ALREADY, 0, range.first, range.tickets, HIKEBOX_MAX_NUMBER);
}

// Draws what there is with a pass of its own, and hands every third ticket back.
static void *draw_and_return(void *none) {
    hikebox_leased leased = HIKEBOX_INIT;
    hikebox_ticket ticket = {0, 0};
    uint64_t again, count = 0, kept = 0;
    (void)none;
    wants(hikebox_leased_new(0, &leased), HIKEBOX_OK);
    for (;;) {
        hikebox_status status = hikebox_leased_draw(&leased, 7, &ticket, &again);
        if (status == HIKEBOX_LEASE_WANTED) {
            lease(&leased);
            continue;
        }
        if (status == HIKEBOX_NO_TICKET) break;
        wants(status, HIKEBOX_OK);
        holds(ticket.number < LIMIT && !__atomic_exchange_n(&store.out[ticket.number], 1, __ATOMIC_SEQ_CST));
        kept++;
        if (++count % 3 > 0) continue;
        __atomic_store_n(&store.out[ticket.number], 0, __ATOMIC_SEQ_CST);
        wants(hikebox_leased_hand_back(&leased, &ticket), HIKEBOX_OK);
        kept--;
    }
    has(&leased, kept, 0, 0);
    wants(hikebox_leased_free(&leased), HIKEBOX_OK);
    return 0;
}

// Eight threads, each with a pass of its own: every ticket of the store is out in the end, and none was out twice.
static void threads_at_once(void) {
    pthread_t threads[THREADS];
    uint64_t out = 0;
    store.out = calloc(LIMIT, 1);
    for (int k = 0; k < THREADS; k++)
        pthread_create(&threads[k], 0, draw_and_return, 0);
    for (int k = 0; k < THREADS; k++)
        pthread_join(threads[k], 0);
    for (uint64_t number = 0; number < LIMIT; number++)
        out += store.out[number];
    holds(out == LIMIT && store.stored.given == LIMIT);
    free(store.out);
}

int leased(void) {
    by_hand();
    refused();
    threads_at_once();
    return wrong;
}
