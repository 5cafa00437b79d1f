/*
 * Draws tickets of a budget that processes share by a file, and prints their numbers.
 *
 *     cc lease.c -I../../include ../../dist/libhikebox.a -o lease
 *     ./lease counts new          makes the file, of which no ticket was leased
 *     ./lease counts 5            draws five tickets, or as many as there are
 */
#define _DEFAULT_SOURCE
#include <fcntl.h>
#include <hikebox.h>
#include <inttypes.h>
#include <stdio.h>
#include <stdlib.h>
#include <string.h>
#include <sys/file.h>
#include <unistd.h>

/* The tickets of all processes, and how many a process leases at a time. */
#define LIMIT 1000
#define LEASE 20

static void check(hikebox_status status, const char *call) {
    if (status == HIKEBOX_OK) return;
    fprintf(stderr, "%s: %s\n", call, hikebox_status_text(status));
    exit(1);
}

static void check_system(bool done, const char *call) {
    if (done) return;
    perror(call);
    exit(1);
}

static void write_counts(int file, const hikebox_stored *stored) {
    check_system(pwrite(file, stored, sizeof *stored, 0) == (ssize_t)sizeof *stored, "pwrite");
    check_system(fsync(file) == 0, "fsync");
}

/* Leases a range, by one step under the file's lock. It is on the disk before a ticket of it is drawn. */
static hikebox_grant ask_the_store(int file) {
    hikebox_stored stored;
    hikebox_asking asking = {0, 0, LEASE};
    hikebox_range range;
    check_system(flock(file, LOCK_EX) == 0, "flock");
    if (pread(file, &stored, sizeof stored, 0) != (ssize_t)sizeof stored) {
        fprintf(stderr, "expected %zu bytes of counts, got less\n", sizeof stored);
        exit(1);
    }
    check(hikebox_lease_of_budget(LIMIT, &asking, &stored, &range), "hikebox_lease_of_budget");
    write_counts(file, &stored);
    check_system(flock(file, LOCK_UN) == 0, "flock");
    return (hikebox_grant){0, range.first, range.tickets, HIKEBOX_MAX_NUMBER};
}

/* Draws a ticket, from the range at hand or from a new one. */
static bool draw(hikebox_leased *leased, int file, hikebox_ticket *ticket) {
    uint64_t again;
    hikebox_status status = hikebox_leased_draw(leased, 0, ticket, &again);
    if (status == HIKEBOX_LEASE_WANTED) {
        hikebox_grant grant = ask_the_store(file);
        check(hikebox_leased_granted(leased, &grant), "hikebox_leased_granted");
        status = hikebox_leased_draw(leased, 0, ticket, &again);
    }
    if (status == HIKEBOX_NO_TICKET) return false;
    check(status, "hikebox_leased_draw");
    return true;
}

/* The number that a word of one to nine digits spells, or -1 of another word. */
static long number_in(const char *word) {
    size_t digits = strspn(word, "0123456789");
    return digits > 0 && digits < 10 && word[digits] == 0 ? strtol(word, NULL, 10) : -1;
}

int main(int count, char **words) {
    if (count != 3) {
        fprintf(stderr, "lease: expected 2 words, FILE and a number of tickets or `new`, got %d\n", count - 1);
        return 2;
    }
    bool makes = strcmp(words[2], "new") == 0;
    long wanted = makes ? 0 : number_in(words[2]);
    if (wanted < 0) {
        fprintf(stderr, "lease: expected a number of tickets below 1000000000 or `new`, got \"%s\"\n", words[2]);
        return 2;
    }
    /* (if standard output is closed, the file takes its number, and what is printed is written over the counts) */
    check_system(fcntl(STDOUT_FILENO, F_GETFD) >= 0, "standard output");
    int file = open(words[1], makes ? O_RDWR | O_CREAT | O_EXCL : O_RDWR, 0666);
    check_system(file >= 0, words[1]);
    if (makes) {
        write_counts(file, &(hikebox_stored){0, 0, 0});
        return 0;
    }
    hikebox_leased leased = HIKEBOX_INIT;
    hikebox_ticket ticket;
    check(hikebox_leased_new(0, &leased), "hikebox_leased_new");
    for (; wanted > 0 && draw(&leased, file, &ticket); wanted--)
        printf("%" PRIu64 "\n", ticket.number);
    check(hikebox_leased_free(&leased), "hikebox_leased_free");
    check_system(!ferror(stdout) && fflush(stdout) == 0, "standard output");
    return 0;
}
