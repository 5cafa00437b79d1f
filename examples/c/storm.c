/*
 * Plays what a policy does to a peer that is down for ten seconds, without a limit on its retries, under a quota, and
 * under a quota beside clients who do not draw on it, and prints what each storm comes to.
 *
 *     cc storm.c -I../../include ../../dist/libhikebox.a -o storm && ./storm
 */
#include <hikebox.h>
#include <stdio.h>
#include <stdlib.h>

/* At most eight retries, 100, 200, 400.. milliseconds apart, each spread from nothing to the whole. */
static const char policy_json[] =
    "{\"meet\":[{\"recurs\":8},{\"jitter\":[0,0,1000,{\"cap\":[10000,{\"exponential\":[100,2]}]}]}]}";

static void check(hikebox_status status, const char *call) {
    if (status == HIKEBOX_OK) return;
    fprintf(stderr, "%s: %s\n", call, hikebox_status_text(status));
    exit(1);
}

static void play(hikebox_policy *policy, const hikebox_storm *storm, const char *name) {
    static hikebox_window windows[121]; /* until / window, and one more */
    hikebox_totals totals = HIKEBOX_TOTALS;
    check(hikebox_storm_play(policy, storm, windows, 121, &totals), "hikebox_storm_play");
    printf("%s: %llu calls for %llu requests in %llu windows, ", name, (unsigned long long)totals.calls,
           (unsigned long long)totals.requests, (unsigned long long)totals.windows);
    if (totals.recovers) {
        printf("recovered at %llu ms\n", (unsigned long long)totals.recovered);
    } else {
        printf("never recovered\n");
    }
}

int main(int count, char **words) {
    if (count > 1) {
        fprintf(stderr, "storm: expected no words, got \"%s\"\n", words[1]);
        return 2;
    }
    hikebox_policy policy = HIKEBOX_INIT;
    hikebox_place place;
    check(hikebox_policy_read(policy_json, sizeof policy_json - 1, &policy, &place), "hikebox_policy_read");

    hikebox_storm storm = HIKEBOX_STORM;
    play(&policy, &storm, "no limit");
    storm.draws_on = HIKEBOX_ON_QUOTA; /* 10 tickets a second, and one more for ten requests */
    storm.reserve = 10;
    storm.share = 100;   /* thousandths of a ticket for each request */
    storm.period = 1000; /* milliseconds */
    play(&policy, &storm, "a quota");
    /* 30 % of the requests, a patience of 500 ms, and not limited: they do not draw on the quota */
    storm.second = (hikebox_population){30, 500, 0};
    play(&policy, &storm, "a quota for 70 %");
    storm.of = 1;
    play(&policy, &storm, "these 70 %");
    storm.of = 2;
    play(&policy, &storm, "the other 30 %");

    check(hikebox_policy_free(&policy), "hikebox_policy_free");
    return 0;
}
