#!/usr/bin/env bash
# What a draw of each limit takes beside a bare atomic add, on one thread: instructions, which other work does not
# change, and nanoseconds. A draw of a bucket is one call; of a bound on what is in flight a request also comes and
# ends; of a breaker it also succeeds. A throttle refuses each draw, since none of its requests has succeeded.
# Started by hand at the top of the repository: bench/limit.sh. It needs rt, valgrind, and a machine with nothing else
# to do.
cd "$(dirname "$0")/.." && source bench/least.sh
programs bench

# per_draw KIND: instructions and nanoseconds of one draw: two lengths of run, so that starting the program does not
# count
per_draw() {
    local few=100000 many=1100000
    local instructions nanoseconds
    instructions=$(per_unit $((many - few)) "$(instructions "$work/bench" limit "$1" $few)" \
        "$(instructions "$work/bench" limit "$1" $many)")
    few=4000000 many=84000000
    nanoseconds=$(per_unit $((many - few)) "$(least "$work/bench" limit "$1" $few)" \
        "$(least "$work/bench" limit "$1" $many)")
    echo "$1: $instructions instructions, $nanoseconds ns"
}

machine
for kind in add bucket flight breaker throttle; do
    per_draw "$kind"
done
