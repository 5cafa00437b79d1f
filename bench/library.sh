#!/usr/bin/env bash
# What a draw of a budget, a granted retry, a step and a poll that waits take through the C library, beside the same inside
# (bench): instructions, which other work does not change, and nanoseconds. Then, in instructions, what calls take in C
# that succeed at once, are retried and are refused a retry, what a breaker's three calls take, and what a retry of ten
# million failures holds.
# Then what an attempt takes by the Python package beside tenacity, and by the Rust crate beside the crates retry and
# backoff.
# Started by hand at the top of the repository: bench/library.sh. It needs rt, cc, valgrind, what tests/rust.sh and
# tests/python.sh install, and librust-backoff-dev and librust-retry-dev of Debian; for the times a machine with nothing
# else to do. HIKEBOX_LIB_DIR names the library's folder; where it does not, the library is built first.
cd "$(dirname "$0")/.." && source bench/least.sh
if [ -z "${HIKEBOX_LIB_DIR:-}" ]; then
    export HIKEBOX_LIB_DIR=$work/dist
    bin/dist "$HIKEBOX_LIB_DIR"
fi
bin/build bench
cp crates/bench/out/bench "$work/bench"
cc -O2 -Wall -Wextra -Werror "-I$HIKEBOX_LIB_DIR" -o "$work/library" bench/library.c "$HIKEBOX_LIB_DIR/libhikebox.a"

# counted UNITS FEW MANY COMMAND..: instructions of one of the UNITS that the command does for each of FEW and of MANY
counted() {
    local units=$1 few=$2 many=$3
    shift 3
    per_unit "$((units * (many - few)))" "$(instructions "$@" "$few")" "$(instructions "$@" "$many")"
}

# timed UNITS FEW MANY COMMAND..: nanoseconds of the same
timed() {
    local units=$1 few=$2 many=$3
    shift 3
    per_unit "$((units * (many - few)))" "$(least "$@" "$few")" "$(least "$@" "$many")"
}

# row WHAT UNITS FEW MANY INSIDE..: one unit of what is done through the library, beside the program that does it inside
row() {
    local what=$1 units=$2 few=$3 many=$4 through inside
    shift 4
    read -r -a through <<< "$work/library $what"
    inside=("$@")
    awk -v what="$what" \
        -v c="$(counted "$units" "$few" "$((11 * few))" "${through[@]}")" \
        -v i="$(counted "$units" "$few" "$((11 * few))" "${inside[@]}")" \
        -v s="$(timed "$units" "$few" "$many" "${through[@]}")" \
        -v t="$(timed "$units" "$few" "$many" "${inside[@]}")" 'BEGIN {
            printf "%s: through C %.1f instructions, inside %.1f, ratio %.2f; ", what, c, i, c / i
            printf "%s ns, inside %s ns, ratio %.2f\n", s, t, s / t
        }'
}

machine
# (many short runs: the least of them is less disturbed by other work than that of a few long ones)
RUNS=60
row draw 1 2000 2000000 "$work/bench" draw 1
for plan in spaced pair; do
    row "retry $plan" 1000 2 200 "$work/bench" retry retry "$plan"
    row "step $plan" 1000 2 200 "$work/bench" retry step "$plan"
    row "wait $plan" 1000 2 2000 "$work/bench" retry wait "$plan"
done
calls_by "in C" "$work/library"
echo "a request that a breaker admits, its success and its end: $(counted 1 2000 22000 "$work/library" breaker) instructions"
for failures in 1000 10000000; do
    echo "a retry of $failures failures: $(/usr/bin/time -f %M "$work/library" granted nothing "$failures" 2>&1 > /dev/null) KB"
done
HIKEBOX_LIBRARY=$HIKEBOX_LIB_DIR/libhikebox.so PYTHONPATH=python/src /usr/bin/python3 bench/python.py
(cd rust && cargo run --release --offline --quiet --manifest-path ../bench/rust/Cargo.toml)
