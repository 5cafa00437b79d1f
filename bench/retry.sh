#!/usr/bin/env bash
# How long a granted retry of an effect that fails at once takes, beside a step of its driver alone, and how long a poll
# that only waits takes. Then what calls take by retry_call that succeed at once, are retried and are refused a retry, beside
# the same by hand in Rust and by the crate backoff, in instructions, and what a poll without a last event holds.
# Started by hand at the top of the repository: bench/retry.sh. It needs rt, rustc, valgrind, /usr/bin/time and what
# bench/crates.sh does; for the times a machine with nothing else to do.
cd "$(dirname "$0")/.." && source bench/least.sh
programs bench

# nanoseconds that one of a thousand in a round takes
per_one() {
    local what=$1 plan=$2 few=$3 many=$4
    per_unit "$((1000 * (many - few)))" "$(least "$work/bench" retry "$what" "$plan" "$few")" \
        "$(least "$work/bench" retry "$what" "$plan" "$many")"
}

machine
for plan in spaced pair; do
    retry=$(per_one retry "$plan" 10 2000)
    step=$(per_one step "$plan" 10 2000)
    wait=$(per_one wait "$plan" 10 20000)
    awk -v p="$plan" -v r="$retry" -v s="$step" -v w="$wait" \
        'BEGIN { printf "%s: a retry %s ns, a step %s ns, ratio %.2f; a poll that waits %s ns\n", p, r, s, r / s, w }'
done

rustc -O -C target-cpu=x86-64 -o "$work/plain" bench/plain_retry.rs
calls_by retry_call "$work/bench" call
calls_by "by hand" "$work/plain"
bench/crates.sh | grep -E '^(hikebox|backoff):'
