#!/usr/bin/env bash
# How long a draw of a budget takes, of one that keeps its limit and of one that may rise, each with passes that are
# counted and by parts, and a draw and a deposit of a
# quota, beside a bare fetch_add loop in Rust on the same machine; those of a quota beside the same arithmetic under a
# mutex too.
# Started by hand at the top of the repository: bench/draw.sh. It needs rt, rustc and a machine with nothing else to do.
cd "$(dirname "$0")/.." && source bench/least.sh
programs bench
for program in bare locked_quota; do
    rustc -O -C target-cpu=x86-64 -o "$work/$program" "bench/$program.rs"
done

# per_call THREADS PROGRAM [ARGS..]: nanoseconds that one call of one thread takes: two lengths of run, so that starting
# the program does not count
per_call() {
    local threads=$1 few=$((4000000 / $1)) many=$((200000000 / $1))
    shift
    per_unit "$((many - few))" "$(least "$@" "$threads" "$few")" "$(least "$@" "$threads" "$many")"
}

# ratio A B
ratio() {
    awk -v a="$1" -v b="$2" 'BEGIN { printf "%.2f", a / b }'
}

# rising_draws THREADS DRAWS
rising_draws() {
    "$work/bench" draw "$1" "$2" rising
}

# parted_draws THREADS DRAWS
parted_draws() {
    "$work/bench" draw "$1" "$2" parts
}

# rising_parted_draws THREADS DRAWS
rising_parted_draws() {
    "$work/bench" draw "$1" "$2" rising parts
}

machine
for threads in 1 "$(nproc)"; do
    draw=$(per_call "$threads" "$work/bench" draw)
    bare=$(per_call "$threads" "$work/bare")
    echo "threads $threads: draw $draw ns, bare fetch_add $bare ns, ratio $(ratio "$draw" "$bare")"
    rising=$(per_call "$threads" rising_draws)
    echo "threads $threads: draw of a rising budget $rising ns, ratio to the other $(ratio "$rising" "$draw")"
    parted=$(per_call "$threads" parted_draws)
    rising=$(per_call "$threads" rising_parted_draws)
    echo "threads $threads: draw by parts $parted ns, of a rising budget $rising ns, ratio to the first $(ratio "$parted" "$draw")"
done
for threads in 1 2 4; do
    bare=$(per_call "$threads" "$work/bare")
    for call in granted refused deposit; do
        quota=$(per_call "$threads" "$work/bench" quota "$call")
        locked=$(per_call "$threads" "$work/locked_quota" "$call")
        echo "threads $threads: quota $call $quota ns, bare fetch_add $bare ns, ratio $(ratio "$quota" "$bare"), mutex $locked ns"
    done
done
