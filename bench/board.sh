#!/usr/bin/env bash
# How much faster many retries run on more worker threads: a board whose effect computes for some 20 microseconds at each
# poll, and `zsched pool` over 4,096 jobs. Started by hand at the top of the repository: bench/board.sh. It needs rt and a
# machine with nothing else to do.
cd "$(dirname "$0")/.." && source bench/least.sh
programs bench
zsched

machine
few=10
many=210
alone=
for workers in 1 2 "$(nproc)"; do
    poll=$(per_unit $((64 * (many - few))) "$(least "$work/bench" board "$workers" "$few")" "$(least "$work/bench" board "$workers" "$many")")
    alone=${alone:-$poll}
    awk -v w="$workers" -v p="$poll" -v a="$alone" \
        'BEGIN { printf "board, %d workers: a run each %s ns, %.2f of linear\n", w, p, a / p / w }'
done

job='{"plan":{"recurs":100},"runs":[{"lost":7}]}'
jobs=$job
for _ in 1 2 3 4 5 6 7 8 9 10 11 12; do jobs=$jobs,$jobs; done
echo "[$jobs]" > "$work/jobs.json"
pool() { "$work/zsched" pool --workers "$1" --budget 1000000 < "$work/jobs.json"; }
for workers in 1 2 4; do
    awk -v w="$workers" -v t="$(least pool "$workers")" \
        'BEGIN { printf "zsched pool, 4,096 jobs, %d workers: %.1f ms\n", w, t / 1e6 }'
done
