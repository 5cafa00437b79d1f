#!/usr/bin/env bash
# How long a step of a schedule takes, and how long 4,096 printed lines, beside the same schedules written by hand in Rust
# on the same machine. Started by hand at the top of the repository: bench/steps.sh. It needs rt, rustc and a machine with
# nothing else to do. Where valgrind is there it also counts the instructions of a step, which other work does not change.
cd "$(dirname "$0")/.." && source bench/least.sh
programs bench
zsched
rustc -O -C target-cpu=x86-64 -o "$work/plain" bench/plain_steps.rs
# (named by what measures them)
# shellcheck disable=SC2034
inside=("$work/bench" steps) by_hand=("$work/plain")

# nanoseconds that one step takes, with what else the program is told
per_step() {
    local -n program=$1
    local plan=$2 few=$3 many=$4
    shift 4
    per_unit "$((many - few))" "$(least "${program[@]}" "$plan" "$few" "$@")" \
        "$(least "${program[@]}" "$plan" "$many" "$@")"
}

# allocations of a whole run
allocations() {
    valgrind "$@" 2>&1 > /dev/null | awk '/total heap usage/ { gsub(",", ""); print $5 }'
}

# allocations that one step takes
per_step_allocated() {
    local -n program=$1
    local few many
    few=$(allocations "${program[@]}" "$2" 160)
    many=$(allocations "${program[@]}" "$2" 960)
    awk -v a="$few" -v b="$many" 'BEGIN { printf "%.2f", (b - a) / 800 }'
}

# instructions that one step takes; the lengths are whole rounds of sixteen events
per_step_counted() {
    local -n program=$1
    local plan=$2 few many
    shift 2
    few=$(instructions "${program[@]}" "$plan" 160 "$@")
    many=$(instructions "${program[@]}" "$plan" 960 "$@")
    echo $(((many - few) / 800))
}

# kilobytes that a whole run holds at most
# (what time writes, and not what the program prints)
# shellcheck disable=SC2069
resident() { /usr/bin/time -f %M "$@" 2>&1 > /dev/null; }

# what zsched prints of the plan, and what the program by hand does
prints() { "$work/zsched" plan --steps 4096 < "$work/$1.json"; }
prints_by_hand() { "$work/plain" print "$1" 4096; }

machine
for row in "pair 100000 5000000" "fixed 100000 10000000" "tree 1000 50000" "crossed 100000 10000000" \
    "exponential 100000 10000000" "retry 100000 3000000" "rounds 10000 1000000"; do
    read -r plan few many <<< "$row"
    step=$(per_step inside "$plan" "$few" "$many")
    plain=$(per_step by_hand "$plan" "$few" "$many")
    awk -v p="$plan" -v s="$step" -v b="$plain" \
        'BEGIN { printf "%s: a step %s ns, by hand %s ns, ratio %.2f\n", p, s, b, s / b }'
    if command -v valgrind > /dev/null; then
        echo "$plan: instructions of a step $(per_step_counted inside "$plan"), by hand $(per_step_counted by_hand "$plan")"
        echo "$plan: allocations of a step $(per_step_allocated inside "$plan"), by hand $(per_step_allocated by_hand "$plan")"
    fi
    next=$(per_step inside "$plan" "$few" "$many" driver)
    plain=$(per_step by_hand "$plan" "$few" "$many" driver)
    awk -v p="$plan" -v s="$next" -v b="$plain" \
        'BEGIN { printf "%s: by a driver with its journal %s ns, by hand with a journal %s ns, ratio %.2f\n", p, s, b, s / b }'
    echo "$plan: by a driver without a journal $(per_step inside "$plan" "$few" "$many" stepper) ns"
    if command -v valgrind > /dev/null; then
        echo "$plan: instructions of an event with a journal $(per_step_counted inside "$plan" driver), without $(per_step_counted inside "$plan" stepper)"
    fi
done
for plan in fixed retry; do
    echo "$plan: without a journal $(resident "${inside[@]}" "$plan" 1000 stepper) KB at 1,000 events, $(resident "${inside[@]}" "$plan" 10000000 stepper) KB at 10,000,000"
done

echo '{"meet":[{"recurs":4611686018427387903},{"spaced":1}]}' > "$work/pair.json"
tree='{"spaced":1}'
for _ in 1 2 3 4 5 6 7; do tree="{\"meet\":[$tree,$tree]}"; done
echo "$tree" > "$work/tree.json"
for plan in pair tree; do
    prints "$plan" > "$work/lines"
    prints_by_hand "$plan" | cmp - "$work/lines"
    lines=$(least prints "$plan")
    plain=$(least prints_by_hand "$plan")
    awk -v p="$plan" -v s="$lines" -v b="$plain" \
        'BEGIN { printf "%s: 4,096 lines in %.2f ms, by hand in %.2f ms, ratio %.2f\n", p, s / 1e6, b / 1e6, s / b }'
done
