# shellcheck shell=bash
# What the benchmarks share; sourced by them at the top of the repository. Each has a folder of its own, $work.
set -euo pipefail
work=$(mktemp -d)
trap 'rm -rf "$work"' EXIT

# programs NAME..: proves and builds these, each as $work/NAME
programs() {
    local program
    for program; do
        (cd "crates/$program" && rt run) >&2
        cp "crates/$program/out/$program" "$work/$program"
    done
}

# builds zsched as $work/zsched
zsched() {
    bin/build zsched plan --steps 0 <<< '"forever"' >&2
    cp crates/zsched/out/zsched "$work/zsched"
}

# the machine
machine() {
    echo "$(uname -srm), $(nproc) cores, $(awk -F': ' '/model name/ { print $2; exit }' /proc/cpuinfo)"
}

# the least of seven runs, or of RUNS, in nanoseconds
least() {
    local best=0 from to
    for _ in $(seq "${RUNS:-7}"); do
        from=$(date +%s%N)
        "$@" > /dev/null
        to=$(date +%s%N)
        if [ "$best" = 0 ] || [ $((to - from)) -lt "$best" ]; then best=$((to - from)); fi
    done
    echo "$best"
}

# per_unit UNITS SHORT LONG: nanoseconds that one unit takes, by two lengths of run, so that starting does not count
per_unit() {
    awk -v n="$1" -v a="$2" -v b="$3" 'BEGIN { printf "%.2f", (b - a) / n }'
}

# instructions of a whole run
instructions() {
    valgrind --tool=callgrind --callgrind-out-file=/dev/null "$@" 2>&1 > /dev/null | awk '/Collected/ { print $NF }'
}

# per_call COMMAND..: instructions of one of the calls that the command makes, of which it takes the number as its last word
per_call() {
    per_unit 10000 "$(instructions "$@" 1000)" "$(instructions "$@" 11000)"
}

# calls_by NAME COMMAND..: the rows of the words of `bench call` by this command: what a call alone takes, and then, by what its retries
# draw on, what a success takes more, what a granted retry does, and what a call that is refused does
calls_by() {
    local name=$1 on alone
    shift
    alone=$(per_call "$@" call nothing)
    for on in nothing budget quota; do
        awk -v n="$name" -v o="$on" -v a="$alone" -v s="$(per_call "$@" success "$on")" -v g="$(per_call "$@" granted "$on")" \
            -v r="$([ "$on" = nothing ] || per_call "$@" refused "$on")" 'BEGIN {
                printf "%s, on %s: a call alone %.0f instructions, a success at once %.0f more, ", n, o, a, s - a
                printf "a granted retry %.0f, a refused call %s\n", g, r == "" ? "-" : sprintf("%.0f", r)
            }'
    done
}
