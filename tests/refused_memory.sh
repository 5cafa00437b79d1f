#!/usr/bin/env bash
# refused_memory.sh zsched|crates: refuses each growth of a program in turn, upwards until a run meets no refusal.
#
# zsched has to end for want of memory, with a front of its output written; no other answer may change. A pool of jobs may
# also answer that a worker was not started, or have one job that is broken. HIKEBOX_ZSCHED names the program, that of
# dist/ where it does not.
#
# crates is the program `checks`, which bin/build has built. A budget that was refused, and a driver whose step was, have
# to be as before, and the same call has to succeed when it is made again. A task whose poll was refused one has to be
# broken for good, with its driver as before.
#
# As many runs as there are processors are tried side by side.
set -euo pipefail
top=$(cd "$(dirname "${BASH_SOURCE[0]}")/.." && pwd)
zsched=${HIKEBOX_ZSCHED:-$top/dist/zsched}
checks=$top/crates/checks/out/checks
case ${1:-} in
  zsched | crates) ;;
  *) echo "tests/refused_memory.sh: refused_memory.sh zsched|crates" >&2; exit 2 ;;
esac
shared=$(mktemp -d)
trap 'rm -rf "$shared"' EXIT
work=$shared
cc -O1 -shared -fPIC -nostdlib -o "$shared/refuse.so" "$top/tests/refuse.c"
printf 'zsched: no memory\n' >"$shared/no_memory"
printf 'zsched: worker not started\n' >"$shared/not_started"
printf 'zsched: not finished\n' >"$shared/not_finished"
beside=$shared
. "$top/tests/beside.sh"

# tries FUNCTION WORD..: one of the functions below, as it is run beside others: it fails where that found something wrong
tries() {
  failed=0
  "$@"
  [ "$failed" = 0 ]
}

# with_refused GROWTH PROGRAM WORD..: a run in which this growth is refused; $work/refused is empty where none was, and
# $work/starts has a line for each thread that was started, with the number of growths before it
with_refused() {
  LD_PRELOAD="$shared/refuse.so" REFUSE_AT=$1 "${@:2}" >"$work/out" 2>"$work/err" 8>"$work/starts" 9>"$work/refused"
}

# is_front: what the run wrote is a front of the whole output
is_front() { head -c "$(wc -c <"$work/out")" "$work/out.whole" | cmp -s - "$work/out"; }

# wrong GROWTH STATUS RUN
wrong() {
  echo "tests/refused_memory.sh: $3: growth $1 refused: status $2; $(cat "$work/err")" >&2
  failed=1
}

# is_whole STATUS: the run ended with this status, and wrote what it writes without a refusal
is_whole() { [ "$status" = "$1" ] && cmp -s "$work/out" "$work/out.whole" && cmp -s "$work/err" "$work/err.whole"; }

# refuses STATUS INPUT WORD..: each growth of this run in turn; without a refusal it ends with this status
refuses() {
  local spares=0
  refuses_but "$@"
}

# refuses_spared: the same, where some growths may be refused with no effect: the search for a near name asks for room ahead
# of its use, and goes on without. Of the others some have to be refused.
refuses_spared() {
  local spares=1
  refuses_but "$@"
}

# refuses_but STATUS INPUT WORD..: both, by whether there are spares
refuses_but() {
  local wanted=$1 input=$2 no_memory=0
  shift 2
  local growth=0 status
  printf '%s' "$input" >"$work/in"
  "$zsched" "$@" <"$work/in" >"$work/out.whole" 2>"$work/err.whole" || true
  while :; do
    growth=$((growth + 1))
    status=0
    with_refused "$growth" "$zsched" "$@" <"$work/in" || status=$?
    [ -s "$work/refused" ] || break
    if [ "$status" = 5 ] && cmp -s "$work/err" "$shared/no_memory" && is_front; then
      no_memory=$((no_memory + 1))
    elif [ "$spares" = 0 ] || ! is_whole "$wanted"; then
      wrong "$growth" "$status" "zsched $*"
    fi
  done
  [ "$no_memory" -gt 0 ] && is_whole "$wanted" || wrong none "$status" "zsched $*"
  echo "tests/refused_memory.sh: zsched $*: $((growth - 1)) growths refused in turn"
}

# breaks_one TAIL: one job is broken by want of memory, all others end as they do without a refusal, and the total is the
# sum of the lines, with this tail
breaks_one() {
  awk -v tail="$1" '
    NR == FNR { whole[FNR] = $0; granted[FNR] = $NF; lines = FNR; next }
    FNR == lines { total = $0; next }
    { sum += $NF }
    $0 ~ "^job " (FNR - 1) ": broken, no memory, granted [0-9]+$" && $NF <= granted[FNR] { broken++; next }
    $0 != whole[FNR] { wrong = 1 }
    END { exit wrong || broken != 1 || FNR != lines || total != "granted " (sum + 0) tail }
  ' "$work/out.whole" "$work/out"
}

# refuses_jobs WORKERS TAIL INPUT WORD..: each growth of a pool whose jobs are all over, with this tail of its last line
# and so many threads started for workers. With none or one, one growth may change nothing, where the queue of the
# loop or of the worker ends after its last poll, and a thread is not started only where the last growth before its
# start is refused; with more it varies which growth is which.
refuses_jobs() {
  local workers=$1 tail=$2 input=$3 growth=0 no_memory=0 not_started=0 broken=0 same=0 status=0 started
  shift 3
  local run=("$zsched" pool "$@") name="zsched pool $*"
  printf '%s' "$input" >"$work/in"
  with_refused 0 "${run[@]}" <"$work/in" || wrong none $? "$name"
  cp "$work/out" "$work/out.whole"
  : >"$work/err.whole"
  started=$(cat "$work/starts")
  [ "$(wc -l <"$work/starts")" = "$workers" ] || wrong none "threads $started" "$name"
  while :; do
    growth=$((growth + 1))
    status=0
    with_refused "$growth" "${run[@]}" <"$work/in" || status=$?
    [ -s "$work/refused" ] || break
    if [ "$status" = 5 ] && cmp -s "$work/err" "$shared/no_memory" && is_front; then
      no_memory=$((no_memory + 1))
    elif [ "$status" = 7 ] && cmp -s "$work/err" "$shared/not_started" && [ ! -s "$work/out" ] &&
      { [ "$workers" -gt 1 ] || [ "$growth" = "$started" ]; }; then
      not_started=$((not_started + 1))
    elif [ "$status" = 6 ] && cmp -s "$work/err" "$shared/not_finished" && breaks_one "$tail"; then
      broken=$((broken + 1))
    elif is_whole 0; then
      same=$((same + 1))
    else
      wrong "$growth" "$status" "$name"
    fi
  done
  is_whole 0 && [ "$no_memory" -gt 0 ] && [ "$broken" -gt 0 ] && { [ "$workers" = 0 ] || [ "$not_started" -gt 0 ]; } &&
    { [ "$workers" -gt 1 ] || [ "$same" -le 1 ]; } || wrong none "$status" "$name"
  echo "tests/refused_memory.sh: $name: $((growth - 1)) growths refused in turn:" \
    "no memory $no_memory, not started $not_started, a broken job $broken, no change $same"
}

# Each growth of a program that makes a refused call again: where one was refused, the line with the fault is the line
# before, and all others are as they are without a refusal. Each of the 24 calls is refused at least once.
refuses_calls() {
  local growth=0 status
  "$checks" growths >"$work/out.whole"
  : >"$work/shown"
  while :; do
    growth=$((growth + 1))
    status=0
    with_refused "$growth" "$checks" growths || status=$?
    [ -s "$work/refused" ] || break
    if grep '^NoMemory: ' "$work/out" >>"$work/shown"; then
      [ "$status" = 0 ] && grep -v '^NoMemory: ' "$work/out" | cmp -s - "$work/out.whole" &&
        awk '/^NoMemory: / && $0 != "NoMemory: " before { exit 1 } { before = $0 }' "$work/out" ||
        wrong "$growth" "$status" "checks growths"
    else
      [ "$status" = 5 ] && is_front || wrong "$growth" "$status" "checks growths"
    fi
  done
  [ "$status" = 0 ] && cmp -s "$work/out" "$work/out.whole" && [ "$(sort -u "$work/shown" | wc -l)" = 24 ] ||
    wrong none "$status" "checks growths"
  echo "tests/refused_memory.sh: checks growths: $(wc -l <"$work/shown") of $((growth - 1)) growths refused in a call"
}

# breaks_for_good: one task is broken by want of memory at one poll. It is ready from then on and shows no change, and its
# driver and its tickets are as they were before that poll; all other lines are as they are without a refusal.
breaks_for_good() {
  awk -F'; ' '
    NR == FNR { whole[FNR] = $0; lines = FNR; next }
    $1 != task { task = $1; driver = "0 events, last None, next None, 0 granted" }
    /Broken\(NoMemory\)/ {
      if (broken && (broken != task || runs != $4) || $3 != driver || $5 !~ /^ready true, /) wrong = 1
      broken = task
      runs = $4
      next
    }
    { driver = $3 }
    task == broken || $0 != whole[FNR] { wrong = 1 }
    END { exit wrong || !broken || FNR != lines }
  ' "$work/out.whole" "$work/out"
}

# Each growth of a program that polls tasks. Polls are refused one in as many different ways as there are growths of
# the lists and outputs in them. One that is refused after the last line, where the queue ends, changes nothing.
refuses_polls() {
  local growth=0 status
  "$checks" polls >"$work/out.whole"
  : >"$work/shown"
  while :; do
    growth=$((growth + 1))
    status=0
    with_refused "$growth" "$checks" polls || status=$?
    [ -s "$work/refused" ] || break
    if grep -m 1 'Broken(NoMemory)' "$work/out" >>"$work/shown"; then
      [ "$status" = 0 ] && breaks_for_good || wrong "$growth" "$status" "checks polls"
    elif [ "$status" = 0 ]; then
      cmp -s "$work/out" "$work/out.whole" || wrong "$growth" "$status" "checks polls"
    else
      [ "$status" = 5 ] && is_front || wrong "$growth" "$status" "checks polls"
    fi
  done
  [ "$status" = 0 ] && cmp -s "$work/out" "$work/out.whole" && [ "$(sort -u "$work/shown" | wc -l)" = 38 ] ||
    wrong none "$status" "checks polls"
  echo "tests/refused_memory.sh: checks polls: $(wc -l <"$work/shown") of $((growth - 1)) growths refused in a poll"
}

# The stored output of the program, on the plan of its stored input.
refuses_stored() {
  refuses 0 "$(cat "$top/plans/three-times.json")" plan
  cmp "$work/out.whole" "$top/crates/zsched/stdout" || failed=1
}

# Plans, jobs and command lines of all kinds.
tries_zsched() {
  local job jitter three_calls workers input
  beside tries refuses_stored
  beside tries refuses 0 '{"follow":[{"recurs":2},{"fixed":50}]}' plan --steps 5
  beside tries refuses 0 '{"gather":["list",{"renew":[100,{"follow":[{"recurs":1},{"spaced":60}]}]}]}' plan --steps 5
  beside tries refuses 0 '{"gather":["list",{"gather":["list",{"recurs":3}]}]}' plan
  beside tries refuses 0 '{"renew":[50,{"follow":[{"recurs":1},{"lone":30}]}]}' plan --took 25 --steps 5
  beside tries refuses 0 '{"renew_idle":[100,{"exponential":[30,2]}]}' plan --steps 5
  beside tries refuses 0 '{"feed":[{"join":[{"recurs":1},{"spaced":10}]},{"first":"identity"}]}' plan --steps 4
  beside tries refuses 0 '{"add_out":{"cap":[15,{"jitter":[0,500,1500,{"linear":10}]}]}}' plan --steps 4
  beside tries refuses 0 '{"nothing":{"join":[{"feed":["identity",{"fibonacci":3}]},{"within":[9,"elapsed"]}]}}' plan --steps 4
  beside tries refuses 3 '{"meet":[{"fixed":0},"forever"]}' plan
  beside tries refuses 3 '{"meet":[' plan
  beside tries refuses 2 '' plan --steps 4097
  beside tries refuses 0 '' plan --help
  beside tries refuses 0 '' --version
  beside tries refuses 0 '' plan "$top/plans/three-times.json"
  beside tries refuses 4 '' plan "$top/plans/none.json"
  beside tries refuses 0 "$(cat "$top/plans/jittered-back-off.json")" plan --words 7 --inputs 3,5
  beside tries refuses 3 '[{"plan":{"recurs":3},"runs":[{"lost":7},{"won":-1}]}]' pool
  beside tries refuses 3 '[{"plan":"forever","runs":[]}]' pool
  beside tries refuses 3 '{}' pool
  beside tries refuses_spared 3 '{"exponental":[100,2]}' plan
  beside tries refuses 2 '' pool --workers 17
  beside tries refuses 2 '' pool --quota 1/2/0
  beside tries refuses 0 "$(cat "$top/plans/back-off.json")" check
  beside tries refuses 0 "$(cat "$top/jobs/three-calls.json")" check
  beside tries refuses_spared 3 '{"meet":[{"recurs":1},{"cap":[1,{"exponental":[100,2]}]}]}' check
  beside tries refuses 3 '[{"plan":{"fixed":0},"runs":[{"won":1}]}]' check
  beside tries refuses 3 '{"meet":[' check
  # Storms of three requests, which are refused, retry and are won or cut.
  jitter='{"meet":[{"recurs":3},{"jitter":[0,0,1000,{"exponential":[100,2]}]}]}'
  beside tries refuses 0 "$jitter" storm --rate 3 --seconds 1 --outage 0..500
  beside tries refuses 0 "$jitter" storm --rate 3 --seconds 1 --outage 0..500 --quota 1/50%/1s --json
  beside tries refuses 0 "$jitter" storm --rate 3 --seconds 1 --compare "$top/plans/three-times.json"
  beside tries refuses 0 "$jitter" storm --rate 3 --seconds 1 --outage 0..500 --beside "30=$top/plans/three-times.json" --json
  beside tries refuses 0 "$jitter" storm --rate 3 --seconds 1 --beside "30=$top/plans/three-times.json" --sweep rate=1,2
  beside tries refuses 3 "$jitter" storm --compare "$top/jobs/three-calls.json"
  beside tries refuses 4 "$jitter" storm --compare "$top/plans/none.json"
  beside tries refuses 6 '"forever"' storm --rate 1 --seconds 1 --outage 0..10 --calls 5 --csv
  beside tries refuses 2 '' storm --outage 5..1
  job='{"plan":{"recurs":3},"runs":[{"lost":7}]}'
  three_calls=$(cat "$top/jobs/three-calls.json")
  for workers in 1 2; do
    for input in "[$job,$job,$job,$job]" "$three_calls" \
      '[{"plan":{"gather":["list",{"recurs":3}]},"runs":[{"lost":7}]},{"plan":"forever","runs":[{"won":1}]}]'; do
      beside tries refuses_jobs $workers ' of 100' "$input" --workers $workers
    done
  done
  beside tries refuses_jobs 0 ' in 1 windows' "[$job,$job,$job,$job]" --quota 100/0/1000
  beside tries refuses_jobs 0 ' in 1 windows' "$three_calls" --quota 100/0/1000
}

# The calls and the polls of `checks`, which together print what is stored of it.
tries_crates() {
  "$checks" | cmp - "$top/crates/checks/stdout"
  beside tries refuses_calls
  beside tries refuses_polls
}

"tries_$1"
all_passed
echo "tests/refused_memory.sh: each growth of $started runs refused in turn"
