#!/usr/bin/env bash
# Runs the built program on good and bad command lines and inputs, and compares its output, its line on standard error
# and its status with what is wanted. HIKEBOX_ZSCHED names the program, that of dist/ where it does not.
set -euo pipefail
top=$(cd "$(dirname "${BASH_SOURCE[0]}")/.." && pwd)
zsched=$(realpath "${HIKEBOX_ZSCHED:-$top/dist/zsched}")
work=$(mktemp -d)
trap 'rm -rf "$work"' EXIT
failed=0

# wants STATUS OUTPUT LINE WORD..: what zsched does with these words and the input in $work/in
wants() {
  local status=$1 output=$2 line=$3
  shift 3
  local got=0
  "$zsched" "$@" <"$work/in" >"$work/out" 2>"$work/err" || got=$?
  printf '%b' "$output" >"$work/out.want"
  printf '%b' "$line" >"$work/err.want"
  if [ "$got" != "$status" ] || ! cmp -s "$work/out" "$work/out.want" || ! cmp -s "$work/err" "$work/err.want"; then
    echo "tests/program.sh: zsched $*: status $got, wanted $status; output $(head -c 200 "$work/out"); errors $(head -c 200 "$work/err")" >&2
    failed=1
  fi
}

# bad WHY WORD..: these words are a bad command line, as a second line says; `..` stands for any line
bad() {
  local why=$1 got=0
  shift
  "$zsched" "$@" <"$work/in" >"$work/out" 2>"$work/err" || got=$?
  [ "$why" != .. ] || why=$(sed -n 2p "$work/err")
  printf 'zsched: bad command line\n%s\n' "$why" >"$work/err.want"
  if [ "$got" != 2 ] || [ -s "$work/out" ] || [ -z "$why" ] || ! cmp -s "$work/err" "$work/err.want"; then
    echo "tests/program.sh: zsched $*: status $got, wanted 2; output $(head -c 200 "$work/out"); errors $(head -c 400 "$work/err")" >&2
    failed=1
  fi
}

# refuses LINE MORE WORD..: zsched refuses the text for this fault, and a second line tells where and what
refuses() {
  local line=$1 more=$2
  shift 2
  wants 3 '' "zsched: $line\\n$more\\n" "$@"
}

# helps WORD..: zsched shows help on standard output with these words, in lines of at most 80 columns
helps() {
  local got=0
  "$zsched" "$@" </dev/null >"$work/out" 2>"$work/err" || got=$?
  if [ "$got" != 0 ] || ! grep -q 'Usage: zsched' "$work/out" || grep -nE '.{81}' "$work/out" >&2 ||
    [ -s "$work/err" ]; then
    echo "tests/program.sh: zsched $*: no help, or too wide" >&2
    failed=1
  fi
}

# wants_shared JOBS TICKETS WORD..: zsched runs the pool of such jobs in $work/in, each lost until its schedule is done
# after three tickets or the budget gives none, and they have all the tickets of the budget between them
wants_shared() {
  local jobs=$1 tickets=$2 got=0
  shift 2
  "$zsched" "$@" <"$work/in" >"$work/out" 2>"$work/err" || got=$?
  if [ "$got" != 0 ] || [ -s "$work/err" ] || ! awk -v jobs="$jobs" -v tickets="$tickets" '
    NR > jobs { total = total $0; next }
    { job = "job " (NR - 1) ": "; granted += $NF }
    $0 == job "schedule done, failure 7, granted 3" { next }
    $0 !~ "^" job "budget refused, failure 7, granted [0-2]$" { wrong = 1 }
    END { exit wrong || NR != jobs + 1 || granted != tickets || total != "granted " tickets " of " tickets }
  ' "$work/out"; then
    echo "tests/program.sh: zsched $*: status $got; output $(head -c 200 "$work/out"); errors $(head -c 200 "$work/err")" >&2
    failed=1
  fi
}

input() { printf '%b' "$1" >"$work/in"; }

# repeated COUNT TEXT: the text so many times, parted by commas
repeated() {
  local comma=
  for _ in $(seq "$1"); do
    printf '%s%s' "$comma" "$2"
    comma=,
  done
}

lost='{"plan":{"recurs":3},"runs":[{"lost":7}]}'

cp "$top/plans/three-times.json" "$work/in"
wants 0 '0: (0, 0) next 100\n100: (1, 1) next 200\n200: (2, 2) next 300\n300: (3, 3) done\n' '' plan
wants 0 '' '' plan --steps 0
input '{"fixed":100}'
wants 0 '0: 0 next 100\n350: 1 next 350\n600: 2 next 600\n' '' plan --took 250 --steps 3
input '{"gather":["list",{"renew":[100,{"follow":[{"recurs":1},{"spaced":60}]}]}]}'
wants 0 '0: [] next 0\n0: [0] next 60\n60: [0, 0] next 120\n120: [0, 0, 1] next 120\n' '' plan --steps 4
input '{"add_out":{"cap":[15,{"jitter":[0,500,1500,{"linear":10}]}]}}'
wants 0 '0: 10 next 15\n15: 20 next 45\n45: 30 next 90\n' '' plan --steps 3 --word 0
input '{"feed":["identity",{"gate":["input",true,"below",9,"elapsed"]}]}'
wants 0 '5: 0 next 5\n' '' plan --steps 1 --from 5 --input 8
wants 0 '5: 0 done\n' '' plan --from 5 --input 9
# Rows worked out by hand: what is printed of plans and of jobs on a quota, and what is told of texts.
while IFS='|' read -r words status text output line; do
  input "$text"
  # shellcheck disable=SC2086
  wants "$status" "$output" "$line" $words
done < <(grep -v '^#' "$top/tests/printed.txt")
helps --help
helps plan --help
helps pool --help
helps storm --help
helps check --help
wants 0 "zsched $(cat "$top/VERSION")\n" '' --version

# Each event has an input of its own, and words of its own: of the generator xoshiro128++ that is seeded with 7 the words
# of the first three events begin with 408380677, 257245457 and 1962261138.
input '"identity"'
wants 0 '7: 3 next 7\n9: 5 next 9\n11: 5 next 11\n' '' plan --inputs 3,5 --steps 3 --from 7 --took 2
input '{"jitter":[0,800,1200,{"spaced":1000}]}'
wants 0 '0: 0 next 838\n838: 1 next 1661\n1661: 2 next 2643\n' '' plan --words 7 --steps 3
wants 0 '' '' plan --words 7 --steps 0
bad .. plan --inputs 3,
bad "the argument '--inputs <A,B,..>' cannot be used with '--input <N>'" plan --inputs 3 --input 3
bad "the argument '--words <SEED>' cannot be used with '--word <W>'" plan --words 7 --word 7
bad "invalid value '18446744073709551616' for '--words <SEED>': number too large to fit in target type" \
  plan --words 18446744073709551616

# A text comes from standard input, also by the word -, or from a file, and is the same from each.
for word in plan pool; do
  folder=plans
  [ "$word" = plan ] || folder='jobs'
  for file in "$top/$folder"/*.json; do
    cp "$file" "$work/in"
    "$zsched" $word <"$file" >"$work/printed"
    wants 0 "$(sed 's/$/\\n/' "$work/printed" | tr -d '\n')" '' $word -
    input ''
    wants 0 "$(sed 's/$/\\n/' "$work/printed" | tr -d '\n')" '' $word "$file"
  done
  wants 4 '' "zsched: read failed\n$work/none.json: No such file or directory (os error 2)\n" $word "$work/none.json"
  wants 4 '' "zsched: read failed\n$work: Is a directory (os error 21)\n" $word "$work"
  wants 4 '' 'zsched: read failed\n: No such file or directory (os error 2)\n' $word ''
  bad "unexpected argument '-' found" $word - -
done
bad "'zsched' requires a subcommand but one was not provided; [subcommands: plan, pool, storm, check, help]; \
zsched --help lists the commands"
bad "unrecognized subcommand 'plans'; tip: a similar subcommand exists: 'plan'; zsched --help lists the commands" plans
wants 0 "$("$zsched" --version)\n" '' -V
bad "invalid value '4097' for '--steps <N>': 4097 is not in 0..=4096" plan --steps 4097
bad "invalid value 'ten' for '--steps <N>': invalid digit found in string" plan --steps ten
bad "a value is required for '--steps <N>' but none was supplied" plan --steps
bad "the argument '--steps <N>' cannot be used multiple times" plan --steps 1 --steps 2
bad "unexpected argument '--step' found; tip: a similar argument exists: '--steps'" plan --step 1
bad "unexpected argument '--none' found; tip: to pass '--none' as a value, use '-- --none'" plan --none
bad "invalid value '0' for '--workers <N>': 0 is not in 1..=16" pool --workers 0
bad "invalid value '17' for '--workers <N>': 17 is not in 1..=16" pool --workers 17
bad "invalid value '4294967297' for '--budget <N>': 4294967297 is not in 0..=4294967296" pool --budget 4294967297
bad "invalid value '4294967297' for '--turns <N>': 4294967297 is not in 0..=4294967296" pool --turns 4294967297
bad .. pool --steps 1
bad .. check --steps 1
while read -r words; do
  # shellcheck disable=SC2086
  bad .. $words
done <<'END'
plans
--steps 1
plan file file
plan --version
plan --steps
plan --steps 4097
plan --steps -1
plan --steps 1.5
plan --steps ten
plan --steps 1 --steps 2
plan --from 4611686018427387904
plan --took 4611686018427387904
plan --input 4611686018427387904
plan --input 18446744073709551616
plan --word 4294967296
plan --word -1
plan --inputs 1,,2
plan --inputs 1,4611686018427387904
plan --inputs 1 --input 1
plan --inputs 1 --inputs 2
plan --words 18446744073709551616
plan --words 1 --word 2147483648
pool --inputs 1
pool --words 1
plan --workers 1
pool --workers 0
pool --budget 4294967297
pool --turns 4294967297
pool --turns -1
pool --turns
pool --quota 1/2
pool --quota 1/2/300/4
pool --quota 1//300
pool --quota a/2/300
pool --quota 4294967297/2/300
pool --quota 1/1000001/300
pool --quota 1/2/99
pool --quota 1/2%/300
pool --quota 1/2/3s
pool --quota 1/0.55%/3s
pool --quota 1/2%/99ms
pool --quota 1/2/4611686018427387904
pool --quota 1/2/300 --budget 100
pool --quota 1/2/300 --workers 2
END
bad 'a word is not UTF-8' plan --from $'\xff'
{ printf '"forever"'; head -c 1048567 /dev/zero | tr '\0' ' '; } >"$work/in"
wants 0 '0: 0 next 0\n' '' plan --steps 1
printf ' ' >>"$work/in"
wants 3 '' 'zsched: input too long\n' plan
input ''
refuses 'not JSON' 'not JSON: line 1, column 1: the text is empty' plan
input '{"recurs":3'
refuses 'not JSON' 'not JSON: line 1, column 11: the text ends too soon' plan
input '{"recurs":-1}'
refuses 'not a plan' 'top: expected {"recurs":N}, N from 0 to 4611686018427387903, got {"recurs":-1}' plan
input '{"exponential":[1]}'
refuses 'not a plan' \
  'top: expected {"exponential":[D,F]}, D from 0 to 4611686018427387903, F from 1 to 1000, got {"exponential":[1]}' \
  plan
input '{"fixed":0}'
refuses 'number out of range' 'top: expected {"fixed":D}, D from 1 to 4611686018427387903, got {"fixed":0}' plan

deep='"forever"'
for _ in $(seq 32); do deep="{\"meet\":[$deep,\"forever\"]}"; done
printf '%s' "$deep" >"$work/in"
refuses 'too deep' 'top: expected a plan at most 32 deep' plan

deep='"forever"'
for _ in $(seq 32); do deep="{\"nothing\":$deep}"; done
printf '%s' "$deep" >"$work/in"
refuses 'too deep' 'top: expected a plan at most 32 deep' plan

wide='"forever"'
for _ in $(seq 8); do wide="{\"meet\":[$wide,$wide]}"; done
printf '%s' "$wide" >"$work/in"
refuses 'too many nodes' 'top: expected a plan of at most 256 nodes' plan

cp "$top/jobs/three-calls.json" "$work/in"
wants 0 'job 0: won 1, granted 2\njob 1: schedule done, failure 8, granted 1\njob 2: won 200, granted 0\ngranted 3 of 100\n' '' pool --workers 2
input '[{"plan":{"recurs":5},"runs":[{"lost":7},{"lost":7},{"won":1}]}]'
wants 0 'job 0: won 1, granted 2\ngranted 2 of 100\n' '' pool
wants 6 'job 0: not over, granted 0\ngranted 0 of 100\n' 'zsched: not finished\n' pool --turns 0
input '[{"plan":{"recurs":1},"runs":[{"lost":7},{"lost":8}]}]'
wants 0 'job 0: schedule done, failure 8, granted 1\ngranted 1 of 100\n' '' pool
input '[{"plan":{"recurs":5},"runs":[{"lost":7},{"lost":8}]}]'
wants 0 'job 0: budget refused, failure 8, granted 1\ngranted 1 of 1\n' '' pool --budget 1
input '[{"plan":"forever","runs":[{"lost":7}]}]'
wants 0 'job 0: budget refused, failure 7, granted 10000\ngranted 10000 of 10000\n' '' pool --budget 10000
wants 6 'job 0: broken, journal full, granted 65536\ngranted 65536 of 100000\n' 'zsched: not finished\n' pool --budget 100000
input '[{"runs":[{"lost":9}],"plan":{"within":[100,{"spaced":60}]}}]'
wants 0 'job 0: schedule done, failure 9, granted 2\ngranted 2 of 4294967296\n' '' pool --budget 4294967296 --turns 4294967296

four="[$(repeated 4 "$lost")]"
all_done=
all_refused=
not_over=
for number in 0 1 2 3; do
  all_done+="job $number: schedule done, failure 7, granted 3\n"
  all_refused+="job $number: budget refused, failure 7, granted 0\n"
  not_over+="job $number: not over, granted 0\n"
done
for workers in 1 2 16; do
  input "$four"
  wants 0 "${all_done}granted 12 of 100\n" '' pool --workers $workers
  wants 0 "${all_refused}granted 0 of 0\n" '' pool --workers $workers --budget 0
  wants_shared 4 5 pool --workers $workers --budget 5
  wants 6 "${not_over}granted 0 of 100\n" 'zsched: not finished\n' pool --workers $workers --turns 0
  input '[]'
  wants 0 'granted 0 of 100\n' '' pool --workers $workers
  wants 0 'granted 0 of 0\n' '' pool --workers $workers --budget 0 --turns 0
done
# Which jobs get the tickets is open, how many are granted is not.
input "$four"
for _ in $(seq 200); do
  wants_shared 4 5 pool --workers 16 --budget 5
done
input "[$(repeated 4096 "$lost")]"
for budget in 0 5 10000; do
  wants_shared 4096 $budget pool --workers 16 --budget $budget
done

# On a quota: four requests add two tickets to a reserve of two; a failure at 100 is of the window that begins there.
input "$four"
share=
for number in 0 1 2 3; do
  share+="job $number: budget refused, failure 7, granted 1\n"
done
wants 0 "${share}granted 4 in 1 windows\n" '' pool --quota 2/500/1000
wants 0 "${all_done}granted 12 in 1 windows\n" '' pool --quota=4294967296/1000000/4611686018427387903 --workers 1
wants 0 "${all_refused}granted 0 in 0 windows\n" '' pool --quota 0/249/100
wants 6 "${not_over}granted 0 in 0 windows\n" 'zsched: not finished\n' pool --quota 2/500/1000 --turns 0
# The same quotas with their units: a share of 50 % is 500 thousandths, of 24.9 % 249.
wants 0 "${share}granted 4 in 1 windows\n" '' pool --quota 2/50%/1s
wants 0 "${all_refused}granted 0 in 0 windows\n" '' pool --quota 0/24.9%/100ms
wants 0 "${share}granted 4 in 1 windows\n" '' pool --quota 2/50%/1d
input '[{"plan":{"spaced":59999},"runs":[{"lost":7},{"lost":7},{"won":1}]}]'
wants 0 'job 0: budget refused, failure 7, granted 1\ngranted 1 in 1 windows\n' '' pool --quota 1/0%/1m
wants 0 'job 0: won 1, granted 2\ngranted 2 in 2 windows\n' '' pool --quota 1/0%/59s
input '[{"plan":{"spaced":100},"runs":[{"lost":7},{"lost":7},{"lost":7},{"won":1}]}]'
wants 0 'job 0: won 1, granted 3\ngranted 3 in 3 windows\n' '' pool --quota 1/0%/100ms
wants 0 'job 0: won 1, granted 3\ngranted 3 in 3 windows\n' '' pool --quota 1/0/100
wants 0 'job 0: budget refused, failure 7, granted 1\ngranted 1 in 1 windows\n' '' pool --quota 1/0/101
wants 0 'job 0: budget refused, failure 7, granted 1\ngranted 1 in 1 windows\n' '' pool --quota 0/1000000/100
input '[{"plan":"forever","runs":[{"lost":7}]}]'
wants 0 'job 0: budget refused, failure 7, granted 1000\ngranted 1000 in 1 windows\n' '' pool --quota 0/1000000/100
input '[]'
wants 0 'granted 0 in 0 windows\n' '' pool --quota 5/1000/100
spelt='expected a quota such as 10/20%/60s (units: ms, s, m, h, d), or 10/200/60000 without units; RESERVE is at most 4294967296,'
spelt+=' SHARE at most 100000%, and PERIOD from 100ms to 4611686018427387903ms'
for terms in 1 1/2 1/2/300/4 1/2/ /2/3 a/2/3 1/b/3 1/2/c -1/2/300 1.5/2/3 ' 1/2/300' 4294967297/2/3 1/1000001/3 1/2/0 1/2/99 \
  1/2/4611686018427387904 18446744073709551616/2/3 1/2%/3 1/2/3s 1/2.55%/3s 1/2.%/3s 1/%/3s 1/2%/s 1/2%/1.5s 1/2%/3w \
  1/2%/0s 1/100000.1%/3s 1/2%/18446744073709551615d; do
  bad "invalid value '$terms' for '--quota <RESERVE/SHARE%/PERIOD>': $spelt" pool --quota="$terms"
done
bad "a value is required for '--quota <RESERVE/SHARE%/PERIOD>' but none was supplied" pool --quota
bad .. pool --quota ''
bad "the argument '--quota <RESERVE/SHARE%/PERIOD>' cannot be used multiple times" pool --quota 1/2/300 --quota 1/2/300
bad "the argument '--quota <RESERVE/SHARE%/PERIOD>' cannot be used with '--budget <N>'" pool --quota 1/2/300 --budget 100
bad "the argument '--quota <RESERVE/SHARE%/PERIOD>' cannot be used with '--workers <N>' of more than 1: jobs on a quota \
run on one thread" pool --quota 1/2/300 --workers 2
bad .. plan --quota 1/2/300
input '{}'
refuses 'not a plan' 'top: expected an array of jobs, got {}' pool --quota 1/2/300

# Of a bad text the first fault is told: the array, the number of jobs, and of each job in turn its members, the number
# of its runs, each run, and its plan.
past_far=4611686018427387904
too_deep="{\"plan\":$deep,\"runs\":[{\"won\":1}]}"
input '['
refuses 'not JSON' 'not JSON: line 1, column 1: the text ends too soon' pool
input '{}'
refuses 'not a plan' 'top: expected an array of jobs, got {}' pool
input "[$(repeated 4097 7)]"
refuses 'number out of range' 'top: expected at most 4096 jobs, got 4097' pool
input "[$(repeated 4096 7)]"
refuses 'not a plan' '[0]: expected {"plan":PLAN,"runs":[RUN,..]}, got 7' pool
input '[{"plan":7,"runs":[],"more":1}]'
refuses 'not a plan' '[0]: expected {"plan":PLAN,"runs":[RUN,..]}, got {"more":1,"plan":7,"runs":[]}' pool
input '[{"runs":[]}]'
refuses 'not a plan' '[0]: expected {"plan":PLAN,"runs":[RUN,..]}, got {"runs":[]}' pool
input '[{"plan":7,"runs":[]}]'
refuses 'number out of range' '[0].runs: expected 1 to 64 runs, got 0' pool
input "[{\"plan\":7,\"runs\":[$(repeated 65 7)]}]"
refuses 'number out of range' '[0].runs: expected 1 to 64 runs, got 65' pool
input "[{\"plan\":\"forever\",\"runs\":[$(repeated 63 '{"lost":7}'),{\"won\":$((past_far - 1))}]}]"
wants 0 "job 0: won $((past_far - 1)), granted 63\ngranted 63 of 100\n" '' pool
input "[{\"plan\":{\"fixed\":0},\"runs\":[{\"won\":1},{\"none\":$past_far}]}]"
refuses 'not a plan' \
  '[0].runs[1]: expected {"won":CODE} or {"lost":CODE}, CODE from 0 to 4611686018427387903, got {"none":4611686018427387904}' \
  pool
input '[{"plan":{"fixed":0},"runs":[{"lost":1,"won":1}]}]'
refuses 'not a plan' \
  '[0].runs[0]: expected {"won":CODE} or {"lost":CODE}, CODE from 0 to 4611686018427387903, got {"lost":1,"won":1}' \
  pool
input "[{\"plan\":7,\"runs\":[{\"won\":$past_far},7]}]"
refuses 'number out of range' \
  '[0].runs[0]: expected {"won":CODE} or {"lost":CODE}, CODE from 0 to 4611686018427387903, got {"won":4611686018427387904}' \
  pool
input '[{"plan":7,"runs":[{"won":1}]}]'
refuses 'not a plan' '[0].plan: expected a plan, a string or an object with one member, got 7' pool
input '[{"plan":{"fixed":0},"runs":[{"won":1}]}]'
refuses 'number out of range' \
  '[0].plan: expected {"fixed":D}, D from 1 to 4611686018427387903, got {"fixed":0}' \
  pool
input "[$lost,$too_deep,7]"
refuses 'too deep' '[1].plan: expected a plan at most 32 deep' pool
input "[$lost,7,$too_deep]"
refuses 'not a plan' '[1]: expected {"plan":PLAN,"runs":[RUN,..]}, got 7' pool
input "[{\"plan\":$wide,\"runs\":[{\"won\":1}]}]"
refuses 'too many nodes' '[0].plan: expected a plan of at most 256 nodes' pool
{ printf '[]'; head -c 1048574 /dev/zero | tr '\0' ' '; } >"$work/in"
wants 0 'granted 0 of 100\n' '' pool
printf ' ' >>"$work/in"
wants 3 '' 'zsched: input too long\n' pool

# What a text is, or the place of its first fault with what is wanted there. The line on standard error and the status
# are those of `plan` and `pool`.
for file in "$top"/plans/*.json "$top"/jobs/*.json; do
  "$zsched" check "$file" >"$work/told"
  cp "$file" "$work/in"
  wants 0 "$(sed 's/$/\\n/' "$work/told")" '' check
  wants 0 "$(sed 's/$/\\n/' "$work/told")" '' check -
done
wants 0 'plan: 4 nodes, depth 3, goes on at most 5 times\n' '' check "$top/plans/back-off.json"
wants 0 'jobs: 3 jobs, 6 runs\n' '' check "$top/jobs/three-calls.json"
wants 4 '' "zsched: read failed\n$work/none.json: No such file or directory (os error 2)\n" check "$work/none.json"
bad "unexpected argument '-' found" check - -
input '"forever"'
wants 0 'plan: 1 node, depth 1\n' '' check
input '[]'
wants 0 'jobs: 0 jobs, 0 runs\n' '' check
input '{"recurs":3'
wants 3 'not JSON: line 1, column 11: the text ends too soon\n' 'zsched: not JSON\n' check
input '{"recurs":3]'
wants 3 'not JSON: line 1, column 12: what stands here is not JSON, or is nested more than 127 deep\n' 'zsched: not JSON\n' check
input '7'
wants 3 'top: expected a plan, a string or an object with one member, got 7\n' 'zsched: not a plan\n' check
input '{"meet":[{"recurs":1},{"cap":[1,{"exponental":[100,2]}]}]}'
wants 3 'meet[1].cap[1]: no node is called "exponental"; did you mean "exponential"?\n' 'zsched: not a plan\n' check
for words in and:meet or:join andThen:follow retry:recurs times:recurs constant:spaced upTo:within; do
  input "{\"${words%:*}\":1}"
  wants 3 "top: no node is called \"${words%:*}\"; did you mean \"${words#*:}\"?\n" 'zsched: not a plan\n' check
done
input '{"\\u001b[31mrecurs\\nplan: 1 node":3}'
wants 3 'top: no node is called "\\u001b[31mrecurs\\u000aplan: 1 node"\n' 'zsched: not a plan\n' check
input '{"exponential":[100,1.5]}'
more=', got {"exponential":[100,1.5]}; a factor of 1.5 is 1500 in "exponential_milli"'
wants 3 "top: expected {\"exponential\":[D,F]}, D from 0 to $((past_far - 1)), F from 1 to 1000$more\n" \
  'zsched: not a plan\n' check
input '{"first":{"fixed":0}}'
wants 3 "first: expected {\"fixed\":D}, D from 1 to $((past_far - 1)), got {\"fixed\":0}\n" 'zsched: number out of range\n' check
printf '{"first":%s}' "$deep" >"$work/in"
wants 3 'first: expected a plan at most 32 deep\n' 'zsched: too deep\n' check
printf '%s' "$wide" >"$work/in"
wants 3 'top: expected a plan of at most 256 nodes\n' 'zsched: too many nodes\n' check
input "[$lost,$lost,$lost,{\"plan\":7,\"runs\":[]}]"
wants 3 '[3].runs: expected 1 to 64 runs, got 0\n' 'zsched: number out of range\n' check
input "[$lost,7]"
wants 3 '[1]: expected {"plan":PLAN,"runs":[RUN,..]}, got 7\n' 'zsched: not a plan\n' check
input "[{\"plan\":7,\"runs\":[{\"won\":1},{\"won\":$past_far}]}]"
wants 3 "[0].runs[1]: expected {\"won\":CODE} or {\"lost\":CODE}, CODE from 0 to $((past_far - 1)), \
got {\"won\":$past_far}\n" \
  'zsched: number out of range\n' check
input "[$lost,{\"plan\":{\"join\":[\"forever\",null]},\"runs\":[{\"won\":1}]}]"
wants 3 '[1].plan.join[1]: expected a plan, a string or an object with one member, got null\n' 'zsched: not a plan\n' check
{ printf '[]'; head -c 1048575 /dev/zero | tr '\0' ' '; } >"$work/in"
wants 3 '' 'zsched: input too long\n' check

# A storm of one request, which the peer refuses at 0 and serves at 10: its rows, its totals, and a storm that is cut.
# tests/check_storms.py looks at more of them.
one='--rate 1 --seconds 1 --outage 0..5'
names='from,requests,won,retries,succeeded,refused,shed,late,waiting\n'
input '{"meet":[{"recurs":1},{"spaced":10}]}'
cp "$work/in" "$work/one.json"
wants 0 "${names}0,1,1,1,1,1,0,0,0\n" '' storm $one --csv
wants 0 "${names}0,1,1,1,1,1,0,0,0\n" '' storm $one --csv -
input ''
wants 0 "${names}0,1,1,1,1,1,0,0,0\n" '' storm $one --csv "$work/one.json"
totals='"requests":1,"won":1,"lost":0,"denied":0,"open":0,"calls":2,"hundredths":200,"most_calls":2,"most_from":0,"tickets":1,'
totals+='"p50":11,"p99":11,"slowest":11,"recovered":null,"cut":false'
wants 0 "{\"windows\":[[0,1,1,1,1,1,0,0,0]],\"totals\":{$totals}}\n" '' storm $one --quota 1/0%/1s --json "$work/one.json"
input '"forever"'
wants 6 "${names}0,1,0,4,0,5,0,0,0\n" 'zsched: not finished\n' storm $one --calls 5 --csv
wants 4 '' "zsched: read failed\n$work/none.json: No such file or directory (os error 2)\n" storm "$work/none.json"
# Two requests come at 0 and at 500: the first makes a second call at 10, and the second one ends at 501.
input '{"meet":[{"recurs":1},{"spaced":10}]}'
names='rate,requests,won,lost,denied,open,calls,hundredths,most_calls,most_from,tickets,p50,p99,slowest,recovered,cut\n'
wants 0 "${names}1,1,1,0,0,0,2,200,2,0,0,11,11,11,,false\n2,2,2,0,0,0,3,150,3,0,0,1,11,11,,false\n" '' \
  storm $one --sweep rate=1,2 --csv
input '"forever"'
wants 6 "${names}1,1,0,0,0,1,5,500,5,0,0,,,,,true\n" 'zsched: not finished\n' storm $one --calls 5 --sweep rate=1 --csv
# Populations. Four requests come at 0, and the peer refuses each. The second population has the first request and the
# third, whose places among a hundred are 0 and 22; those of the others are 61 and 83. With one ticket the first
# population makes one call more, at 10. The second one draws on nothing, and makes both of its calls at 20.
input '{"meet":[{"recurs":1},{"spaced":10}]}'
cp "$work/in" "$work/in.json"
printf '{"meet":[{"recurs":1},{"spaced":20}]}' >"$work/b"
four='--rate 4 --together 4 --seconds 1 --outage 0..5'
columns='from,requests,won,retries,succeeded,refused,shed,late,waiting\n'
some='4 requests: 3 won, 0 lost, 1 denied a retry, 0 left open
7 calls, 1.75 for each request
the most in a window are 7, from 0 ms
1 ticket of 1 given
won after 21 ms (50 in 100), 22 ms (99 in 100), 22 ms (all)
never recovered
                       all             -             b
share %                100            70            30
requests                 4             2             2
won                      3             1             2
lost                     0             0             0
denied                   1             1             0
open                     0             0             0
calls                    7             3             4
for each              1.75          1.50          2.00
most calls               7             3             4
tickets                  1             1             0
50 in 100 ms            21            11            21
99 in 100 ms            22            11            22
slowest ms              22            11            22
recovered ms         never         never             -
'
cd "$work"
wants 0 "  won %  from ms  requests  retries  failed  waiting  # request, + retry
     75        0         4        3       4        0  ###############+++++++++++
                                                      0                  7 calls
$some" '' storm $four --budget 1 --beside 30=b
wants 0 "  from  requests  won  retries  succeeded  refused  shed  late  waiting
     0         4    3        3          3        4     0     0        0
$some" '' storm $four --budget 1 --beside 30=b --plain
wants 0 "${columns}0,4,3,3,3,4,0,0,0\n" '' storm $four --budget 1 --beside 30=b --csv
wants 0 "{\"windows\":[[0,4,3,3,3,4,0,0,0]],\
\"totals\":{\"requests\":4,\"won\":3,\"lost\":0,\"denied\":1,\"open\":0,\"calls\":7,\"hundredths\":175,\"most_calls\":7,\
\"most_from\":0,\"tickets\":1,\"p50\":21,\"p99\":22,\"slowest\":22,\"recovered\":null,\"cut\":false},\
\"populations\":[{\"share\":70,\"windows\":[[0,2,1,1,1,2,0,0,0]],\
\"totals\":{\"requests\":2,\"won\":1,\"lost\":0,\"denied\":1,\"open\":0,\"calls\":3,\"hundredths\":150,\"most_calls\":3,\
\"most_from\":0,\"tickets\":1,\"p50\":11,\"p99\":11,\"slowest\":11,\"recovered\":null,\"cut\":false}},\
{\"share\":30,\"windows\":[[0,2,2,2,2,2,0,0,0]],\
\"totals\":{\"requests\":2,\"won\":2,\"lost\":0,\"denied\":0,\"open\":0,\"calls\":4,\"hundredths\":200,\"most_calls\":4,\
\"most_from\":0,\"tickets\":0,\"p50\":21,\"p99\":22,\"slowest\":22,\"recovered\":null,\"cut\":false}}]}\n" '' \
  storm $four --budget 1 --beside 30=b --json
# A call takes 10 ms. A client of the second population waits for 5 of them, or for as long as any in the storm.
late='--rate 1 --seconds 1 --outage 0..0 --capacity 100 --csv'
printf '{"recurs":0}' >"$work/a=b@1+2"
wants 0 "${columns}0,1,0,0,0,0,0,1,0\n" '' storm $late --beside 1@5=a=b@1+2
wants 0 "${columns}0,1,1,0,1,0,0,0,0\n" '' storm $late --beside 1=a=b@1+2
names='patience,requests,won,lost,denied,open,calls,hundredths,most_calls,most_from,tickets,p50,p99,slowest,recovered,cut\n'
wants 0 "${names}5,1,0,1,0,0,1,100,1,0,0,,,,,false\n500,1,1,0,0,0,1,100,1,0,0,10,10,10,0,false\n" '' \
  storm $late --beside 1=a=b@1+2 --sweep patience=5,500
wants 0 "${names}5,1,1,0,0,0,1,100,1,0,0,10,10,10,0,false\n" '' storm $late --beside 1@500=a=b@1+2 --sweep patience=5

# Three requests come at 0, and the peer has room for two of them: 66.67 %, rounded to the nearest.
printf '{"recurs":0}' >"$work/once"
three='--rate 3 --together 3 --seconds 1 --outage 0..0 --queue 2'
wants 0 "  won %  from ms  requests  retries  failed  waiting  # request, + retry
     67        0         3        0       1        0  ##########################
                                                      0                  3 calls
3 requests: 2 won, 1 lost, 0 denied a retry, 0 left open
3 calls, 1.00 for each request
the most in a window are 3, from 0 ms
won after 1 ms (50 in 100), 2 ms (99 in 100), 2 ms (all)
never recovered
" '' storm $three once
wants 0 "  won %  queue  calls for each  slowest ms  recovered ms
   66.7      2            1.00           2         never  ###############
  100.0      3            1.00           3             0  ######################
                                                          0                100 %
" '' storm $three --sweep queue=2,3 once

# added SHARE..: in the JSON of a storm of populations with these shares, in a line of standard input, of each hundred
# requests each population has its share, and what is counted of the populations, in all and in each window, adds up to
# what is counted of all requests.
added() {
  sed 's/"windows":/\n/g' | awk -v wanted="$*" '
    function number(text, name) {
      return match(text, "\"" name "\":[0-9]+") ? substr(text, RSTART + length(name) + 3, RLENGTH - length(name) - 3) : "none"
    }
    NR == 1 { next }
    {
      sign = NR == 2 ? 1 : -1
      for (at = split("requests won lost denied open calls tickets", names, " "); at > 0; at--) {
        sum[names[at]] += sign * number($0, names[at])
      }
      windows = substr($0, 3, index($0, "]]") - 3)
      for (at = split(windows, rows, /\],\[/); at > 0; at--) {
        split(rows[at], cells, ",")
        for (cell = 2; cell <= 8; cell++) sum[cells[1] " " cell] += sign * cells[cell]
        if (NR > 2 && cells[9] != 0) wrong = 1
      }
      if (NR == 2) { all = number($0, "requests"); if (all == 0 || all % 100 != 0) wrong = 1 }
      else if (number($0, "requests") * 100 != share * all) wrong = 1
      share = number($0, "share")
      if (share != "none") shares = shares (shares == "" ? "" : " ") share
    }
    END { for (key in sum) if (sum[key] != 0) wrong = 1; exit wrong || shares != wanted }'
}

cp "$top/plans/back-off.json" "$top/plans/three-times.json" "$work"
several='--beside 30@2000+limited=three-times.json --beside 9@700=back-off.json --beside 20=three-times.json'
for limit in '' '--budget 100' '--quota 10/10%/1s' '--limit grpc:100/100'; do
  # shellcheck disable=SC2086
  "$zsched" storm --json $limit $several back-off.json >"$work/out" && added 41 30 9 20 <"$work/out" ||
    { echo "tests/program.sh: zsched storm $limit $several: the populations do not add up" >&2; failed=1; }
done
# Populations that are alike are one: what is told of all requests is what is told without them.
for words in '' --csv --plain --json '--sweep rate=400,800' '--sweep rate=400,800 --json'; do
  # shellcheck disable=SC2086
  "$zsched" storm --quota 10/10%/1s $words back-off.json >"$work/alone"
  # shellcheck disable=SC2086
  "$zsched" storm --quota 10/10%/1s $words --beside 20+limited=back-off.json --beside 30@500+limited=back-off.json back-off.json |
    sed 's/,"populations":.*/}/; /^                       all  /,$d' >"$work/out"
  cmp -s "$work/alone" "$work/out" || { echo "tests/program.sh: zsched storm $words: populations that are alike" >&2; failed=1; }
done
# The first request waits, and the second makes its calls at once until the storm is cut, which is not finished then. A
# further plan that is refused is told with its file.
input '"forever"'
wants 6 "${columns}0,2,0,3,0,5,0,0,0\n" 'zsched: not finished\n' storm $four --calls 5 --beside 30=b --csv
wants 4 '' 'zsched: read failed\nnone.json: No such file or directory (os error 2)\n' storm --beside 5=b --beside 30=none.json
wants 4 '' 'zsched: read failed\n-: No such file or directory (os error 2)\n' storm --beside 30=- --beside 30=-
printf '{"fixed":0}' >"$work/bad.json"
refuses 'number out of range' 'bad.json: top: expected {"fixed":D}, D from 1 to 4611686018427387903, got {"fixed":0}' \
  storm --beside 5=b --beside 30=bad.json
cd "$OLDPWD"
beside='--beside <PERCENT[@PATIENCE][+limited]=FILE>'
spelt='expected a percentage and a file, such as 30=plans/back-off.json or 30@2000+limited=plans/back-off.json; '
spelt+='PERCENT is from 1 to 99, and PATIENCE from 1 to 3600000'
for word in 0=x 100=x =x 30= 30 30x=x 1.5=x -1=x 30@0=x 30@3600001=x 30@5000000=x 30@=x 30@5@5=x @5=x 30+=x 30+unlimited=x \
  30+limited+limited=x 30+limited@5=x 18446744073709551617=x; do
  bad "invalid value '$word' for '$beside': $spelt" storm --beside="$word"
done
bad "invalid value '30@0=x' for '$beside': $spelt" storm --beside 30=x --beside 30@0=x
bad "'$beside' has more than 99 per cent of the requests" storm --beside 40=x --beside 40=x --beside 20=x
bad "the argument '$beside' cannot be used more than 3 times" storm --beside 1=x --beside 1=x --beside 1=x --beside 1=x
bad "the argument '$beside' cannot be used with '--compare <FILE>'" storm --beside 30=x --compare x
bad "the argument '--limit <LIMIT>' cannot be used multiple times without '--compare <FILE>'" \
  storm --beside 30=x --limit aws --limit grpc:1/1

# Of a further plan that is refused the file is told too.
wants 4 '' "zsched: read failed\n$work/none.json: No such file or directory (os error 2)\n" storm --compare "$work/none.json"
wants 4 '' "zsched: read failed\n$work: Is a directory (os error 21)\n" storm --compare "$work"
printf '{"fixed":0}' >"$work/bad.json"
refuses 'number out of range' \
  "$work/bad.json: top: expected {\"fixed\":D}, D from 1 to 4611686018427387903, got {\"fixed\":0}" \
  storm $one --compare "$work/one.json" --compare "$work/bad.json"
head -c 1048577 /dev/zero >"$work/long.json"
refuses 'input too long' "$work/long.json: more than 1048576 bytes" storm --compare "$work/long.json"
input 7
refuses 'not a plan' 'top: expected a plan, a string or an object with one member, got 7' storm --compare "$work/bad.json"
{ printf '"forever"'; head -c 1048568 /dev/zero | tr '\0' ' '; } >"$work/in"
wants 3 '' 'zsched: input too long\n' storm
bad "invalid value '0' for '--rate <N>': 0 is not in 1..=1000000" storm --rate 0
bad "'--rate <N>' times '--seconds <S>' is more than 1048576 requests" storm --rate 17477
bad "'--until <M>' has more than 65536 times '--window <M>'" storm --window 1
bad "'--down <N>' is more than '--replicas <N>'" storm --down 2
spelt='expected milliseconds, such as 10000..20000; FROM is at most TO, and TO at most 3600000'
for span in 5..1 5 .. a..b 0..3600001 -1..5; do
  bad "invalid value '$span' for '--outage <FROM..TO>': $spelt" storm --outage="$span"
done
spelt="expected milliseconds and a percentage, such as 10000..20000@50; FROM is at most TO, TO at most 3600000, and PERCENT from 1 to 100"
for span in 0..1 0..1@0 0..1@101 1..0@50 0..3600001@50; do
  bad "invalid value '$span' for '--slow <FROM..TO@PERCENT>': $spelt" storm --slow="$span"
done
bad "invalid value 'flood' for '--scenario <NAME>': expected outage, herd or brown-out" storm --scenario flood
bad .. storm --quota 1/2
bad .. storm --quota 1/2/300 --budget 1
bad .. storm --csv --json
bad .. storm --csv --compare "$work/one.json"
bad "invalid value 'rats=1' for '--sweep <NAME=VALUES>': expected a parameter and its values, such as rate=200..1600/8; \
the parameters are rate, clients, together, capacity, queue, patience, outage, share, reserve, budget and beside" storm --sweep rats=1
bad "invalid value 'rate=2,1' for '--sweep <NAME=VALUES>': expected 1 to 64 values, each greater than the one before, \
such as rate=200..1600/8 or rate=200,400" storm --sweep rate=2,1
bad "invalid value 'share=1' for '--sweep <NAME=VALUES>': expected values in the range of the parameter; \
a share and a reserve are of --quota, a budget of --budget, and beside of --beside" storm --sweep share=1

# Standard input that is a folder can't be read, but a bad command line is refused before anything is.
rm "$work/in"
mkdir "$work/in"
for word in plan pool storm check; do
  wants 4 '' 'zsched: read failed\nstandard input: Is a directory (os error 21)\n' $word
done
bad .. plan --none
bad .. pool --workers 17
bad .. storm --outage 5..1
rmdir "$work/in"

# A full device can't be written, and says why.
printf 'zsched: write failed\nstandard output: No space left on device (os error 28)\n' >"$work/err.want"
for words in plan pool 'storm --rate 1 --seconds 1' check; do
  got=0
  case $words in pool) input '[]' ;; *) input '"forever"' ;; esac
  # shellcheck disable=SC2086
  "$zsched" $words <"$work/in" >/dev/full 2>"$work/err" || got=$?
  [ "$got" = 4 ] && cmp -s "$work/err" "$work/err.want" ||
    { echo "tests/program.sh: zsched $words: a write that fails: status $got" >&2; failed=1; }
done

# A pipe that nobody reads ends it without a word.
input '"forever"'
for words in 'plan --steps 4096' 'storm --rate 1 --seconds 1' check --help; do
  got=0
  exec 3> >(:)
  wait "$!"
  # shellcheck disable=SC2086
  "$zsched" $words <"$work/in" >&3 2>"$work/err" || got=$?
  exec 3>&-
  [ "$got" = 4 ] && ! [ -s "$work/err" ] ||
    { echo "tests/program.sh: zsched $words: a pipe that nobody reads: status $got; errors $(cat "$work/err")" >&2; failed=1; }
done

# Before it reads a text from a terminal it says so; a file that is named, it reads without a word.
python3 - "$zsched" "$work/in" <<'EOF' || { echo "tests/program.sh: zsched on a terminal" >&2; failed=1; }
import os, pty, subprocess, sys

def run(*words):
    leader, follower = pty.openpty()
    with subprocess.Popen(words, stdin=follower, stdout=subprocess.PIPE, stderr=subprocess.PIPE) as program:
        os.close(follower)
        os.write(leader, b'"forever"\n\x04')
        output, errors = program.communicate(timeout=60)
    os.close(leader)
    return program.returncode, output, errors

program, file = sys.argv[1:]
said = b"zsched: reading JSON from the terminal; Ctrl-D ends it\n"
results = [run(program, "plan", "--steps", "1"), run(program, "plan", "--steps", "1", file)]
sys.exit(results != [(0, b"0: 0 next 0\n", said), (0, b"0: 0 next 0\n", b"")])
EOF

if [ "$failed" = 0 ]; then
  echo "tests/program.sh: every run of the program is as wanted"
else
  exit 1
fi
