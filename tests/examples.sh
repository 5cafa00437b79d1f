#!/usr/bin/env bash
# Runs the built examples on the system's clock: example_retry with a file that is made 300 ms after it was started,
# with none and with no word; and what example_repeat and example_pool print on standard error. bin/build builds them.
set -euo pipefail
top=$(cd "$(dirname "${BASH_SOURCE[0]}")/.." && pwd)
work=$(mktemp -d)
trap 'rm -rf "$work"' EXIT
cd "$work"
failed=0

fails() {
  echo "tests/examples.sh: $*; output $(head -c 200 out); errors $(head -c 400 err)" >&2
  failed=1
}

millis() { echo $(($(date +%s%N) / 1000000)); }

# runs EXAMPLE WORD..: its status, how long it took, and what it wrote to out and err
runs() {
  local program=$top/crates/$1/out/$1 begin
  begin=$(millis)
  status=0
  "$program" "${@:2}" >out 2>err </dev/null || status=$?
  took=$(($(millis) - begin))
}

# in_time CHECK..: whether this holds at one of twenty runs, where a busy machine may hold some of them up
in_time() {
  for _ in {1..20}; do ! "$@" || return 0; done
  return 1
}

# waits_for_its_file: example_retry, and its file 300 ms later, which comes after the first retries and before the last one
waits_for_its_file() {
  rm -f late.txt
  "$top/crates/example_retry/out/example_retry" late.txt >out 2>err </dev/null &
  sleep 0.3
  echo 'Here at last.' >late.new
  mv late.new late.txt
  status=0
  wait $! || status=$?
  [ "$status" = 0 ] && [ "$(cat out)" = 'Here at last.' ] && grep -qx '[23] retries' err
}

# The retries begin 80 to 120, 240 to 360 and 560 to 840 ms after the first run.
in_time waits_for_its_file || fails "example_retry, whose file comes after 300 ms: status $status"

# gives_up: example_retry with no file: its four delays are 1500 ms, each made up to a fifth shorter or longer
gives_up() {
  runs example_retry missing.txt
  printf '4 retries\nError: No such file or directory (os error 2)\n' >err.want
  [ "$status" = 1 ] && [ ! -s out ] && cmp -s err err.want && [ "$took" -ge 1200 ] ||
    fails "example_retry with no file: status $status after $took ms"
  [ "$took" -lt 2400 ]
}
in_time gives_up || fails "example_retry with no file: it took $took ms"

runs example_retry
[ "$status" = 1 ] && [ ! -s out ] && [ "$(cat err)" = 'Error: usage: example_retry FILE' ] ||
  fails "example_retry with no word: status $status"

# Polls from the first one to one at 1000 ms or later, none before its boundary.
echo 'Here at once.' >note.txt
runs example_repeat note.txt
[ "$status" = 0 ] && [ "$(cat out)" = '14 bytes' ] && [ "$took" -ge 1000 ] && awk '
  $0 != "polled at " $3 + 0 " ms, " $3 % 100 " ms past a boundary" { wrong = 1 }
  NR == 1 ? $3 != 0 : $3 < last { wrong = 1 }
  { last = $3 }
  END { exit wrong || NR < 2 || NR > 11 || last < 1000 }
' err || fails "example_repeat: status $status after $took ms"

# tells_of_calls: example_pool: as many calls over as before or more, in the end all, told more than once
tells_of_calls() {
  runs example_pool
  [ "$status" = 0 ] && [ "$(cat out)" = '200 calls were answered after 99 retries' ] && awk '
    !/^[0-9]+ of 200 are over$/ { wrong = 1 }
    { if ($1 + 0 < last) wrong = 1; last = $1 + 0 }
    END { exit wrong || last != 200 }
  ' err || fails "example_pool: status $status"
  [ "$(wc -l <err)" -ge 2 ]
}
in_time tells_of_calls || fails 'example_pool: it told of its calls once'

[ "$failed" = 0 ] && echo "tests/examples.sh: the examples did on the system's clock what they say"
