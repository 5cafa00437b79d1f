#!/usr/bin/env bash
# Calls the library from C, linked and loaded: 300 random policies have the courses that `zsched plan` prints, retries end as
# `zsched pool` says, handles that are empty, full or of another kind are refused and nothing is lost, 16 threads draw
# 10,000,000 tickets, each once, and valgrind finds no error and no leak. Each growth is refused in turn. HIKEBOX_LIB_DIR
# names the folder of the files that bin/dist made, dist/ where it does not.
set -euo pipefail
top=$(cd "$(dirname "${BASH_SOURCE[0]}")/.." && pwd)
work=$(mktemp -d)
trap 'rm -rf "$work"' EXIT
failed=0

wrong() {
  echo "tests/library.sh: $*" >&2
  failed=1
}

# block NUMBER: prints this one of the blocks of C in docs/C.md
block() {
  awk -v wanted="$1" '/^```c$/ { found++; inside = found == wanted; next } /^```$/ { inside = 0 } inside' "$top/docs/C.md"
}

dist=${HIKEBOX_LIB_DIR:-$top/dist}
zsched=$dist/zsched
python3 "$top/tests/exports.py" || failed=1
"$top/bin/bindings" --check || failed=1
flags=(-std=gnu11 -Wall -Wextra -Werror -O1 "-I$dist" -pthread)
cc "${flags[@]}" -o "$work/linked" "$top/tests/library.c" "$top/tests/policies.c" "$top/tests/leases.c" "$top/tests/structs.c" "$top/tests/limits.c" "$top/tests/looks.c" "$top/tests/states.c" "$top/tests/paces.c" "$dist/libhikebox.a"
"$top/bin/install" --prefix "$work/home/.local" >"$work/out"
cc "${flags[@]}" -o "$work/loaded" "$top/tests/library.c" "$top/tests/policies.c" "$top/tests/leases.c" "$top/tests/structs.c" "$top/tests/limits.c" "$top/tests/looks.c" "$top/tests/states.c" "$top/tests/paces.c" "-L$dist" "-Wl,-rpath,$work/home/.local/lib" -lhikebox
cc "${flags[@]}" -o "$work/retry" "$top/examples/c/retry.c" "$dist/libhikebox.a"
for standard in c++98 c++20; do
  c++ "-std=$standard" -Wall -Wextra -pedantic -Werror -Wno-long-long "-I$dist" -o "$work/header" "$top/tests/header.cc" \
    "$dist/libhikebox.a" && "$work/header" || wrong "the header in $standard"
done
exported=$(nm -D --defined-only "$dist/libhikebox.so" | awk '$2 == "T" { print $NF }' | LC_ALL=C sort)
shown=$(nm --defined-only "$dist/libhikebox.a" 2>/dev/null | awk '$2 ~ /^[A-Z]$/ { print $3 }' | LC_ALL=C sort)
declared=$(sed -nE 's/^(.* )?(hikebox_status |const char \*)(hikebox_[a-z_]*)\(.*/\3/p' "$top/include/hikebox.h" | LC_ALL=C sort)
[ "$exported" = "$(sed 's/$/@@HIKEBOX_1.0/' <<<"$declared")" ] || wrong "libhikebox.so has other calls than hikebox.h"
[ "$shown" = "$declared" ] || wrong "libhikebox.a shows other names than the calls of hikebox.h"

# Beside another library that Rattle built, here the same one by other names, with all of both in one program.
# shellcheck disable=SC2046
objcopy $(sed 's/hikebox_\(.*\)/--redefine-sym hikebox_\1=other_\1/' <<<"$declared") "$dist/libhikebox.a" "$work/libother.a"
printf '#include <stdio.h>\nconst char *hikebox_version(void), *other_version(void);\nint main(void) { return puts(hikebox_version()) < 0 || puts(other_version()) < 0; }\n' >"$work/two.c"
cc -o "$work/two" "$work/two.c" -Wl,--whole-archive "$dist/libhikebox.a" "$work/libother.a" -Wl,--no-whole-archive &&
  [ "$("$work/two" | sort -u)" = "$(<"$top/VERSION")" ] || wrong "libhikebox.a can't be linked beside another library of Rattle"

# The versions of glibc that docs/INSTALL.md names.
for file in libhikebox.so zsched; do
  latest=$(readelf -V "$dist/$file" | grep -oE 'GLIBC_2\.[0-9]+' | cut -d . -f 2 | sort -n | tail -n 1)
  [ "$latest" = 14 ] || wrong "$file asks for glibc 2.$latest"
done

# The example, with no warning, and by the lines of docs/C.md and README.md: two runs fail, and the third succeeds.
printf 'run 1: 503\nrun 2: 503\nrun 3: 200\nwon after 3 runs, 2 retries granted\n2 tickets drawn of the budget\n' >"$work/want"
"$work/retry" >"$work/out" && cmp -s "$work/out" "$work/want" || wrong "examples/c/retry.c: $(cat "$work/out")"
mkdir "$work/page"
ln -s "$top/examples" "$work/page/examples"
ln -s "$(realpath "$dist")" "$work/page/dist"
grep '^cc examples/c/retry.c ' "$top/docs/C.md" >"$work/lines" || wrong "docs/C.md has no line that builds the example"
grep '^cc examples/c/retry.c ' "$top/README.md" >>"$work/lines" || wrong "README.md has no line that builds the example"
while IFS= read -r line; do
  (cd "$work/page" && HOME=$work/home sh -c "$line") >"$work/out" && cmp -s "$work/out" "$work/want" || wrong "$line: $(cat "$work/out")"
done <"$work/lines"

# Its waits are whole, also where a run ends within a millisecond: those that it has where runs end at whole ones.
cc "${flags[@]}" -shared -fPIC -o "$work/waits.so" "$top/tests/waits.c"
LD_PRELOAD=$work/waits.so LATE=0 "$work/retry" 9>"$work/whole" >"$work/out"
[ "$(wc -l <"$work/whole")" = 2 ] || wrong "examples/c/retry.c makes other waits: $(cat "$work/whole")"
for late in 1 840000 999999; do
  LD_PRELOAD=$work/waits.so LATE=$late "$work/retry" 9>"$work/waits" >"$work/out"
  paste "$work/whole" "$work/waits" | awk '{ if ($2 < $1 || $2 >= $1 + 1000000) exit 1 }' ||
    wrong "examples/c/retry.c, $late ns late, waits $(xargs <"$work/waits") and not $(xargs <"$work/whole")"
done

# The second to sixth block of docs/C.md and the eighth, in functions that have what they name. The first stands in
# examples/c/poll.c, and the seventh in examples/c/storm.c.
{
  printf '#include <hikebox.h>\n#include <stdio.h>\nuint64_t now(void);\n'
  printf 'void wait_until(uint64_t moment);\nbool fetch(void);\n'
  printf 'int by_runs(hikebox_policy policy, hikebox_pass pass, uint64_t began);\n'
  printf 'int by_runs(hikebox_policy policy, hikebox_pass pass, uint64_t began) {\n'
  block 2
  printf 'return 0;\n}\nint by_deadline(hikebox_policy policy, hikebox_pass pass);\n'
  printf 'int by_deadline(hikebox_policy policy, hikebox_pass pass) {\n'
  block 3
  printf 'return 0;\n}\nint by_nodes(void);\nint by_nodes(void) {\n'
  block 4
  printf 'return 0;\n}\nint program(hikebox_policy policy);\nint program(hikebox_policy policy) {\n'
  block 5
  printf 'return 0;\n}\nhikebox_stored load(int file);\nvoid store(int file, const hikebox_stored *stored);\n'
  printf 'uint64_t clock_of(int file);\nint lease(int file, hikebox_leased leased);\n'
  printf 'int lease(int file, hikebox_leased leased) {\n'
  block 6
  printf 'return 0;\n}\n'
  printf 'int populations(hikebox_policy policy, hikebox_storm storm, hikebox_window *windows);\n'
  printf 'int populations(hikebox_policy policy, hikebox_storm storm, hikebox_window *windows) {\n'
  printf 'hikebox_place place;\nhikebox_totals totals = HIKEBOX_TOTALS;\n'
  block 8
  printf 'return 0;\n}\n'
} >"$work/page.c"
cc "${flags[@]}" -c -o "$work/page.o" "$work/page.c" || wrong "docs/C.md: its blocks are not compiled"

python3 - "$top/examples/c/poll.c" "$(block 1)" <<'EOF' || wrong "docs/C.md: its block is not that of examples/c/poll.c"
import sys
sys.exit(not sys.argv[2].strip() or sys.argv[2] not in open(sys.argv[1]).read())
EOF

python3 - "$top/examples/c/storm.c" "$(block 7)" <<'EOF' || wrong "docs/C.md: its block is not that of examples/c/storm.c"
import sys
sys.exit(not sys.argv[2].strip() or sys.argv[2] not in open(sys.argv[1]).read())
EOF

# The storm that never ends, and the same under a quota: 7.62 and 1.02 calls for each request. Under a quota for seven
# tenths of the requests it never ends either: 1.10 calls for each of these, and 7.46 for each of the others.
cc "${flags[@]}" -o "$work/storm" "$top/examples/c/storm.c" "$dist/libhikebox.a"
cat >"$work/want" <<'EOF'
no limit: 365567 calls for 48000 requests in 81 windows, never recovered
a quota: 48900 calls for 48000 requests in 60 windows, recovered at 20000 ms
a quota for 70 %: 144273 calls for 48000 requests in 80 windows, never recovered
these 70 %: 36834 calls for 33600 requests in 61 windows, never recovered
the other 30 %: 107439 calls for 14400 requests in 80 windows, never recovered
EOF
"$work/storm" >"$work/out" && cmp -s "$work/out" "$work/want" || wrong "examples/c/storm.c: $(cat "$work/out")"

# A budget in a file: eight processes draw its 1,000 tickets, each once. A file that is cut off grants nothing.
cc "${flags[@]}" -o "$work/lease" "$top/examples/c/lease.c" "$dist/libhikebox.a"
"$work/lease" "$work/counts" new || wrong "examples/c/lease.c makes no file"
for words in 1 2 3 4 5 6 7 8; do "$work/lease" "$work/counts" 1000 >"$work/drawn.$words" & done
wait
sort -n "$work"/drawn.* | cmp -s - <(seq 0 999) || wrong "examples/c/lease.c: $(cat "$work"/drawn.* | wc -l) tickets"
: >"$work/counts"
! "$work/lease" "$work/counts" 1 >"$work/out" 2>&1 && [ "$(cat "$work/out")" = 'expected 24 bytes of counts, got less' ] ||
  wrong "examples/c/lease.c draws of a file that is cut off: $(cat "$work/out")"
"$work/lease" "$work/full" new
status=0
"$work/lease" "$work/full" 5 >/dev/full 2>"$work/err" || status=$?
[ "$status" = 1 ] && [ "$(cat "$work/err")" = 'standard output: No space left on device' ] ||
  wrong "examples/c/lease.c on a full disk: $status, $(cat "$work/err")"
cp "$work/full" "$work/before"
status=0
"$work/lease" "$work/full" 5 2>"$work/err" >&- || status=$?
[ "$status" = 1 ] && [ "$(cat "$work/err")" = 'standard output: Bad file descriptor' ] && cmp -s "$work/full" "$work/before" ||
  wrong "examples/c/lease.c without a standard output: $status, $(cat "$work/err")"

# Words that the examples don't take.
# mistakes STATUS LINE WORD..: an example ends so and says this line on standard error, and nothing else
mistakes() {
  local want=$1 line=$2 status=0
  "${@:3}" >"$work/out" 2>"$work/err" </dev/null || status=$?
  [ "$status" = "$want" ] && [ ! -s "$work/out" ] && [ "$(cat "$work/err")" = "$line" ] ||
    wrong "${*:3}: $status, $(cat "$work/out" "$work/err")"
}
mistakes 2 'retry: expected no words, got "x"' "$work/retry" x
mistakes 2 'storm: expected no words, got "-v"' "$work/storm" -v y
mistakes 2 'lease: expected 2 words, FILE and a number of tickets or `new`, got 1' "$work/lease" "$work/counts"
for word in '' x 5x -5 ' 5' 1e3 1000000000; do
  mistakes 2 "lease: expected a number of tickets below 1000000000 or \`new\`, got \"$word\"" "$work/lease" "$work/counts" "$word"
done
mistakes 0 '' "$work/lease" "$work/new" new
mistakes 0 '' "$work/lease" "$work/new" 000000000

# A loop of poll(): it hears a line while it waits, and connects once something listens; with nothing there it tells the fault.
cc "${flags[@]}" -o "$work/poll" "$top/examples/c/poll.c" "$dist/libhikebox.a"
for word in '' x 80x -1 0 65536 123456; do
  mistakes 2 "connect: expected one port from 1 to 65535, got \"$word\"" "$work/poll" "$word"
done
mistakes 2 'connect: expected one port from 1 to 65535, got ""' "$work/poll"
mistakes 2 'connect: expected one port from 1 to 65535, got "81"' "$work/poll" 80 81
# The server listens once a connection was refused, and has a second port, on which it never listens.
cc "${flags[@]}" -shared -fPIC -o "$work/listens.so" "$top/tests/listens.c" -ldl
printf 'heard a line\nconnected after retries\n' >"$work/want"
mkfifo "$work/asks" "$work/says" "$work/input"
python3 -c 'import socket, sys
listener, closed = socket.socket(), socket.socket()
for each in (listener, closed):
    each.bind(("127.0.0.1", 0))
print(listener.getsockname()[1], closed.getsockname()[1], flush=True)
sys.stdin.readline()
listener.listen()
print("listens", flush=True)
sys.stdin.read()' <"$work/asks" >"$work/says" &
server=$!
exec 7<>"$work/input" 8>"$work/asks" 9<"$work/says"
read -r port closed <&9
printf 'a line\n' >&7
LD_PRELOAD=$work/listens.so "$work/poll" "$port" <&7 >"$work/out" && cmp -s "$work/out" "$work/want" ||
  wrong "examples/c/poll.c: $(cat "$work/out")"
status=0
"$work/poll" "$closed" </dev/null >"$work/out" || status=$?
[ "$status" = 1 ] && [ "$(cat "$work/out")" = 'Connection refused after retries' ] || wrong "examples/c/poll.c: $status, $(cat "$work/out")"
cc "${flags[@]}" -shared -fPIC -o "$work/refused.so" "$top/tests/refused.c" -ldl
status=0
LD_PRELOAD=$work/refused.so "$work/poll" "$closed" </dev/null >"$work/out" || status=$?
[ "$status" = 1 ] && [ "$(cat "$work/out")" = 'Connection refused after retries' ] ||
  wrong "examples/c/poll.c, refused by connect(): $status, $(cat "$work/out")"
exec 7>&- 8>&- 9<&-
wait "$server"

# Policies along their courses: each event as the others, and each with an input and words of its own.
python3 "$top/tests/random_policies.py" 300 18 >"$work/policies"
count=0 refused=0
while IFS=$'\t' read -r options policy; do
  read -r steps from took input word <<<"$options"
  count=$((count + 1))
  status=0 said=0
  printf '%s' "$policy" | "$zsched" plan --steps "$steps" --from "$from" --took "$took" --input "$input" \
    --word "$word" >"$work/want" 2>/dev/null || status=$?
  printf '%s' "$policy" | "$work/linked" plan "$steps" "$from" "$took" "$input" "$word" >"$work/out" || said=$?
  if [ "$status" != 0 ]; then
    refused=$((refused + 1))
    [ "$said" -ge 10 ] && [ "$said" -le 14 ] || wrong "plan $policy: status $said where zsched's is $status"
    printf '%s' "$policy" | "$zsched" check >"$work/want" 2>/dev/null || true
    printf '%s' "$policy" | "$work/linked" fault >"$work/out" && cmp -s "$work/out" "$work/want" ||
      wrong "fault $policy: $(cat "$work/out"), wanted $(cat "$work/want")"
    continue
  fi
  [ "$said" = 0 ] && cmp -s "$work/out" "$work/want" ||
    wrong "plan $policy $options: status $said, $(diff "$work/out" "$work/want" | head -n 3)"
  printf '%s' "$policy" | "$zsched" plan --steps "$steps" --from "$from" --took "$took" --inputs "$input,7,0,60" \
    --words "$word" >"$work/want"
  printf '%s' "$policy" | "$work/linked" plan "$steps" "$from" "$took" "$input,7,0,60" "seed:$word" >"$work/out" &&
    cmp -s "$work/out" "$work/want" || wrong "plan $policy $options, seeded: $(diff "$work/out" "$work/want" | head -n 3)"
done <"$work/policies"
[ "$count" = 300 ] && [ "$refused" -lt 30 ] || wrong "$count policies, $refused refused"

# Retries whose runs end as they are told to.
ends() {
  local budget=$1 policy=$2 runs=$3
  shift 3
  printf '[{"plan":%s,"runs":%s}]' "$policy" "$runs" >"$work/jobs"
  "$zsched" pool --workers 1 --budget "$budget" <"$work/jobs" | head -n 1 >"$work/want"
  printf '%s' "$policy" | "$work/linked" retry "$budget" "$@" >"$work/out" && cmp -s "$work/out" "$work/want" ||
    wrong "retry $policy $*: $(cat "$work/out"), wanted $(cat "$work/want")"
}
ends 100 '{"meet":[{"recurs":3},{"spaced":100}]}' '[{"lost":7},{"won":200}]' lost:7 won:200
ends 100 '{"meet":[{"recurs":3},{"spaced":100}]}' '[{"lost":7}]' lost:7
ends 2 '{"meet":[{"recurs":3},{"exponential":[100,2]}]}' '[{"lost":7},{"lost":8}]' lost:7 lost:8
ends 0 '{"recurs":3}' '[{"lost":9}]' lost:9
ends 5 '{"recurs":0}' '[{"won":1}]' won:1
ends 5 '"forever"' '[{"lost":1},{"lost":2},{"lost":3},{"won":4}]' lost:1 lost:2 lost:3 won:4

mapfile -t groups < <("$work/linked" groups)
[ ${#groups[@]} -gt 10 ] || wrong "there are ${#groups[@]} groups of tests"
for program in linked loaded; do
  for words in "${groups[@]}"; do
    "$work/$program" "$words" || wrong "$program $words"
  done
  "$work/$program" draw 16 10000000 || wrong "$program draw"
  for words in "${groups[@]/lasting/calls}" 'draw 4 20000'; do
    # shellcheck disable=SC2086
    valgrind --quiet --leak-check=full --show-leak-kinds=all --error-exitcode=9 "$work/$program" $words >"$work/out" ||
      wrong "valgrind $program $words"
  done
done

# Each growth refused in turn: the call says so, and is done when it is made again; a retry may end for want of memory.
cc -O1 -shared -fPIC -nostdlib -o "$work/refuse.so" "$top/tests/refuse.c"
"$work/linked" calls >"$work/whole"
growth=0
while :; do
  growth=$((growth + 1))
  status=0
  LD_PRELOAD="$work/refuse.so" REFUSE_AT=$growth "$work/linked" calls >"$work/out" 8>/dev/null 9>"$work/refused" || status=$?
  [ -s "$work/refused" ] || break
  [ "$status" = 0 ] && [ "$(grep -c '^NoMemory: ' "$work/out")" = 1 ] &&
    grep -v '^NoMemory: ' "$work/out" | cmp -s - "$work/whole" || wrong "growth $growth refused: status $status, $(cat "$work/out")"
done
[ "$growth" -gt 40 ] && [ "$status" = 0 ] && cmp -s "$work/out" "$work/whole" || wrong "$((growth - 1)) growths, status $status"
echo "tests/library.sh: 300 policies, $((growth - 1)) growths refused in turn"
exit "$failed"
