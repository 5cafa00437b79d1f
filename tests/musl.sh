#!/usr/bin/env bash
# Calls the library from C with musl in the place of glibc: linked into a static program, and loaded by musl's loader,
# the file in the wheel that is tagged for musl too. It runs each group of tests and the examples, and steps random
# policies as the program that glibc runs. HIKEBOX_LIB_DIR names another folder than dist/.
set -euo pipefail
top=$(cd "$(dirname "${BASH_SOURCE[0]}")/.." && pwd)
dist=${HIKEBOX_LIB_DIR:-$top/dist}
work=$(mktemp -d)
trap 'rm -rf "$work"' EXIT
failed=0

wrong() {
  echo "tests/musl.sh: $*" >&2
  failed=1
}

flags=(-std=gnu11 -Wall -Wextra -Werror -O1 "-I$dist" -pthread)
tests=("$top/tests/library.c" "$top/tests/policies.c" "$top/tests/leases.c" "$top/tests/structs.c" "$top/tests/limits.c" "$top/tests/looks.c" "$top/tests/states.c" "$top/tests/paces.c")
cc "${flags[@]}" -o "$work/glibc" "${tests[@]}" "$dist/libhikebox.a"
musl-gcc "${flags[@]}" -static -o "$work/linked" "${tests[@]}" "$dist/libhikebox.a"
ln -s "$dist/libhikebox.so" "$work/libhikebox.so.1"
musl-gcc "${flags[@]}" -o "$work/loaded" "${tests[@]}" "-L$dist" "-Wl,-rpath,$work" -lhikebox -Wl,--allow-shlib-undefined
readelf -d "$work/linked" 2>/dev/null | grep -q NEEDED && wrong "the static program needs a library"
readelf -l "$work/loaded" | grep -q 'interpreter: /lib/ld-musl-' || wrong "the other program is not loaded by musl"

mapfile -t groups < <("$work/linked" groups)
for program in linked loaded; do
  for words in "${groups[@]}" calls 'draw 16 1000000'; do
    # shellcheck disable=SC2086
    "$work/$program" $words >"$work/out" || wrong "$program $words: $(cat "$work/out")"
  done
done

python3 "$top/tests/random_policies.py" 60 21 >"$work/policies"
while IFS=$'\t' read -r options policy; do
  read -r steps from took input word <<<"$options"
  for program in glibc linked loaded; do
    status=0
    printf '%s' "$policy" | "$work/$program" plan "$steps" "$from" "$took" "$input" "$word" >"$work/$program.out" || status=$?
    echo "status $status" >>"$work/$program.out"
  done
  cmp -s "$work/glibc.out" "$work/linked.out" && cmp -s "$work/glibc.out" "$work/loaded.out" || wrong "plan $policy $options"
done <"$work/policies"

printf 'run 1: 503\nrun 2: 503\nrun 3: 200\nwon after 3 runs, 2 retries granted\n2 tickets drawn of the budget\n' >"$work/want"
musl-gcc "${flags[@]}" -static -o "$work/retry" "$top/examples/c/retry.c" "$dist/libhikebox.a"
"$work/retry" >"$work/out" && cmp -s "$work/out" "$work/want" || wrong "examples/c/retry.c: $(cat "$work/out")"
musl-gcc "${flags[@]}" -static -o "$work/storm" "$top/examples/c/storm.c" "$dist/libhikebox.a"
[ "$("$work/storm" | grep -c ' calls for 48000 requests ')" = 3 ] || wrong "examples/c/storm.c"
[ "$failed" = 0 ] || exit 1
echo "tests/musl.sh: ${#groups[@]} groups of tests and 60 policies, linked and loaded"
