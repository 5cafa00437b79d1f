#!/usr/bin/env bash
# Tests the files of dist/aarch64, or of the folder aarch64 in HIKEBOX_LIB_DIR, under qemu. zsched: what it prints for each
# command line of tests/program.sh. In C: each group of tests
# of the library, linked and loaded, 300 random policies beside x86-64, storms, threads, and each growth of memory
# refused in turn. In Rust: a program over the crate, and tests of the crate. In Python: the wheel in Debian's Python,
# and tests of the package. The same groups in C run with musl. Debian's arm64 Python, musl and standard library of
# Rust are fetched by apt, without root, and kept in out/aarch64; what can't be fetched is left out, and the last line
# says so. (qemu runs threads in turns and as x86-64 orders memory: what a weaker order does is not seen here.)
set -euo pipefail
top=$(cd "$(dirname "${BASH_SOURCE[0]}")/.." && pwd)
dist=${HIKEBOX_LIB_DIR:-$top/dist}
work=$(mktemp -d)
trap 'rm -rf "$work"' EXIT
cross=aarch64-linux-gnu
emulates=(qemu-aarch64-static -L "/usr/$cross")
flags=(-std=gnu11 -Wall -Wextra -Werror -O1 "-I$dist" -pthread)
export PYTHONDONTWRITEBYTECODE=1
failed=0
left_out=()

wrong() {
  echo "tests/aarch64.sh: $*" >&2
  failed=1
}

# The files: for which machine, what they need, and what they show.
tests_files() {
  local exported declared beside
  exported=$("$cross-nm" -D --defined-only "$dist/aarch64/libhikebox.so" | awk '$2 == "T" { print $NF }' | LC_ALL=C sort)
  declared=$(nm -D --defined-only "$dist/libhikebox.so" | awk '$2 == "T" { print $NF }' | LC_ALL=C sort)
  [ -n "$declared" ] && [ "$exported" = "$declared" ] || wrong "libhikebox.so has other calls than the one for x86-64"
  beside=$(readelf -d "$dist/aarch64/libhikebox.so" | sed -n 's/.*(NEEDED).*\[\(.*\)\]/\1/p' | tr '\n' ' ')
  [ "$beside" = 'libc.so.6 ' ] || wrong "libhikebox.so needs $beside"
  asks_glibc libhikebox.so
}

# asks_glibc FILE: that it asks for no later glibc than 2.17
asks_glibc() {
  [ "$(readelf -V "$dist/aarch64/$1" | grep -oE 'GLIBC_2\.[0-9]+' | sort -u)" = GLIBC_2.17 ] || wrong "$1 asks for another glibc"
}

tests_program() {
  asks_glibc zsched
  printf '#!/bin/sh\nexec %s %s "$@"\n' "${emulates[*]}" "$dist/aarch64/zsched" >"$work/zsched"
  chmod +x "$work/zsched"
  HIKEBOX_ZSCHED=$work/zsched "$top/tests/program.sh" || wrong zsched
}

builds_c() {
  local sources=("$top/tests/library.c" "$top/tests/policies.c" "$top/tests/leases.c" "$top/tests/structs.c" "$top/tests/limits.c" "$top/tests/looks.c" "$top/tests/states.c" "$top/tests/paces.c")
  cc "${flags[@]}" -o "$work/x86_64" "${sources[@]}" "$dist/libhikebox.a"
  "$cross-gcc" "${flags[@]}" -o "$work/linked" "${sources[@]}" "$dist/aarch64/libhikebox.a"
  ln -s "$dist/aarch64/libhikebox.so" "$work/libhikebox.so.1"
  "$cross-gcc" "${flags[@]}" -o "$work/loaded" "${sources[@]}" "-L$dist/aarch64" "-Wl,-rpath,$work" -lhikebox
}

tests_groups() {
  local groups program words
  mapfile -t groups < <("$work/x86_64" groups)
  for program in linked loaded; do
    for words in "${groups[@]}" 'draw 16 1000000'; do
      # shellcheck disable=SC2086
      "${emulates[@]}" "$work/$program" $words >"$work/out" || wrong "$program $words: $(cat "$work/out")"
    done
  done
}

# 300 random policies along a course: what x86-64 prints, with the same status.
tests_policies() {
  python3 "$top/tests/random_policies.py" 300 23 | sed -E 's/^([^ ]+ [^ ]+ [^ ]+ [^ ]+) ([^\t]+)/\1,7,0,60 seed:\2/' >"$work/policies"
  "$work/x86_64" plans <"$work/policies" >"$work/want"
  "${emulates[@]}" "$work/linked" plans <"$work/policies" >"$work/out" || wrong "plans: $?"
  [ "$(grep -c '^status ' "$work/want")" = 300 ] && diff "$work/want" "$work/out" || wrong "other plans than on x86-64"
}

# Each growth refused in turn, as tests/library.sh does it for x86-64.
tests_growths() {
  local growth=0 status
  "$cross-gcc" -O1 -mno-outline-atomics -shared -fPIC -nostdlib -o "$work/refuse.so" "$top/tests/refuse.c"
  "${emulates[@]}" "$work/linked" calls >"$work/whole"
  while :; do
    growth=$((growth + 1))
    status=0
    "${emulates[@]}" -E "LD_PRELOAD=$work/refuse.so" -E "REFUSE_AT=$growth" "$work/linked" calls \
      >"$work/out" 8>/dev/null 9>"$work/refused" || status=$?
    [ -s "$work/refused" ] || break
    [ "$status" = 0 ] && [ "$(grep -c '^NoMemory: ' "$work/out")" = 1 ] &&
      grep -v '^NoMemory: ' "$work/out" | cmp -s - "$work/whole" ||
      wrong "growth $growth refused: status $status, $(cat "$work/out")"
  done
  [ "$growth" -gt 40 ] && [ "$status" = 0 ] && cmp -s "$work/out" "$work/whole" ||
    wrong "$((growth - 1)) growths, status $status"
}

tests_examples() {
  "$cross-gcc" "${flags[@]}" -o "$work/retry" "$top/examples/c/retry.c" "$dist/aarch64/libhikebox.a"
  [ "$("${emulates[@]}" "$work/retry" | grep '^won')" = 'won after 3 runs, 2 retries granted' ] ||
    wrong examples/c/retry.c
  "$cross-gcc" "${flags[@]}" -static -o "$work/storm" "$top/examples/c/storm.c" "$dist/aarch64/libhikebox.a"
  cc "${flags[@]}" -o "$work/storm_x86_64" "$top/examples/c/storm.c" "$dist/libhikebox.a"
  "${emulates[@]}" "$work/storm" | cmp - <("$work/storm_x86_64") || wrong examples/c/storm.c
}

# The folder of what is fetched: as a root, in which Debian's packages for arm64 are unpacked.
room=$top/out/aarch64
{ mkdir -p "$room" && [ -w "$room" ]; } 2>/dev/null || room=$work/room
root=$room/root

# fetched: unpacks Debian's arm64 Python, musl and standard library of Rust there, once; false where they can't be had
fetched() {
  local file
  [ ! -e "$room/whole" ] || return 0
  command -v apt-get >/dev/null || return 1
  rm -rf "$room"
  mkdir -p "$room/state/lists/partial" "$room/cache/archives/partial" "$root"
  : >"$room/state/status"
  printf '%s "%s";\n' APT::Architecture arm64 Dir::State "$room/state" Dir::State::status "$room/state/status" \
    Dir::Cache "$room/cache" Debug::NoLocking true APT::Sandbox::User root Acquire::Retries 1 \
    Acquire::http::Timeout 20 >"$room/apt.conf"
  printf 'APT::Architectures { "arm64"; };\n' >>"$room/apt.conf"
  (
    export APT_CONFIG=$room/apt.conf
    cd "$room/cache/archives"
    apt-get update && apt-get install -y --download-only --no-install-recommends python3 &&
      apt-get download libstd-rust-dev musl-dev musl
  ) >"$room/log" 2>&1 </dev/null || return 1
  for file in "$room"/cache/archives/*.deb; do dpkg-deb -x "$file" "$root" || return 1; done
  rm -rf "$room/cache" "$room/state"
  : >"$room/whole"
}

# The groups of tests with musl, linked into a static program, and loaded by musl's loader: those without threads, since a
# program of musl with threads crashes under qemu 7.2, and one without this library hangs there.
tests_musl() {
  local groups words kind sources=("$top/tests/library.c" "$top/tests/policies.c" "$top/tests/leases.c" "$top/tests/structs.c" "$top/tests/limits.c" "$top/tests/looks.c" "$top/tests/states.c" "$top/tests/paces.c")
  local compiler=("$cross-gcc" -specs "$work/musl.specs" "${flags[@]}")
  sed "s#/usr/#$root/usr/#g" "$root/usr/lib/aarch64-linux-musl/musl-gcc.specs" >"$work/musl.specs"
  "${compiler[@]}" -static -o "$work/musl_linked" "${sources[@]}" "$dist/aarch64/libhikebox.a"
  # (the library names glibc's libc.so.6, which musl's loader takes as itself, and which no linker for musl finds)
  "${compiler[@]}" -o "$work/musl_loaded" "${sources[@]}" "-L$dist/aarch64" "-Wl,-rpath,$work" -lhikebox \
    -Wl,--allow-shlib-undefined
  mapfile -t groups < <("$work/x86_64" groups | grep -vxE 'shares|leased|limits|paces')
  for kind in linked loaded; do
    for words in "${groups[@]}" calls; do
      # shellcheck disable=SC2086
      qemu-aarch64-static -L "$root" "$work/musl_$kind" $words >"$work/out" ||
        wrong "musl, $kind, $words: $(cat "$work/out")"
    done
  done
}

# The crate with Debian's rustc, whose standard library for aarch64 lies beside that for this machine.
tests_rust() {
  local sysroot=$work/sysroot/lib/rustlib
  local words=(
    env "HIKEBOX_LIB_DIR=$dist/aarch64" RUSTC=/usr/bin/rustc "RUSTFLAGS=--sysroot $work/sysroot" CARGO_INCREMENTAL=0
    "CARGO_TARGET_DIR=$work/target" "CARGO_TARGET_AARCH64_UNKNOWN_LINUX_GNU_LINKER=$cross-gcc"
    "CARGO_TARGET_AARCH64_UNKNOWN_LINUX_GNU_RUNNER=${emulates[*]}" /usr/bin/cargo
  )
  mkdir -p "$sysroot" "$work/program/src"
  ln -s "$root/usr/lib/rustlib/aarch64-unknown-linux-gnu" "$sysroot"
  ln -s "$(/usr/bin/rustc --print sysroot)/lib/rustlib/x86_64-unknown-linux-gnu" "$sysroot"
  printf '[package]\nname = "program"\nversion = "0.1.0"\nedition = "2021"\n[dependencies]\nhikebox = { path = "%s" }\n' \
    "$top/rust" >"$work/program/Cargo.toml"
  awk '/^```rust/ { inside = 1; next } /^```/ { inside = 0 } inside' "$top/README.md" >"$work/program/src/main.rs"
  (cd "$work/program" && "${words[@]}" run --quiet --offline --target aarch64-unknown-linux-gnu) ||
    wrong "the program in README.md over the crate"
}

# The wheel in Debian's Python, and tests of its calls of the engine.
tests_python() {
  local site=$work/site python module
  python="qemu-aarch64-static -L $root $root/usr/bin/python3"
  mkdir -p "$work/home/bin" "$site"
  python3 -m zipfile -e "$dist"/aarch64/hikebox-*.whl "$work/home/hikebox"
  printf '#!/bin/sh\nexec %s -m hikebox "$@"\n' "$python" >"$work/home/bin/hikebox"
  chmod +x "$work/home/bin/hikebox"
  [ "$($python -c 'import platform; print(platform.machine())')" = aarch64 ] ||
    { wrong "there is no Python for aarch64"; return; }
  # shellcheck disable=SC2086
  (cd "$work" && env -u HIKEBOX_LIBRARY PYTHONPATH="$work/home/hikebox" $python -W error "$top/python/tests/smoke.py" \
    "$work/home" --no-lab) || wrong "the wheel"
  for module in pytest _pytest py pluggy iniconfig packaging attr exceptiongroup tomli; do
    [ ! -e "/usr/lib/python3/dist-packages/$module" ] || ln -s "/usr/lib/python3/dist-packages/$module" "$site"
  done
  # (the test left out starts an interpreter by its name, which qemu alone can't)
  # shellcheck disable=SC2086
  (cd "$top/python" && env HIKEBOX_LIBRARY="$dist/aarch64/libhikebox.so" PYTHONPATH="$site:src:tests" $python \
    -m pytest -q -p no:cacheprovider --basetemp "$work/pytest" -k 'not an_interpreter_without' \
    tests/test_engine.py) || wrong "tests of the package"
}

tests_files
tests_program
builds_c
tests_groups
tests_policies
tests_growths
tests_examples
if fetched; then
  tests_musl
  tests_rust
  tests_python
else
  left_out=(musl Rust Python)
fi
[ "$failed" = 0 ] || exit 1
parts='zsched, C, musl, Rust and Python'
[ ${#left_out[@]} = 0 ] || parts="zsched and C; left out, since Debian's arm64 packages can't be fetched: ${left_out[*]}"
echo "tests/aarch64.sh: $parts"
