#!/usr/bin/env bash
# Tests the files for Windows of dist/, or of HIKEBOX_LIB_DIR, under wine. The DLL has the calls of hikebox.h, and needs
# msvcrt.dll alone. Each group of tests of the library in C runs, linked with the static library and with the DLL; so do
# 300 random policies, which print what the library for this machine prints, sixteen threads on one budget, and
# examples/c/storm.c. The wheel has the same DLL. README's program in Rust runs over the crate, and so do the crate's own
# tests with all its features but `prometheus`, for which Debian lacks windows-sys: those of files that begin with `cfg(all(unix`, which fork or count in folders, are left
# out, and those that say of themselves why they are ignored there. Debian's cargo runs no example of a document for
# another target. What cargo builds is kept in out/rust-windows, where that can be written.
set -euo pipefail
top=$(cd "$(dirname "${BASH_SOURCE[0]}")/.." && pwd)
dist=${HIKEBOX_LIB_DIR:-$top/dist}
files=$dist/x86_64-pc-windows-gnu
work=$(mktemp -d)
export WINEPREFIX=$work/wine WINEDEBUG=-all WINEDLLOVERRIDES='winemenubuilder.exe,mscoree,mshtml=d'
trap 'wineserver -k -w || true; rm -rf "$work"' EXIT
cross=x86_64-w64-mingw32
failed=0

wrong() {
  echo "tests/windows.sh: $*" >&2
  failed=1
}

# runs PROGRAM WORD..: a program of Windows, with the ends of lines of this system
runs() {
  local status=0
  wine "$work/$1.exe" "${@:2}" >"$work/said" || status=$?
  tr -d '\r' <"$work/said"
  return "$status"
}

# What the DLL has and needs, by objdump.
tests_dll() {
  local declared exported needed
  declared=$(sed -nE 's/^(.* )?(hikebox_status |const char \*)(hikebox_[a-z_]*)\(.*/\3/p' "$dist/hikebox.h" | LC_ALL=C sort)
  "$cross-objdump" -p "$files/hikebox.dll" >"$work/dll"
  exported=$(awk '/^\[Ordinal\/Name Pointer\] Table/ { inside = 1; next } !NF { inside = 0 } inside { print $NF }' "$work/dll" | LC_ALL=C sort)
  [ -n "$declared" ] && [ "$exported" = "$declared" ] || wrong "hikebox.dll has other calls than hikebox.h"
  needed=$(sed -n 's/.*DLL Name: //p' "$work/dll" | tr '\n' ' ')
  [ "$needed" = 'msvcrt.dll ' ] || wrong "hikebox.dll needs $needed"
  shown=$("$cross-nm" --defined-only "$files/libhikebox.a" | awk '$2 ~ /^[A-Z]$/ { print $3 }' | LC_ALL=C sort)
  [ "$shown" = "$declared" ] || wrong "libhikebox.a shows other names than the calls of hikebox.h"
  python3 -m zipfile -e "$dist"/hikebox-*-win_amd64.whl "$work/wheel"
  cmp "$files/hikebox.dll" "$work/wheel/hikebox/libhikebox.so" || wrong 'the wheel has another DLL'
}

builds() {
  local sources=() name flags=(-std=gnu11 -Wall -Wextra -Werror -O1 "-I$dist" -pthread -static)
  for name in library policies leases structs limits looks states paces; do sources+=("$top/tests/$name.c"); done
  "$cross-gcc-posix" "${flags[@]}" -o "$work/linked.exe" "${sources[@]}" "$files/libhikebox.a"
  "$cross-gcc-posix" "${flags[@]}" -DHIKEBOX_DLL -o "$work/loaded.exe" "${sources[@]}" "$files/hikebox.lib"
  cp "$files/hikebox.dll" "$work"
  cc -std=gnu11 -O1 "-I$dist" -pthread -o "$work/own" "${sources[@]}" "$dist/libhikebox.a"
  "$cross-gcc-posix" "${flags[@]}" -o "$work/storm.exe" "$top/examples/c/storm.c" "$files/libhikebox.a"
  cc -O1 "-I$dist" -pthread -o "$work/storm" "$top/examples/c/storm.c" "$dist/libhikebox.a"
}

tests_groups() {
  local program words groups
  mapfile -t groups < <("$work/own" groups)
  for program in linked loaded; do
    for words in "${groups[@]}" calls 'draw 16 1000000'; do
      # shellcheck disable=SC2086
      runs "$program" $words >"$work/out" 2>&1 || wrong "$program $words: $(cat "$work/out")"
    done
  done
}

tests_policies() {
  local program
  python3 "$top/tests/random_policies.py" 300 29 | sed -E 's/^([^ ]+ [^ ]+ [^ ]+ [^ ]+) ([^\t]+)/\1,7,0,60 seed:\2/' >"$work/policies"
  "$work/own" plans <"$work/policies" >"$work/want"
  [ "$(grep -c '^status ' "$work/want")" = 300 ] || wrong 'the policies have no 300 plans'
  for program in linked loaded; do
    runs "$program" plans <"$work/policies" >"$work/out" && diff "$work/want" "$work/out" || wrong "$program: other plans than on Linux"
  done
}

# What bin/install puts into a folder, where GNU's linker takes the DLL.
tests_installed() {
  "$top/bin/install" --target x86_64-pc-windows-gnu --prefix "$work/prefix" >/dev/null
  "$cross-gcc-posix" -O1 -DHIKEBOX_DLL "-I$work/prefix/include" -o "$work/prefix/bin/storm.exe" "$top/examples/c/storm.c" \
    "-L$work/prefix/lib" -lhikebox
  "$cross-objdump" -p "$work/prefix/bin/storm.exe" >"$work/needs"
  grep -q 'DLL Name: hikebox.dll' "$work/needs" || wrong 'the installed DLL is not loaded'
  runs prefix/bin/storm | cmp - <("$work/storm") || wrong 'examples/c/storm.c with the installed DLL'
}

# The crate with Debian's rustc, whose standard library for Windows lies beside that for this machine.
tests_rust() {
  mkdir -p "$work/program/src"
  printf '[package]\nname = "program"\nversion = "0.1.0"\nedition = "2021"\n[dependencies]\nhikebox = { path = "%s" }\n' \
    "$top/rust" >"$work/program/Cargo.toml"
  awk '/^```rust/ { inside = 1; next } /^```/ { inside = 0 } inside' "$top/README.md" >"$work/program/src/main.rs"
  (cd "$work/program" && CARGO_TARGET_DIR=$work/target crosses build) &&
    cp "$work/target/x86_64-pc-windows-gnu/debug/program.exe" "$work" && (cd "$work/program" && runs program) || wrong "the program in README.md over the crate"
}

# crosses WORD..: a command of Debian's cargo for Windows, which runs programs under wine. (A backtrace crashes there.)
crosses() {
  HIKEBOX_LIB_DIR=$files RUSTC=/usr/bin/rustc RUST_BACKTRACE=0 CARGO_INCREMENTAL=0 CARGO_PROFILE_DEV_DEBUG=0 CARGO_TERM_COLOR=never \
    CARGO_TARGET_X86_64_PC_WINDOWS_GNU_LINKER=$cross-gcc-posix CARGO_TARGET_X86_64_PC_WINDOWS_GNU_RUNNER=wine \
    /usr/bin/cargo "$1" --quiet --offline --target x86_64-pc-windows-gnu "${@:2}"
}

# The tests of the crate, seen from a folder of their own, which has a lock file for Debian's crates.
tests_crate() {
  local room=$top/out/rust-windows name tests=()
  { mkdir -p "$room" && [ -w "$room" ]; } 2>/dev/null || room=$work/rust-windows
  mkdir -p "$room"
  for name in Cargo.toml README.md build.rs src tests; do ln -sfn "$top/rust/$name" "$room/$name"; done
  for name in "$top"/rust/tests/*.rs; do
    grep -q '^#!\[cfg(all(unix' "$name" || tests+=(--test "$(basename "$name" .rs)")
  done
  (cd "$room" && CARGO_TARGET_DIR=$room/target crosses test --config 'source.crates-io.replace-with="debian"' \
    --config 'source.debian.directory="/usr/share/cargo/registry"' --features "leased serde tokio tower tracing" --lib "${tests[@]}") >"$work/crate" 2>&1 ||
    wrong "the tests of the crate: $(cat "$work/crate")"
}

# (wine's server would end between two programs, and the second may come just then)
mkdir "$WINEPREFIX"
wineserver -p
wineboot --init >/dev/null 2>&1
tests_dll
builds
tests_groups
tests_policies
tests_installed
tests_rust
tests_crate
runs storm | cmp - <("$work/storm") || wrong examples/c/storm.c
[ "$failed" = 0 ] || exit 1
passed=$(awk '/^test result: ok/ { sum += $4 } END { print sum }' "$work/crate")
echo "tests/windows.sh: each group and 300 policies under wine, linked and from the DLL, and $passed tests of the crate"
