#!/usr/bin/env bash
# Installs into a folder by bin/install, and uses what is there: examples/c/retry.c is compiled by pkg-config and by CMake,
# and run; the soname is right; man reads both pages with no warning, and they have each call and each option; the
# completions are loaded in bash and in zsh. HIKEBOX_LIB_DIR names the files to install, dist/ where it does not.
set -euo pipefail
top=$(cd "$(dirname "${BASH_SOURCE[0]}")/.." && pwd)
work=$(mktemp -d)
trap 'rm -rf "$work"' EXIT
version=$(<"$top/VERSION")
major=${version%%.*}
prefix=$work/prefix
failed=0

wrong() {
  echo "tests/install.sh: $*" >&2
  failed=1
}

"$top/bin/install" --prefix "$prefix" >/dev/null
"$top/bin/install" --destdir "$work/staged" --prefix=/usr >/dev/null
[ -e "$work/staged/usr/lib/libhikebox.so.$version" ] || wrong "--destdir is not heeded"
status=0
"$top/bin/install" --perfix x 2>"$work/err" || status=$?
[ "$status" = 2 ] && grep -q perfix "$work/err" || wrong "a word that there is not: $status"

# Empty words, as of variables of a Makefile that are not set: no other root, and no prefix.
"$top/bin/install" --destdir '' --prefix "$work/unstaged" >/dev/null && [ -e "$work/unstaged/include/hikebox.h" ] ||
  wrong "an empty --destdir is another root than none"
status=0
"$top/bin/install" --prefix= 2>"$work/err" || status=$?
[ "$status" = 2 ] && [ "$(cat "$work/err")" = 'bin/install: expected a folder after --prefix, got an empty word' ] ||
  wrong "an empty prefix: $status, $(cat "$work/err")"

# For another machine: its libraries and its program, with the same pages.
built=${HIKEBOX_LIB_DIR:-$top/dist}
"$top/bin/install" --target aarch64 --prefix "$work/other" >/dev/null
for file in lib/libhikebox.a lib/libhikebox.so bin/zsched; do
  readelf -h "$work/other/$file" | grep -q 'Machine: *AArch64' || wrong "$file for aarch64 is for another machine"
done
for page in man3/hikebox.3 man1/zsched.1; do
  cmp "$prefix/share/man/$page" "$work/other/share/man/$page" || wrong "another $page is installed for aarch64"
done
status=0
"$top/bin/install" --target riscv64 --prefix "$work/none" 2>"$work/err" || status=$?
[ "$status" = 2 ] && grep -qx 'bin/install: expected the target x86_64, aarch64, .* or aarch64-apple-darwin, got riscv64' "$work/err" && [ ! -e "$work/none" ] ||
  wrong "a target that there is not: $status, $(cat "$work/err")"

# For other systems: what is loaded, by its names, and what is linked.
for target in x86_64-pc-windows-gnu x86_64-apple-darwin aarch64-apple-darwin; do
  case $target in
    *windows*) names='bin/hikebox.dll lib/hikebox.lib lib/libhikebox.dll.a' ;;
    *) names="lib/libhikebox.$version.dylib lib/libhikebox.$major.dylib lib/libhikebox.dylib" ;;
  esac
  "$top/bin/install" --target "$target" --prefix "$work/$target" >/dev/null
  for file in include/hikebox.h lib/libhikebox.a lib/pkgconfig/hikebox.pc share/man/man3/hikebox.3 $names; do
    [ -s "$work/$target/$file" ] || wrong "$target has no $file"
  done
  [ ! -e "$work/$target/bin/zsched" ] || wrong "$target has a zsched"
done

# Where zsched does not run, as with an older glibc, all else is installed, and a line says so. Without its files nothing
# is.
mkdir "$work/old"
cp "$built/hikebox.h" "$built/libhikebox.a" "$built/libhikebox.so" "$work/old"
status=0
HIKEBOX_LIB_DIR=$work/old "$top/bin/install" --target x86_64 --prefix "$work/none" 2>"$work/err" || status=$?
[ "$status" = 2 ] && [ "$(cat "$work/err")" = "bin/install: there is no $work/old/zsched" ] && [ ! -e "$work/none" ] ||
  wrong "a file that there is not: $status, $(cat "$work/err")"
printf '#!/bin/sh\nexit 1\n' >"$work/old/zsched"
chmod +x "$work/old/zsched"
HIKEBOX_LIB_DIR=$work/old "$top/bin/install" --target x86_64 --prefix "$work/older" >/dev/null 2>"$work/err" ||
  wrong "where zsched does not run: $(cat "$work/err")"
grep -q '^bin/install: zsched is left out: expected glibc 2.14 or later (aarch64: 2.17), which it needs, got ' "$work/err" &&
  [ ! -e "$work/older/bin" ] && [ -e "$work/older/share/man/man3/hikebox.3" ] && [ ! -e "$work/older/share/man/man1" ] ||
  wrong "where zsched does not run: $(cat "$work/err"; ls -R "$work/older")"
status=0
HIKEBOX_LIB_DIR=$work/old "$top/bin/dist" --tarball "$work/tarballs" >/dev/null 2>"$work/err" || status=$?
[ "$status" = 1 ] && [ -z "$(ls "$work/tarballs")" ] || wrong "a tarball without zsched: $status, $(cat "$work/err")"

# The library by its names.
soname=$(readelf -d "$prefix/lib/libhikebox.so" | sed -n 's/.*SONAME.*\[\(.*\)\]/\1/p')
[ "$soname" = "libhikebox.so.$major" ] && [ -e "$prefix/lib/$soname" ] || wrong "the soname is $soname"

# By pkg-config.
printf 'won after 3 runs, 2 retries granted\n' >"$work/want"
runs_example() { "$@" | grep '^won' | cmp -s - "$work/want" || wrong "$1: another output"; }
export PKG_CONFIG_PATH=$prefix/lib/pkgconfig
[ "$(pkg-config --modversion hikebox)" = "$version" ] || wrong "pkg-config has another version"
# shellcheck disable=SC2046
cc "$top/examples/c/retry.c" $(pkg-config --cflags --libs hikebox) -o "$work/loaded"
runs_example env "LD_LIBRARY_PATH=$prefix/lib" "$work/loaded"

# By CMake, both libraries; another major version is not taken.
mkdir "$work/project"
cat >"$work/project/CMakeLists.txt" <<EOF
cmake_minimum_required(VERSION 3.13)
project(tries C)
find_package(hikebox $major REQUIRED)
find_package(hikebox $((major + 1)) QUIET)
if(hikebox_FOUND)
  message(FATAL_ERROR "a later version is found")
endif()
foreach(kind hikebox static)
  add_executable(retry_\${kind} "$top/examples/c/retry.c")
  target_link_libraries(retry_\${kind} hikebox::\${kind})
endforeach()
EOF
{ cmake -S "$work/project" -B "$work/cmake" "-DCMAKE_PREFIX_PATH=$prefix" && cmake --build "$work/cmake"; } >"$work/log" 2>&1 || {
  cat "$work/log"
  wrong "CMake fails"
}
for kind in hikebox static; do runs_example "$work/cmake/retry_$kind"; done

# The manual pages.
for page in man3/hikebox.3 man1/zsched.1; do
  MANWIDTH=100 man --warnings -l "$prefix/share/man/$page" >"$work/${page##*/}" 2>"$work/err" </dev/null || wrong "man $page fails"
  [ ! -s "$work/err" ] || wrong "man $page: $(cat "$work/err")"
done
for call in $(grep -oE '\bhikebox_[a-z_]+\(' "$top/include/hikebox.h" | sort -u); do
  grep -qF "$call" "$work/hikebox.3" || wrong "hikebox(3) has no $call"
done
for command in plan pool storm check; do
  for word in $("$prefix/bin/zsched" "$command" --help | grep -oE -- '--[a-z]+'); do
    grep -qF -- "$word" "$work/zsched.1" || wrong "zsched(1) has no $word"
  done
done
statuses=$(sed -n '/^EXIT STATUS/,$s/^ *\([0-9]\)  .*/\1/p' "$work/zsched.1" | xargs)
[ "$statuses" = '0 2 3 4 5 6 7 8' ] || wrong "zsched(1) begins lines with the statuses $statuses"

# The completions.
cat >"$work/bash" <<'EOF'
source "$1/share/bash-completion/completions/zsched"
complete -p zsched | grep -q -- '-F _zsched'
offers() { COMP_WORDS=("$@"); COMP_CWORD=$(($# - 1)); _zsched; echo "${COMPREPLY[*]}"; }
offers zsched p
offers zsched --v
offers zsched plan --st
offers zsched pool --
cd "$1/lib/pkgconfig" && offers zsched check hike
offers zsched storm --scenario ''
offers zsched storm --scenario = her
offers zsched storm --rate ''
offers zsched storm --compare hike
offers zsched storm --beside ''
offers zsched storm --beside 30 = hike
offers zsched storm --beside = 30 @ 500+limited = hike
offers zsched help p
offers zsched plan -x/y hike
offers zsched plan "-/x/;1e touch $1/touched;#" hike
EOF
options=$("$prefix/bin/zsched" pool --help | sed -n 's/^ *\(-h, \)\{0,1\}\(--[a-z]*\).*/\2/p' | tr '\n' ' ')
printf 'plan pool\n--version\n--steps\n%s\nhikebox.pc\noutage herd brown-out\nherd\n\nhikebox.pc\n\nhikebox.pc\nhikebox.pc\nplan pool\nhikebox.pc\nhikebox.pc\n' "${options% }" >"$work/want"
PATH=$prefix/bin:$PATH bash --norc "$work/bash" "$prefix" >"$work/out" 2>&1 && cmp -s "$work/out" "$work/want" || wrong "bash: $(cat "$work/out")"
[ "$(wc -w <<<"$options")" -ge 5 ] || wrong "zsched pool has the options $options"

cat >"$work/zsh" <<'EOF'
fpath=($1/share/zsh/site-functions $fpath)
autoload -Uz compinit && compinit -D -u
[[ $_comps[zsched] = _zsched ]] || exit 1
autoload +X -Uz _zsched
compadd() { print -r -- ${(P)2}; }
compset() { :; }
_files() { print files; }
_message() { print "message $1"; }
offers() { local -a words=("$@"); local CURRENT=$#; _zsched; }
offers zsched p
offers zsched pool --
offers zsched check ''
offers zsched storm --scenario ''
offers zsched storm --scenario=h
offers zsched storm --rate ''
offers zsched storm --compare ''
offers zsched storm --beside 30
offers zsched storm --beside=30
offers zsched storm --beside 30@500+limited=h
offers zsched storm --beside=30=h
offers zsched help p
offers zsched plan -x/y ''
offers zsched plan "-/x/;1e touch $1/touched;#" ''
EOF
takes='message PERCENT[@PATIENCE][+limited]=FILE'
printf 'plan pool storm check help --help --version\n%s\nfiles\noutage herd brown-out\noutage herd brown-out\nmessage N\nfiles\n%s\n%s\nfiles\nfiles\nplan pool storm check help\nfiles\nfiles\n' \
  "${options% }" "$takes" "$takes" >"$work/want"
PATH=$prefix/bin:$PATH zsh -f "$work/zsh" "$prefix" >"$work/out" 2>&1 && cmp -s "$work/out" "$work/want" || wrong "zsh: $(cat "$work/out")"
[ ! -e "$prefix/touched" ] || wrong 'a completion runs what a word says'
[ "$failed" = 0 ] || exit 1
echo "tests/install.sh: what is installed is compiled against in two ways, read by man and completed by bash and zsh"
