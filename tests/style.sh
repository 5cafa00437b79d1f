#!/usr/bin/env bash
# tests/style.sh [--write]: the layout of all files, by the formatter and the linter of each language: black and flake8,
# rustfmt, clang-format, shellcheck. With --write the formatters lay the files out. What black and clang-format lay out
# differs from version to version: those of Debian 12 count, and others are left out. `rattle fmt` lays out the engine's
# files where the kit is there; here are its rules beside: 120 columns (of the header, too), a first line that says what
# a file of specs or proofs is for, and the three sentences at the head of each library.
set -euo pipefail
cd "$(dirname "${BASH_SOURCE[0]}")/.."
writes=false
[ "${1:-}" != --write ] || writes=true

mapfile -t python < <(git ls-files '*.py'; grep -lE '^#!.*python3' bin/*)
mapfile -t rust < <(git ls-files 'rust/*.rs' 'bench/*.rs')
mapfile -t c < <(git ls-files '*.c' '*.cc' '*.h' | grep -vx c/texts.c)
mapfile -t shell < <(git ls-files '*.sh' .ci/run; grep -lE '^#!.*bash' bin/*)

# the crates that do not keep the rules of the engine's files yet; none joins them
later='sched_storm_call'
mapfile -t engine < <(git ls-files 'crates/*.rt' 'crates/*.antt' | grep -vE "^crates/($later)/")
mapfile -t antt < <(printf '%s\n' "${engine[@]}" | grep '\.antt$')
mapfile -t roots < <(printf '%s\n' "${engine[@]}" | grep -E '^crates/[^/]+/src/(lib|main)\.rt$')

# past_120 FILE..: no line is longer than 120 columns, but for an attribute, which `rt fmt` keeps on one line, and a
# line of a raw text, which begins with a capital
past_120() {
  ! LC_ALL=C.UTF-8 grep -nE '.{121}' "$@" | grep -vE '^[^:]+:[0-9]+:( *#\[tactic\(|[A-Z])'
}

# headed FILE..: each begins with a comment
headed() {
  awk 'FNR == 1 && !/^-- ./ { print FILENAME ": expected a first line on what it proves or defines"; bad = 1 }
       END { exit bad }' "$@"
}

# introduced ROOT..: each crate begins with `//!`, and each library but those of tests with three sentences
introduced() {
  awk 'function ended() {
         if (at == "") return
         if (text == "") { print at ": expected //! at its head"; bad = 1 }
         else if (at ~ /lib\.rt$/ && at !~ /_tests\/|\/check_/ && gsub(/[.]( |$)/, "", text) < 3) {
           print at ": expected three sentences: what it is for, what it promises, what it stands on"; bad = 1
         }
       }
       FNR == 1 { ended(); at = FILENAME; text = ""; reads = 1 }
       reads && /^\/\/! ./ { text = text " " substr($0, 5); next }
       { reads = 0 }
       END { ended(); exit bad }' "$@"
}

failed=0
# passes WHAT COMMAND..: runs a check, and tells what it said where it fails
passes() {
  local said
  if ! said=$("${@:2}" 2>&1); then
    printf 'tests/style.sh: %s:\n%s\n' "$1" "$said" >&2
    failed=1
  fi
}

# has TOOL VERSION: whether the tool is of this version
has() {
  "$1" --version | grep -qF "$2" && return
  echo "tests/style.sh: $1 is not of version $2, so its layout is not looked at" >&2
  return 1
}

# the kit's formatter, if it is there
rattle=$(dirname "$(readlink -f "$(bin/kit tests/style.sh 2>/dev/null || true)")")/rattle
mapfile -t laid_out < <(git ls-files 'crates/*.rt' 'crates/*.antt')
[ -x "$rattle" ] || { echo "tests/style.sh: the Rattle kit is missing, so the layout of crates/ is not looked at" >&2; laid_out=(); }

if $writes; then
  [ ${#laid_out[@]} = 0 ] || "$rattle" fmt --write "${laid_out[@]}"
  black --quiet --line-length 120 --target-version py39 "${python[@]}"
  rustfmt --edition 2021 --config-path rust "${rust[@]}"
  clang-format -i "${c[@]}"
else
  [ ${#laid_out[@]} = 0 ] || passes 'rattle fmt' "$rattle" fmt --check "${laid_out[@]}"
  ! has black ' 23.' || passes black black --quiet --check --diff --line-length 120 --target-version py39 "${python[@]}"
  passes rustfmt rustfmt --check --edition 2021 --config-path rust "${rust[@]}"
  ! has clang-format ' 14.' || passes clang-format clang-format --dry-run --Werror "${c[@]}"
fi
passes flake8 flake8 "${python[@]}"
passes shellcheck shellcheck --severity=warning --external-sources "${shell[@]}"
passes 'lines past 120 columns' past_120 "${engine[@]}" include/hikebox.h
passes 'files without a head' headed "${antt[@]}"
passes 'crates without their three sentences' introduced "${roots[@]}"
[ $failed = 0 ] || exit 1
echo "tests/style.sh: ${#python[@]} files of Python, ${#rust[@]} of Rust, ${#c[@]} of C, ${#shell[@]} of shell and" \
  "${#engine[@]} of the engine"
