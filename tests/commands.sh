#!/usr/bin/env bash
# Tries the programs of bin/ on a copy of this repository without git, where the Rattle kit is missing or is a script of this
# test's own: what is said without the kit, which files of dist/ a change makes old, what bin/zsched runs and what it costs,
# which crates bin/check proves, and that bin/test leaves nothing behind. HIKEBOX_ZSCHED names the zsched of the copy's dist/,
# that of dist/ where it does not. The repository has no link: `rt ci` stops at one.
set -euo pipefail
top=$(cd "$(dirname "${BASH_SOURCE[0]}")/.." && pwd)
work=$(mktemp -d)
trap 'rm -rf "$work"' EXIT
program=zsched
[ "$HOSTTYPE" = x86_64 ] || program=$HOSTTYPE/zsched
zsched=${HIKEBOX_ZSCHED:-$top/dist/$program}
unset HIKEBOX_LIB_DIR HIKEBOX_LIBRARY HIKEBOX_ZSCHED
export HIKEBOX_RT=$work/no-kit
tree=$work/tree
failed=0
tried=0

# The copy, whose dist/ is of its sources.
copy() {
  mkdir "$tree"
  (cd "$top" && tar -cf - --exclude=out --exclude=__pycache__ bin c crates crates.txt HANDLES docs include python plans tests \
    rust/Cargo.toml rust/README.md rust/src/engine/sys.rs README.md LICENSE VERSION) | tar -xf - -C "$tree"
  mkdir -p "$tree/dist/aarch64"
  cp "$zsched" "$tree/dist/$program"
  : >"$tree/dist/libhikebox.so"
  (cd "$tree" && bin/digest {,aarch64/}{zsched,libhikebox.a,libhikebox.so,hikebox.whl} hikebox.h) >"$work/SOURCES"
  cp "$work/SOURCES" "$tree/dist/SOURCES"
  cd "$tree"
}

# wants STATUS OUTPUT ERRORS COMMAND..: what a command does; `..` stands for any errors
wants() {
  local status=$1 output=$2 errors=$3 got=0
  shift 3
  tried=$((tried + 1))
  "$@" >"$work/out" 2>"$work/err" </dev/null || got=$?
  [ "$got" = "$status" ] && [ "$(cat "$work/out")" = "$output" ] && { [ "$errors" = .. ] || [ "$(cat "$work/err")" = "$errors" ]; } || {
    echo "tests/commands.sh: $*: status $got, wanted $status; output $(cat "$work/out"), wanted $output; errors $(cat "$work/err")" >&2
    failed=1
  }
}

# both FILE..: their names for both machines
both() { echo "$*" "${@/#/aarch64/}"; }

# makes_old FILES COMMAND..: this change makes these files of dist/ old, and no other; it is undone
makes_old() {
  local files=${1// /$'\n'}
  shift
  cp -al "$tree" "$work/changed"
  (cd "$work/changed" && "$@")
  wants 0 "$files" '' "$work/changed/bin/digest" --changed
  rm -rf "$work/changed"
}

# is_alive PROCESS: it has neither ended nor waits to be buried
is_alive() { grep -qs '^State:[[:space:]][^ZX]' "/proc/$1/status"; }

# (each puts another file in the place of the one that is there, which has a second link)
append() { sed -i '$a\
// more' "$1"; }
replace() { sed -i "$1" "$2"; }

# What bin/bindings makes of a header in which a parameter is another one, and of a text that is.
bindings() {
  local changed=$work/bindings
  wants 0 "bin/bindings: $(grep -c "^HIKEBOX_CHECKED hikebox_status \|^hikebox_status hikebox_" include/hikebox.h) calls of the header" '' bin/bindings --check
  cp -a "$tree" "$changed"
  sed -i 's/hikebox_pass_raise(hikebox_pass \*pass, uint64_t to,/hikebox_pass_raise(hikebox_pass *pass, uint32_t to,/' "$changed/include/hikebox.h"
  sed -i 's/there is no ticket/no ticket is left/' "$changed"/crates/*/src/status.rt
  wants 1 '' 'bin/bindings: rust/src/engine/sys.rs is not what the header says: run bin/bindings
bin/bindings: python/src/hikebox/_engine/calls.py is not what the header says: run bin/bindings
bin/bindings: c/texts.c is not what the header says: run bin/bindings' "$changed/bin/bindings" --check
  "$changed/bin/bindings" >/dev/null
  wants 0 "bin/bindings: $(grep -c "^HIKEBOX_CHECKED hikebox_status \|^hikebox_status hikebox_" include/hikebox.h) calls of the header" '' "$changed/bin/bindings" --check
  wants 0 '    pub(super) fn hikebox_pass_raise(pass: *mut Raw, to: u32, limit: *mut u64) -> u32;' '' \
    grep 'fn hikebox_pass_raise' "$changed/rust/src/engine/sys.rs"
  wants 0 '    "hikebox_pass_raise": (_HANDLE, c_uint32, _NUMBER),' '' grep '"hikebox_pass_raise":' "$changed/python/src/hikebox/_engine/calls.py"
  rm -rf "$changed"
}

# Which files of dist/ a change makes old.
changes() {
  local wheels all library libraries='libhikebox.a libhikebox.so hikebox.whl'
  wheels=$(both hikebox.whl)
  # shellcheck disable=SC2086
  library=$(both $libraries) all=$(both zsched $libraries)
  makes_old '' true
  makes_old "$wheels" append python/src/hikebox/lab/lab.js
  makes_old "$wheels" append python/src/hikebox/retrying.py
  makes_old "$wheels" append python/build_backend.py
  makes_old hikebox.h append include/hikebox.h
  makes_old "$library" append c/texts.c
  makes_old "aarch64/zsched${all#*aarch64/zsched}" append c/heap.c
  makes_old "$(both zsched)" append c/start.c
  makes_old "$(both zsched)" append crates/sched_cli/src/lib.rt
  makes_old "$(both zsched)" rm crates/sched_cli/src/lib.rt
  makes_old "$library" append crates/hikebox_c/src/lib.rt
  makes_old "$(both libhikebox.so hikebox.whl)" append bin/hikebox.map
  makes_old "$(both zsched libhikebox.so hikebox.whl)" append bin/glibc
  makes_old "$all" append bin/dist
  makes_old "$all" append crates/sched_time/src/lib.rt
  makes_old "$all" touch crates/sched_time/src/new.rt
  makes_old "$(both zsched)" replace 's/^zsched: /zsched: sched_effect /' crates.txt
  makes_old '' replace 's/^# The library/# A library/' crates.txt
  makes_old '' append crates/sched_run/src/lib.rt
  makes_old '' touch crates/sched_task/src/tests.rt
  makes_old '' append crates/sched_driver_tests/src/lib.rt
  makes_old '' append crates/zsched/stdout
  makes_old '' touch crates/sched_plan/must-fail/new.edit
  makes_old '' append README.md
  makes_old '' append docs/C.md
  makes_old '' append python/tests/test_cli.py
}

# bin/zsched by its name, from elsewhere and through links; after a change, and once that is undone.
runs_zsched() {
  local plan=plans/three-times.json want old="bin/zsched: dist/$program is older than its sources, and the Rattle kit, which would build it, is missing"
  want=$("dist/$program" plan "$plan")
  wants 0 "$want" '' bin/zsched plan "$plan"
  wants 0 "$want" '' env -C / "$tree/bin/zsched" plan "$tree/$plan"
  ln -s tree/bin/zsched "$work/link"
  ln -s link "$work/link-of-link"
  wants 0 "$want" '' "$work/link-of-link" plan "$plan"
  wants 3 '' $'zsched: not JSON\nnot JSON: line 1, column 1: the text is empty' bin/zsched plan /dev/null

  append crates/sched_cli/src/lib.rt
  for _ in 1 2; do wants 0 "$want" "$old" bin/zsched plan "$plan"; done
  cp "$top/crates/sched_cli/src/lib.rt" crates/sched_cli/src/lib.rt
  wants 0 "$want" '' bin/zsched plan "$plan"
  # Long after, a file comes whose own time is old.
  touch -d '1 hour' out/zsched-of-dist
  wants 0 "$want" '' bin/zsched plan "$plan"
  touch -d '1 minute ago' out/zsched-of-dist
  { cat crates/sched_cli/src/lib.rt; echo; } >"$work/lib.rt"
  touch -d '2001-01-01' "$work/lib.rt"
  mv "$work/lib.rt" crates/sched_cli/src/lib.rt
  wants 0 "$want" "$old" bin/zsched plan "$plan"
  cp "$top/crates/sched_cli/src/lib.rt" crates/sched_cli/src/lib.rt
  wants 0 "$want" '' bin/zsched plan "$plan"

  # A program that this machine can't run, as one whose loader is older, is refused in a sentence.
  mv "dist/$program" "$work/zsched"
  printf '#!/none\n' >"dist/$program"
  chmod +x "dist/$program"
  rm -rf out
  wants 2 '' "bin/zsched: expected glibc 2.14 or later (aarch64: 2.17), got $(getconf GNU_LIBC_VERSION); docs/INSTALL.md says what else there is" \
    bin/zsched plan "$plan"
  mv "$work/zsched" "dist/$program"
  rm -rf out

  # Where nothing can be noted, it runs too.
  rm -rf out
  touch out
  wants 0 "$want" '' bin/zsched plan "$plan"
  rm out
}

# After a change, where the kit is here, bin/zsched has bin/build build the program, here a script in its place, and runs that.
builds_zsched() {
  cp -p bin/build "$work/build"
  cat >bin/build <<'END'
#!/bin/sh
[ "$1" != --is-built ] || exit 1
mkdir -p crates/zsched/out
printf '#!/bin/sh\necho "built: $*"\n' >crates/zsched/out/zsched
chmod +x crates/zsched/out/zsched
END
  append crates/sched_cli/src/lib.rt
  wants 0 'built: plan --steps 3' '' env HIKEBOX_RT=/bin/true bin/zsched plan --steps 3
  cp "$top/crates/sched_cli/src/lib.rt" crates/sched_cli/src/lib.rt
  rm -rf crates/zsched/out
  cp -p "$work/build" bin/build
}

# says PATTERN: that the last command wrote such a line to standard error
says() {
  grep -q "$1" "$work/err" || {
    echo "tests/commands.sh: expected $1 on standard error, got $(cat "$work/err")" >&2
    failed=1
  }
}

# A program whose run fails is built all the same. The kit is a script here, which proves everything, and builds no program if
# HIKEBOX_BROKEN is set.
builds_what_fails() {
  cat >"$work/kit" <<'END'
#!/bin/sh
name=${PWD##*/}
[ "$1" != lib ] || { mkdir -p out/rlib; exit 0; }
[ -z "$HIKEBOX_BROKEN" ] || { echo "crate $name: not proved"; exit 1; }
mkdir -p out
printf '#!/bin/sh\necho "was given: $*"\nexit 3\n' >"out/$name"
chmod +x "out/$name"
echo "rt: running out/$name; to give it other input, run that file yourself"
"out/$name"
END
  chmod +x "$work/kit"
  rm -rf crates/*/out
  wants 0 '' .. env HIKEBOX_RT="$work/kit" HIKEBOX_BROKEN=1 bin/build --below zsched
  wants 0 "$(bin/crates below zsched | grep -vx zsched | sort)" '' sh -c "find crates -path '*/out/rlib' | cut -d / -f 2 | sort"
  wants 1 '' .. env HIKEBOX_RT="$work/kit" HIKEBOX_BROKEN=1 bin/build zsched plan
  says '^bin/build: zsched is not built; '
  wants 0 '' .. env HIKEBOX_RT="$work/kit" bin/build zsched plan --steps 3
  says '^bin/build: zsched is built, and failed '
  wants 3 'was given: plan' '' crates/zsched/out/zsched plan
  wants 0 '' '' bin/build --is-built zsched
  rm -rf crates/*/out out
}

# spent COMMAND..: the milliseconds of the processor that it takes, with all that it starts
spent() {
  local TIMEFORMAT='%3U %3S'
  { time "$@" >/dev/null 2>&1 </dev/null; } 2>&1 | awk '{ print int(($1 + $2) * 1000 + 0.5) }'
}

# looks_at_files: what bin/zsched has to do beside the program: a shell looks for files that were changed since
looks_at_files() {
  bash -c 'find crates \( -name out -o -name must-fail \) -prune -o -cnewer out/zsched-of-dist -print -quit'
}

# bin/zsched takes at most three times what that takes of the processor more than the program, in one of a hundred tries
# on a machine that may be busy: how long it waits there for a processor is not counted.
costs_little() {
  local own whole looks
  bin/zsched --version >/dev/null
  touch -d '1 hour' out/zsched-of-dist
  for _ in $(seq 100); do
    own=$(spent "dist/$program" --version)
    looks=$(spent looks_at_files)
    whole=$(spent bin/zsched --version)
    [ $((whole - own)) -gt $((3 * looks)) ] || { tried=$((tried + 1)); return 0; }
  done
  echo "tests/commands.sh: bin/zsched takes $whole milliseconds of the processor, the program $own, and to look at the files $looks" >&2
  failed=1
}

# What is said without the kit: a line, and nothing is done.
without_kit() {
  local missing='the Rattle kit is missing (rt, on the PATH or in /opt/rattle/bin); bin/test, bin/zsched and dist/ need none'
  find . >"$work/before"
  wants 2 '' "bin/check: $missing" bin/check
  wants 2 '' "bin/check: $missing" bin/check sched_time
  wants 2 '' "bin/build: $missing" bin/build zsched
  wants 2 '' "bin/dist: $missing" bin/dist
  wants 2 '' 'bin/dist: bin/dist [--proved] [FOLDER], bin/dist --for TRIPLE FOLDER, bin/dist --wheels, or bin/dist --tarball FOLDER' bin/dist one two
  find . | cmp -s - "$work/before" || { echo "tests/commands.sh: files came or went where the kit is missing" >&2; failed=1; }
  wants 2 '' 'bin/crates: crates.txt has no crate none' bin/check none
  wants 2 '' 'bin/crates: crates.txt has no crate none' bin/build none
  wants 2 '' 'bin/build: sched_time is no program' bin/build sched_time
  wants 1 '' '' bin/build --is-built zsched
}

# A crate, and those that stand on it, are proved, tested and edited in turn, and the last line counts them.
with_kit() {
  local few=$work/few
  mkdir -p "$few"/{bin,dist,crates/{low,side,middle,middle_tests,program}}
  cp bin/check bin/crates bin/digest bin/kit "$few/bin"
  printf '#!/bin/sh\nexit 0\n' >"$few/bin/edits"
  chmod +x "$few/bin/edits"
  : >"$few/dist/SOURCES"
  printf '# Crates\nlow:\nside tests_may=Wait: low\nmiddle may_wait=1: low serde_json\nmiddle_tests: middle low\nprogram: side middle\n' \
    >"$few/crates.txt"
  wants 0 $'low\nmiddle' '' "$few/bin/crates" below middle
  wants 0 $'low\nside\nmiddle\nprogram' '' "$few/bin/crates" below program
  wants 0 $'side\nmiddle\nmiddle_tests\nprogram' '' "$few/bin/crates" above side middle
  export HIKEBOX_RT=$work/rt
  # shellcheck disable=SC2016
  printf '#!/bin/sh\nwords="${PWD##*/} $*"\necho "$words" >>%s\n[ "$words" != "$REFUSED" ]\n' "$work/asked" >"$HIKEBOX_RT"
  chmod +x "$HIKEBOX_RT"
  asks '' 'few must-fail middle middle_tests program' '3 passed, 0 failed' middle
  asks 'middle_tests test' 'few must-fail middle middle_tests program' '2 passed, 1 failed' middle
  asks '' 'few must-fail middle side' '2 passed, 0 failed' middle side --alone
  asks 'side check' 'few must-fail middle side' '1 passed, 1 failed' middle side --alone
  asks 'few must-fail side' 'few must-fail side' '1 passed, 1 failed' side --alone
  wants 2 '' 'bin/crates: crates.txt has no crate none' "$few/bin/check" none --alone
}

# asks REFUSED EDITS LINE WORD..: bin/check WORD.. has rt check and test each crate that EDITS names, and then try their
# edits. Where rt refuses REFUSED, LINE is the last line all the same.
asks() {
  local name status=0 asked=
  for name in ${2#few must-fail }; do
    asked+="$name check"$'\n'
    [ "$1" = "$name check" ] || asked+="$name test"$'\n'
  done
  : >"$work/asked"
  REFUSED=$1 "$few/bin/check" "${@:4}" >"$work/out" 2>&1 </dev/null || status=$?
  tried=$((tried + 1))
  [ "$(tail -n 1 "$work/out")" = "$3" ] && [ "$status" = "$((${#1} > 0))" ] && [ "$(cat "$work/asked")" = "$asked$2" ] || {
    echo "tests/commands.sh: bin/check ${*:4}: status $status, asked for $(cat "$work/asked"): $(cat "$work/out")" >&2
    failed=1
  }
}

# bin/check adds up what passed in `rt ci`, in its ledger of wrong bodies, in the comparison of dist/ and in bin/test, here by
# scripts in their place. A fault of each of them is counted, also where it told nothing.
counts() {
  local checks=$work/checks line
  mkdir -p "$checks/bin" "$checks/dist"
  cp bin/check bin/crates bin/kit "$checks/bin"
  echo built >"$checks/dist/zsched"
  printf '#!/bin/sh\nmkdir "$2"\necho "$BUILT" >"$2/zsched"\nexit $DIST\n' >"$checks/bin/dist"
  printf '#!/bin/sh\nexit 0\n' | tee "$checks/bin/build" >"$checks/bin/spent"
  printf '#!/bin/sh\n[ "$1" != --judge ] || exit "$JUDGED"\n' >"$checks/bin/edits"
  printf '#!/bin/sh\n[ "$1" = --strict ] || exit 0\necho "$TESTED"\n[ "$TESTED" = "3 passed, 0 failed" ]\n' >"$checks/bin/test"
  # shellcheck disable=SC2016
  printf '#!/bin/sh\necho "rt: ok"\necho "$LINE"\n[ "$LINE" = "9 passed, 0 failed" ]\n' >"$HIKEBOX_RT"
  chmod +x "$checks"/bin/*
  export LINE BUILT DIST TESTED JUDGED
  while IFS='|' read -r LINE JUDGED BUILT DIST TESTED status line; do
    got=0
    "$checks/bin/check" >"$work/out" 2>&1 </dev/null || got=$?
    tried=$((tried + 1))
    [ "$(tail -n 1 "$work/out")" = "$line" ] && [ "$got" = "$status" ] || {
      echo "tests/commands.sh: bin/check ($LINE|$JUDGED|$BUILT|$DIST|$TESTED): status $got, wanted $status; $(tail -n 1 "$work/out"), wanted $line" >&2
      failed=1
    }
  done <<'END'
9 passed, 0 failed|0|built|0|3 passed, 0 failed|0|14 passed, 0 failed
8 passed, 1 failed|0|built|0|3 passed, 0 failed|1|8 passed, 1 failed
9 passed, 0 failed|1|built|0|3 passed, 0 failed|1|13 passed, 1 failed
9 passed, 0 failed|0|other|0|3 passed, 0 failed|1|13 passed, 1 failed
9 passed, 0 failed|1|other|0|3 passed, 0 failed|1|12 passed, 2 failed
9 passed, 0 failed|0|built|1|3 passed, 0 failed|1|10 passed, 2 failed
9 passed, 0 failed|0|built|0|2 passed, 1 failed|1|13 passed, 1 failed
9 passed, 0 failed|0|built|0|killed|1|11 passed, 1 failed
END
  export HIKEBOX_RT=$work/no-kit
}

# bin/test names its parts, and leaves no process and no file, whether a part ends or it is ended itself.
runs_tests() {
  local process id
  wants 2 '' "bin/test: there is no part nope; the parts are quick, which are some, and $(sed -n 's/^parts=(\(.*\))$/\1/p' bin/test)" bin/test nope blocks
  wants 2 '' 'bin/test: there is no option --quick; bin/test --help lists them' bin/test --quick
  mkdir "$work/tmp"
  wants 0 $'passed  blocks\n1 passed, 0 failed' '' sh -c 'TMPDIR="$1" bin/test blocks | sed "/^bin.test: /d; s/^passed  blocks .*/passed  blocks/"' sh "$work/tmp"
  printf '#!/bin/sh\nsetsid sh -c "echo \\$\\$ >%s; exec sleep 1000" &\nuntil [ -s %s ]; do sleep 0.1; done\n' \
    "$work/id" "$work/id" >tests/blocks.sh
  # shellcheck disable=SC2065
  TMPDIR=$work/tmp bin/test blocks >"$work/out" 2>&1 && failed=1
  tried=$((tried + 1))
  grep -q 'it left a process: .* sleep 1000' "$work/out" && ! is_alive "$(cat "$work/id")" ||
    { echo "tests/commands.sh: bin/test and a part that leaves a process: $(cat "$work/out")" >&2; failed=1; }
  printf '#!/bin/sh\necho $$ >%s\nsleep 1000\n' "$work/id" >tests/blocks.sh
  rm "$work/id"
  # shellcheck disable=SC2065,SC2265
  TMPDIR=$work/tmp bin/test blocks >"$work/out" 2>&1 &
  process=$!
  until [ -s "$work/id" ]; do sleep 0.1; done
  kill -TERM "$process"
  wait "$process" && failed=1
  tried=$((tried + 1))
  id=$(cat "$work/id")
  ! is_alive "$id" && [ -z "$(ls -A "$work/tmp")" ] ||
    { echo "tests/commands.sh: bin/test, ended by a signal, leaves $(ls -A "$work/tmp"), or the process $id" >&2; failed=1; }
}

# installs ANSWER WORD..: tests/packages.sh by one who is root, on a terminal, where a package is missing, with this answer; the
# tools of the system are scripts, which note what they are told
installs() {
  : >"$work/installed"
  env -u CI PATH="$work/tools:$PATH" script -qec "env ${*:2} tests/packages.sh --ask some-package" /dev/null <<<"$1" >"$work/out" 2>&1
}

# Root is asked on a terminal, and not in CI or elsewhere.
asks_root() {
  local question='install them now? \[y/N\]' status
  mkdir "$work/tools"
  printf '#!/bin/sh\necho 0\n' >"$work/tools/id"
  printf '#!/bin/sh\nexit 1\n' >"$work/tools/dpkg-query"
  printf '#!/bin/sh\ncase $* in *assume-no*) ;; *install*) echo "$*" >>%s ;; esac\n' "$work/installed" >"$work/tools/apt-get"
  chmod +x "$work"/tools/*
  for answer in n '' no y; do
    status=0
    installs "$answer" || status=$?
    tried=$((tried + 1))
    grep -q "$question" "$work/out" && [ "$status" = "$([ "$answer" = y ] && echo 0 || echo 1)" ] &&
      [ "$(grep -c some-package "$work/installed")" = $((1 - status)) ] ||
      { echo "tests/commands.sh: root is asked and answers '$answer': $status, $(cat "$work/out" "$work/installed")" >&2; failed=1; }
  done
  installs n CI=true && ! grep -q "$question" "$work/out" && grep -q some-package "$work/installed" ||
    { echo "tests/commands.sh: in CI: $(cat "$work/out" "$work/installed")" >&2; failed=1; }
  : >"$work/installed"
  wants 0 '' .. env -u CI PATH="$work/tools:$PATH" tests/packages.sh --ask some-package
  wants 0 1 '' grep -c some-package "$work/installed"
}

# Where zsched does not run, what needs it is left out by name, and the rest is run: here scripts in the place of the parts.
tests_without_zsched() {
  local part
  cp -a dist "$work/kept"
  printf '#!/bin/sh\nexit 1\n' >"dist/$program"
  for part in smoke.sh program.sh documents.sh versions.sh layers.py nodes.py edits.py blocks.sh; do printf '#!/bin/sh\n' >"tests/$part"; done
  # shellcheck disable=SC2065
  bin/test quick >"$work/out" 2>&1 || failed=1
  tried=$((tried + 1))
  [ "$(grep -o '^left out: [a-z]* *it runs zsched' "$work/out" | sort | awk '{ print $3 }' | xargs)" = 'documents program' ] &&
    [ "$(tail -n 1 "$work/out")" = '6 passed, 0 failed' ] ||
    { echo "tests/commands.sh: bin/test quick without zsched: $(cat "$work/out")" >&2; failed=1; }
  wants 0 "0 passed, 1 failed" "" sh -c "bin/test program | tail -n 1"
  rm "dist/$program"
  wants 0 "6 passed, 0 failed" "" sh -c "bin/test quick | tail -n 1"
  rm -rf dist
  mv "$work/kept" dist
}

wants 0 '' '' find "$top" -name .git -prune -o -name out -prune -o -type l -print
copy
changes
bindings
runs_zsched
builds_zsched
builds_what_fails
costs_little
without_kit
with_kit
counts
asks_root
runs_tests
tests_without_zsched
[ "$failed" = 0 ] || exit 1
echo "tests/commands.sh: $tried runs of the programs of bin/ are as wanted"
