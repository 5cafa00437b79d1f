#!/usr/bin/env bash
# Compares every printed plan, pool and check in README.md and docs/ with what the program prints. A `sh` block with a
# line `bin/zsched WORDS < plans/NAME.json`, or `< jobs/NAME.json`, or with the file's name as its last word, is followed
# by a `text` block, its whole output; a `json` block before it, under the same heading, is the file's text. It fails where
# one of them differs, and where no document prints a plan or a pool of these folders; where a link of a page leads nowhere,
# a figure of README.md is not the measured one, or the list of the crates is not what the crates say (tests/links.py,
# tests/figures.py, tests/lists.py).
# HIKEBOX_ZSCHED names the program, that of dist/ where it does not.
set -euo pipefail
top=$(cd "$(dirname "${BASH_SOURCE[0]}")/.." && pwd)
zsched=${HIKEBOX_ZSCHED:-$top/dist/zsched}
work=$(mktemp -d)
trap 'rm -rf "$work"' EXIT
failed=0
printed=0
touch "$work/used"

fails() {
  echo "tests/documents.sh: $*" >&2
  failed=1
}

# same_as WANTED WHAT: whether the block is the file WANTED
same_as() {
  if ! diff "$work/block" "$1" >"$work/diff" 2>&1; then
    fails "$document: $2 differs: $(head -c 300 "$work/diff")"
  fi
}

# takes_command LINE: notes a line that runs zsched on a file, without the remark after it, and compares the json block
takes_command() {
  local line=${1%%#*}
  case $line in
    bin/zsched\ *plans/*.json* | bin/zsched\ *jobs/*.json*) ;;
    *) return 0 ;;
  esac
  [ -z "$command" ] || fails "$document: no text follows $command"
  command=${line%"${line##*[! ]}"}
  input=${command##* }
  input=${input#<}
  echo "$input" >>"$work/used"
  if [ -s "$work/json" ]; then
    cp "$work/json" "$work/block"
    same_as "$top/$input" "the text of $input"
  fi
}

# compares what the command prints with the block
compares_output() {
  local words=${command#bin/zsched } from=/dev/null
  case $words in *\<*) from=$input ;; esac
  read -r -a words <<<"${words%%<*}"
  if ! (cd "$top" && "$zsched" "${words[@]}" <"$from") >"$work/out"; then
    fails "$document: $command: it ends with a fault"
  fi
  same_as "$work/out" "what $command prints"
  printed=$((printed + 1))
  command=
}

# reads a document line by line; `kind` is the kind of the block that a line is in
reads_document() {
  local kind='' line
  document=$1
  command=
  input=
  : >"$work/json"
  while IFS= read -r line || [ -n "$line" ]; do
    case $kind:$line in
      :'```'*)
        kind=${line#'```'}
        kind=${kind:-plain}
        : >"$work/block"
        ;;
      :'#'*) : >"$work/json" ;;
      :*) ;;
      json:'```') cp "$work/block" "$work/json"; kind= ;;
      text:'```') [ -z "$command" ] || compares_output; kind= ;;
      *:'```') kind= ;;
      sh:*) takes_command "$line" ;;
      *) printf '%s\n' "$line" >>"$work/block" ;;
    esac
  done <"$top/$document"
  [ -z "$command" ] || fails "$document: no text follows $command"
}

for document in README.md $(cd "$top" && ls docs/*.md); do
  reads_document "$document"
done

for input in $(cd "$top" && ls plans/*.json jobs/*.json); do
  grep -qxF "$input" "$work/used" || fails "no document prints $input"
done

"$top/tests/links.py" >"$work/links" || failed=1
"$top/tests/figures.py" >"$work/figures" || failed=1
"$top/tests/lists.py" --check >"$work/lists" || failed=1

if [ "$failed" = 0 ]; then
  echo "tests/documents.sh: the documents print $printed plans and pools of jobs as the program does"
else
  exit 1
fi
