#!/usr/bin/env bash
# Looks up each block of Rust and of antt in README.md and docs/ in the crates: its lines have to stand, one below the
# other and whatever their indentation, in one file of a crate that crates.txt lists, so that the gate proves them, or in
# rust/README.md, whose block tests/rust.sh runs, as it does those of docs/RUST.md, docs/FROM-TOWER.md and docs/FROM-BACKOFF.md.
set -euo pipefail
top=$(cd "$(dirname "${BASH_SOURCE[0]}")/.." && pwd)
cd "$top"
crates=$(sed -n 's/^\([a-z_0-9]*\)[ :].*/\1/p' crates.txt)
files=()
for crate in $crates; do
  while IFS= read -r file; do files+=("$file"); done < <(find "crates/$crate" -name out -prune -o \( -name '*.rt' -o -name '*.antt' \) -print)
done
pages=()
for page in docs/*.md; do
  case $page in docs/RUST.md | docs/FROM-TOWER.md | docs/FROM-BACKOFF.md) ;; *) pages+=("$page") ;; esac
done
awk '
  function bare(line) { sub(/^[ \t]+/, "", line); sub(/[ \t]+$/, "", line); return line "\n" }
  FNR == 1 { kind = "" }
  !is_page { text[FILENAME] = text[FILENAME] bare($0); next }
  kind == "" && /^```(rust|antt)$/ { kind = "block"; block = "\n"; from = FNR; next }
  kind == "" && /^```/ { kind = "other"; next }
  kind == "other" && /^```$/ { kind = ""; next }
  kind == "block" && /^```$/ {
    kind = ""
    blocks++
    found = 0
    for (file in text) if (index("\n" text[file], block)) { found = 1; break }
    if (!found) { print "tests/blocks.sh: " FILENAME ": the block at line " from " stands in no crate" > "/dev/stderr"; wrong = 1 }
    next
  }
  kind == "block" { block = block bare($0) }
  END {
    if (wrong) exit 1
    print "tests/blocks.sh: " blocks " blocks of the documents stand in the crates"
  }' "${files[@]}" rust/README.md is_page=1 README.md "${pages[@]}"
