#!/usr/bin/env bash
# Makes the site by bin/docs, where a warning and a link that leads nowhere are errors, and looks that it has all: each
# page, each name that the Python package exports, each call and each constant of include/hikebox.h, and the Rust crate.
set -euo pipefail
top=$(cd "$(dirname "${BASH_SOURCE[0]}")/.." && pwd)
cd "$top"
work=$(mktemp -d)
trap 'rm -rf "$work"' EXIT
export HIKEBOX_LIBRARY=${HIKEBOX_LIBRARY:-$top/dist/libhikebox.so}
bin/docs "$work/site"
failed=0

# has FILE TEXT
has() {
  grep -qF -- "$2" "$work/site/$1" || {
    echo "tests/docs.sh: $1 lacks $2" >&2
    failed=1
  }
}

for page in docs/*.md docs/*/*.md; do
  [ -e "$work/site/${page%.md}.html" ] || { echo "tests/docs.sh: there is no ${page%.md}.html" >&2; failed=1; }
done
cat "$work"/site/reference/python/*.html >"$work/site/python"
mapfile -t names < <(PYTHONPATH=python/src /usr/bin/python3 -c '
import hikebox, hikebox.http, hikebox.leased, hikebox.sweeps, hikebox.testing
for module in (hikebox, hikebox.http, hikebox.leased, hikebox.sweeps, hikebox.testing):
    print(*(f"{module.__name__}.{name}" for name in module.__all__), sep="\n")')
[ ${#names[@]} -gt 50 ]
for name in "${names[@]}"; do has python "id=\"$name\""; done
mapfile -t names < <(grep -oE '^#define HIKEBOX_[A-Z_]+|^    HIKEBOX_[A-Z_0-9]+ =|\bhikebox_[a-z_]+\(|^\} hikebox_[a-z_]+' include/hikebox.h |
  grep -oE '(hikebox|HIKEBOX)_\w+' | grep -vxE 'HIKEBOX_(H|CHECKED|IMPORTED)' | sort -u)
[ ${#names[@]} -gt 100 ]
for name in "${names[@]}"; do has reference/c.html "id=\"c.$name\""; done
has searchindex.js hikebox_retry_poll
has reference/programs.html '--limit'
has reference/programs.html '--turns'
has rust/hikebox/all.html struct.Policy.html
[ "$failed" = 0 ]
echo "tests/docs.sh: the site has each page, and each name of the references"
