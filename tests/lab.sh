#!/usr/bin/env bash
# Opens the page of `hikebox lab` in a headless Chromium, by the engine that HIKEBOX_LIBRARY names, that of dist/ where it
# names none: tests/lab_page.py. HIKEBOX_SHOTS names a folder for screenshots.
set -euo pipefail
top=$(cd "$(dirname "${BASH_SOURCE[0]}")/.." && pwd)
export PYTHONDONTWRITEBYTECODE=1 PYTHONPATH=$top/python/src
HIKEBOX_LIBRARY=$(realpath "${HIKEBOX_LIBRARY:-$top/dist/libhikebox.so}")
export HIKEBOX_LIBRARY
work=$(mktemp -d)
trap 'rm -rf "$work"' EXIT
cd "$top/tests"
/usr/bin/python3 -m pytest -q -p no:cacheprovider -c /dev/null --rootdir . --basetemp "$work/pytest" lab_page.py | tee "$work/said"
echo "tests/lab.sh: $(sed -n 's/^\([0-9]*\) passed.*/\1 tests passed/p' "$work/said") in the browser"
