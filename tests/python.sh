#!/usr/bin/env bash
# Tests the Python package with the engine's library: its types, and its tests against Debian's own libraries, the files of
# tests side by side. HIKEBOX_LIBRARY names the library, and HIKEBOX_ZSCHED a built zsched to compare with, those of dist/
# where these name none.
set -euo pipefail
top=$(cd "$(dirname "${BASH_SOURCE[0]}")/.." && pwd)
export PYTHONDONTWRITEBYTECODE=1
[ -z "${HIKEBOX_LIBRARY:-}" ] || HIKEBOX_LIBRARY=$(realpath "$HIKEBOX_LIBRARY")
beside=$(mktemp -d)
trap 'rm -rf "$beside"' EXIT
. "$top/tests/beside.sh"

# Strictly, and the same with stubs of other libraries on the machine and without.
types() {
  MYPYPATH=src:../bench/reality mypy --strict --cache-dir "$work/mypy" src tests ../bench/reality
}

# tests FILE: a file of tests, or a folder whose examples are tests. One that hangs for 20 minutes is ended, and tells where.
tests() {
  timeout --foreground --signal ABRT 1200 /usr/bin/python3 -m pytest -q -p no:cacheprovider --basetemp "$work/pytest" "$1"
}

cd "$top/python"
# (those that wait most come first)
longest=(tests/test_run.py tests/test_http_failing.py tests/test_leased_quota.py tests/test_cli.py tests/test_leased.py tests/test_file_store.py tests/test_interrupted.py)
for file in "${longest[@]}"; do beside tests "$file"; done
beside types
for file in tests/test_*.py src; do
  [[ " ${longest[*]} " == *" $file "* ]] || beside tests "$file"
done
all_passed
cat "$beside"/*/log | awk '
  / passed.* in / { for (at = 2; at <= NF; at++) { if ($at ~ /^passed/) passed += $(at - 1); if ($at ~ /^skipped/) skipped += $(at - 1) } }
  END { print "tests/python.sh: " passed " tests passed" (skipped ? ", " skipped " skipped" : "") ", and the types are right" }'
