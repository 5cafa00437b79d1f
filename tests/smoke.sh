#!/usr/bin/env bash
# Tries what dist/ has with python3 and a C compiler alone: the wheel in a Python with nothing else installed, and the
# library for C, linked and loaded, by each group of its tests. HIKEBOX_LIB_DIR names another folder than dist/.
set -euo pipefail
top=$(cd "$(dirname "${BASH_SOURCE[0]}")/.." && pwd)
dist=${HIKEBOX_LIB_DIR:-$top/dist}
work=$(mktemp -d)
trap 'rm -rf "$work"' EXIT

# The wheel, unpacked into a folder, which is what pip does.
wheel=$(HIKEBOX_LIBRARY=$dist/libhikebox.so python3 "$top/python/build_backend.py" wheel "$work/wheels")
mkdir -p "$work/home/bin"
python3 -m zipfile -e "$wheel" "$work/home/hikebox"
printf '#!/bin/sh\nexec python3 -m hikebox "$@"\n' >"$work/home/bin/hikebox"
chmod +x "$work/home/bin/hikebox"
(
  unset HIKEBOX_LIBRARY
  export PYTHONPATH=$work/home/hikebox PYTHONDONTWRITEBYTECODE=1
  cd "$work"
  python3 -W error "$top/python/tests/smoke.py" "$work/home"
)

# The library.
cc -std=gnu11 -Wall -Wextra -O1 "-I$dist" -pthread -o "$work/linked" "$top/tests/library.c" "$top/tests/policies.c" "$top/tests/leases.c" "$top/tests/structs.c" "$top/tests/limits.c" "$top/tests/looks.c" "$top/tests/states.c" "$top/tests/paces.c" "$dist/libhikebox.a"
ln -s "$dist/libhikebox.so" "$work/libhikebox.so.1"
cc -std=gnu11 -Wall -Wextra -O1 "-I$dist" -pthread -o "$work/loaded" "$top/tests/library.c" "$top/tests/policies.c" "$top/tests/leases.c" "$top/tests/structs.c" "$top/tests/limits.c" "$top/tests/looks.c" "$top/tests/states.c" "$top/tests/paces.c" \
  "-L$dist" "-Wl,-rpath,$work" -lhikebox
groups=$("$work/linked" groups)
for program in linked loaded; do
  for group in $groups 'draw 8 100000'; do
    # shellcheck disable=SC2086
    "$work/$program" $group >"$work/out" || { cat "$work/out"; echo "tests/smoke.sh: $program $group" >&2; exit 1; }
  done
done
echo "tests/smoke.sh: the wheel in $(python3 --version), and $(wc -w <<<"$groups") groups of tests in C"
