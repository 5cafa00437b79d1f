#!/usr/bin/env bash
# Every figure of docs/BENCHMARKS.md, and of the goals in docs/decisions/costs.md: each benchmark in turn. Started by hand
# at the top of the repository: bench/all.sh, or with the names of some, as bench/all.sh crates leases. It needs what each
# of them needs, which their heads say, and for the times a machine with nothing else to do.
cd "$(dirname "$0")/.." && set -euo pipefail
[ $# -gt 0 ] || set -- draw limit steps retry loop board storm library crates leases
for name; do
    echo "bench/$name:"
    case $name in
        leases | python)
            HIKEBOX_LIBRARY=${HIKEBOX_LIB_DIR:-dist}/libhikebox.so PYTHONPATH=python/src /usr/bin/python3 "bench/$name.py"
            ;;
        *) "bench/$name.sh" ;;
    esac
done
