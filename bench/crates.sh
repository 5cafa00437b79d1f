#!/usr/bin/env bash
# The instructions that a call takes which succeeds at once, what its first failure takes more, and a retry that is
# granted after others: by the Rust crate, with a policy of one node and of six, by backoff, by tower with a policy of
# its own and by the layer of this crate for tower. Then what a refused call takes, and a success on a quota, a bucket, a
# breaker, two of each at once, and a bound on what is in flight; and a turn of a pace that comes at once, beside one by
# hand. Started by hand at the top of the repository:
# bench/crates.sh. With --check it counts tower's alone, and fails where they take too much more by this crate's layer
# than by its own: more than 1.2 times for a success, and 2.5 times for a granted retry. It needs cargo, valgrind, what
# tests/rust.sh installs, and librust-retry-dev of Debian. Instructions don't depend on what else the machine does.
# HIKEBOX_LIB_DIR names the library's folder, dist/ where it does not.
cd "$(dirname "$0")/.." && source bench/least.sh
export HIKEBOX_LIB_DIR=${HIKEBOX_LIB_DIR:-$PWD/dist}

# Built in out/bench_rust, where that can be written.
room=$PWD/out/bench_rust
{ mkdir -p "$room" && [ -w "$room" ]; } 2>/dev/null || room=$(mktemp -d)
cp -r bench/rust/src "$room"
sed "s#\.\./\.\./rust#$PWD/rust#" bench/rust/Cargo.toml >"$room/Cargo.toml"
export CARGO_TARGET_DIR=${CARGO_TARGET_DIR:-$room/target}
(cd "$room" && cargo build --release --offline --quiet --bin counted \
  --config 'source.crates-io.replace-with="debian"' --config 'source.debian.directory="/usr/share/cargo/registry"')
counted=$CARGO_TARGET_DIR/release/counted

# of CASE FAILURES: instructions of one call that fails so often and then succeeds
of() {
  per_unit 10000 "$(instructions "$counted" "$1" "$2" 1000)" "$(instructions "$counted" "$1" "$2" 11000)"
}

# tells CASE: prints what its calls take
tells() {
  awk -v c="$1" -v none="$(of "$1" 0)" -v one="$(of "$1" 1)" -v ten="$(of "$1" 10)" -v twenty="$(of "$1" 20)" '
    BEGIN {
      printf "%s: a success %.0f instructions, the first failure %.0f, a granted retry after ten others %.0f\n",
        c, none, one - none, (twenty - ten) / 10
    }'
}

if [ "${1:-}" = --check ]; then
  told=$(tells tower && tells hikebox-in-tower)
  echo "$told"
  awk '
    { for (at = 1; at <= NF; at++) if ($at == "success") success[NR] = $(at + 1); granted[NR] = $NF }
    END {
      whole = success[2] / success[1]; retry = granted[2] / granted[1]
      printf "beside a policy of tower a success takes %.2f times the instructions, a granted retry %.2f times\n", whole, retry
      exit !(whole <= 1.2 && retry <= 2.5)
    }' <<<"$told"
  exit
fi
machine
for case in hikebox hikebox-six backoff tower hikebox-in-tower; do tells "$case"; done
printf 'hikebox-refused: a refused call %.0f instructions\n' "$(of hikebox-refused 1)"
for case in quota bucket breaker four in-flight; do
  printf 'hikebox-%s: a success %.0f instructions\n' "$case" "$(of "hikebox-$case" 0)"
done
printf 'hikebox-pace: a turn that comes at once %.0f instructions, by hand %.0f\n' "$(of hikebox-pace 0)" "$(of plain-pace 0)"
