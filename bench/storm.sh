#!/usr/bin/env bash
# What a call of a storm takes, beside the same storm written by hand in Rust on the same machine: nanoseconds, and for the
# defaults instructions, which other work does not change. Started by hand at the top of the repository: bench/storm.sh. It
# needs rt, rustc and valgrind, and for the times a machine with nothing else to do.
cd "$(dirname "$0")/.." && source bench/least.sh
zsched
rustc -O -C target-cpu=x86-64 -o "$work/plain" bench/plain_storm.rs
echo '{"meet":[{"recurs":8},{"jitter":[0,0,1000,{"cap":[10000,{"exponential":[100,2]}]}]}]}' > "$work/plan.json"

# The storm of so many requests a second, on a peer of a capacity that is a quarter greater, by a command before it.
by() { local how=$1; shift; "$how" "$work/zsched" storm --rate "$1" --capacity "$(($1 * 5 / 4))" --queue 5000 --json "$work/plan.json"; }
by_hand() { local how=$1; shift; "$how" "$work/plain" "$1" 60 "$(($1 * 5 / 4))"; }
storm() { by command "$1"; }
plain() { by_hand command "$1"; }
calls() { storm "$1" | sed -E 's/.*"calls":([0-9]+).*/\1/'; }

machine
for rate in 800 4000 17000; do
    count=$(calls "$rate")
    [ "$(plain "$rate" | awk '{ print $5 }')" = "$count" ] || { echo "the two storms differ at $rate" >&2; exit 1; }
    awk -v rate="$rate" -v calls="$count" -v storm="$(least storm "$rate")" -v plain="$(least plain "$rate")" \
        'BEGIN { printf "%d requests a second: %d calls, %.0f ns each, %.1f million a second; by hand %.0f ns, ratio %.2f\n",
            rate, calls, storm / calls, calls * 1000 / storm, plain / calls, storm / plain }'
done
awk -v calls="$(calls 800)" -v storm="$(by instructions 800)" -v plain="$(by_hand instructions 800)" \
    'BEGIN { printf "800 requests a second: %.0f instructions a call; by hand %.0f, ratio %.2f\n", storm / calls, plain / calls, storm / plain }'
