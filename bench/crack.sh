#!/bin/bash
# Runs crates/bench and the Rust program beside this script in turns, five times each, with another
# seed each time, and prints the medians and their ratios.
#
# Use: bench/crack.sh [ROWS [OLDER]]      (1,000,000 rows if left out)
#
# OLDER is another build of crates/bench, as of an older commit: then the merges of few rows are run by
# both builds in turns. It proves and builds the bench first where that is not done; rustc must be there.
set -euo pipefail
cd "$(dirname "$0")/.."
rows=${1:-1000000}
older=${2:-}
rounds=5
(cd crates/bench && rt run > /dev/null)
ours=$PWD/crates/bench/out/bench
work=$(mktemp -d)
trap 'rm -r "$work"' EXIT
rustc --edition 2021 -O -o "$work/rust" bench/crack.rs

# in_turns WORK BESIDE PROGRAM NAME [ARGUMENT..]: both programs do NAME in turns
in_turns() {
    local work_name=$1 beside=$2 program=$3 name=$4
    shift 4
    for seed in $(seq $rounds); do
        "$ours" "$name" "$rows" "$seed" "$@" | sed "s/^$name /$work_name /; s/^/ours $seed /" >> "$work/times"
        "$program" "$name" "$rows" "$seed" "$@" | sed "s/^$name /$work_name /; s/^/$beside $seed /" >> "$work/times"
    done
}

for name in crack plain pivots settled; do
    in_turns $name Rust "$work/rust" $name
done
for ranges in 0 32 512 2048; do
    in_turns "2048_updates_a_merge,_$((2 * ranges))_pivots" Rust "$work/rust" merge $ranges 2048 5
    if [ -n "$older" ]; then
        for updates in 1 2 10; do
            in_turns "${updates}_updates_a_merge,_$((2 * ranges))_pivots" older "$older" merge $ranges $updates $((400 / updates))
        done
    fi
done

# Lines of the file: who, seed, work, outcome, microseconds. A row of the slice has 32 bytes.
sort -k3,3 -k1,1 -k5,5n "$work/times" | awk -v rows="$rows" -v rounds="$rounds" '
    { key = $1 " " $3; n[key] += 1; if (n[key] == int((rounds + 1) / 2)) median[key] = $5
      same = $2 " " $3; if ((same in out) && out[same] != $4) print "outcomes differ: " same; out[same] = $4
      if ($1 != "ours") beside[$3] = $1 }
    END {
        for (name in beside) {
            a = median["ours " name]; b = median[beside[name] " " name]
            rate = name ~ /^(two|three|copy)$/ ? sprintf(", %.1f and %.1f GB of rows a second", rows * 32 / 1000 / a, rows * 32 / 1000 / b) : ""
            printf "%-40s ours %9d us, %s %9d us, ratio %.2f%s\n", name, a, beside[name], b, a / b, rate
        }
    }' | sort
