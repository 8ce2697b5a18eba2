#!/bin/bash
# Feeds 50 MB of requests to `zcrackd stdio` and to the same work in plain Rust, in turns, five times each,
# compares what they reply, and prints the ratios of the medians.
set -eu
source "$(dirname "$0")/../common.sh"
compile baseline
"$work/baseline" generate "${1:-50000000}" > "$work/input"
for turn in 1 2 3 4 5; do
    milliseconds "$work/input" "$work/ours" "$server" stdio >> "$work/ours.ms"
    for keys in ordered hashed; do
        milliseconds "$work/input" "$work/theirs" "$work/baseline" "$keys" >> "$work/$keys.ms"
    done
done
cmp "$work/ours" "$work/theirs" && echo "the replies are the same"
ours=$(median < "$work/ours.ms")
for keys in ordered hashed; do
    awk -v a="$ours" -v b="$(median < "$work/$keys.ms")" -v k="$keys" \
        'BEGIN { printf "zcrackd %d ms, plain Rust with %s keys %d ms, ratio %.2f\n", a, k, b, a / b }'
done
