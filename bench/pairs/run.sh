#!/bin/bash
# The same 1,024,000 pairs in ZADDs of 512 pairs and in ZADDs of one, through `zcrackd stdio`, in turns, with
# many members and with eight that repeat within a request. Prints the ratios of the medians of five: 512
# pairs in one request to 512 requests.
set -eu
source "$(dirname "$0")/../common.sh"
compile generate
for members in 100000 8; do
    "$work/generate" 512 "$members" > "$work/many"
    "$work/generate" 1 "$members" > "$work/one"
    rm -f "$work"/*.ms
    for turn in 1 2 3 4 5; do
        milliseconds "$work/many" "$work/replies" "$server" stdio >> "$work/many.ms"
        milliseconds "$work/one" "$work/replies" "$server" stdio >> "$work/one.ms"
    done
    awk -v m="$members" -v a="$(median < "$work/many.ms")" -v b="$(median < "$work/one.ms")" \
        'BEGIN { printf "%d members: 512 pairs a request %d ms, one %d ms, ratio %.2f\n", m, a, b, a / b }'
done
