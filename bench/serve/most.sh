#!/bin/bash
# The longest that a client waits for the reply to a PING, beside 49 that pipeline 64 requests each without end; and, to
# compare, the longest wait of a client that alone asks those requests one at a time. In `zcrackd serve` with one worker on
# a processor of its own, on 64 sets of 100,000 members together. Microseconds, one figure a round, in rising order.
# Use: bench/serve/most.sh [WORK..]. ROUNDS is 5 if not given, REQUESTS of those that pipeline 300000, and ALONE of the one alone
# 10000, so that both take about half a second: the machine holds up a longer run for longer. The first range of each set is
# among them.
set -eu
source "$(dirname "$0")/../common.sh"
compile most
works=${*:-zcount ten_lowest zcard}
requests=${REQUESTS:-300000}

# most_of WORK alone|beside REQUESTS
most_of() {
    local ours
    rm -f "$work/line"
    taskset -c 0 "$server" serve --listen 127.0.0.1:0 --workers 1 > "$work/line" &
    ours=$!
    until grep -qs listening "$work/line"; do sleep 0.02; done
    taskset -c "1-$(($(nproc) - 1))" "$work/most" "$1" "$2" 64 "$3" "$(sed 's/.*://' "$work/line")" >> "$work/$1.$2"
    kill "$ours"
    wait "$ours" 2> /dev/null || true
}

for round in $(seq "${ROUNDS:-5}"); do
    for name in $works; do
        most_of "$name" beside "$requests"
        most_of "$name" alone "${ALONE:-10000}"
    done
done
for name in $works; do
    for of in beside alone; do
        printf '%-12s %-8s' "$name" "$of"
        sort -n "$work/$name.$of" | awk '{ printf " %s", $1; left += $2 } END { print "; left out", left }'
    done
done
