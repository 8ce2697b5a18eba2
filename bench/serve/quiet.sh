#!/bin/bash
# How long a client that asks seldom waits for the reply to a PING, beside 49 that pipeline 64 requests each without end: in
# `zcrackd serve` with four workers and in a Redis on loopback, in turns, on 64 sets of 100,000 members together. The median,
# the 99th percentile and the most, in microseconds, each the median over the rounds; and the others' requests a second.
# Use: bench/serve/quiet.sh [WORK..]. THREADS of the busy clients is 4 if not given, ROUNDS 3, REQUESTS 4000000. With ALONE=1
# the server has one worker, and the first processor for itself; so has Redis.
set -eu
source "$(dirname "$0")/../common.sh"
compile drive
works=${*:-zcount ten_lowest zcard}
workers=4 of_server=() of_clients=() ours=
if [ -n "${ALONE:-}" ]; then
    workers=1 of_server=(taskset -c 0) of_clients=(taskset -c "1-$(($(nproc) - 1))")
fi

# drive_at NAME WORK PORT PID
drive_at() {
    sed "s/^/$2 /" <<< "$("${of_clients[@]}" "$work/drive" "$2" 49 64 64 "${REQUESTS:-4000000}" "$3" "$4" "${THREADS:-4}")" >> "$work/$1"
}

for round in $(seq "${ROUNDS:-3}"); do
    for name in $works; do
        rm -f "$work/line"
        "${of_server[@]}" "$server" serve --listen 127.0.0.1:0 --workers "$workers" > "$work/line" &
        ours=$!
        until grep -qs listening "$work/line"; do sleep 0.02; done
        drive_at ours "$name" "$(sed 's/.*://' "$work/line")" "$ours"
        kill "$ours"
        wait "$ours" 2> /dev/null || true
        start_redis 7379 --appendonly no
        await_redis 7379
        test -z "${ALONE:-}" || taskset -a -p -c 0 "$redis" > /dev/null
        drive_at theirs "$name" 7379 "$redis"
        stop_redis
    done
done
printf '%-12s %-8s %10s %10s %10s %14s\n' work of median '99 %' most 'others a second'
for name in $works; do
    for of in ours theirs; do
        printf '%-12s %-8s' "$name" "$of"
        for column in 4 5 6; do
            printf ' %10s' "$(awk -v w="$name" -v c="$column" '$1 == w { print $c }' "$work/$of" | median)"
        done
        printf ' %14s\n' "$(awk -v w="$name" '$1 == w { print $2 }' "$work/$of" | median)"
    done
done
