#!/bin/bash
# `zcrackd serve` on loopback beside a Redis there, with the same clients, in turns. For each work, pipelined or not, on
# one key and on 64, with 1, 2, 4, 50 and 200 connections, and as many workers, but 4 at most: requests a second (ours to
# Redis's: above 1 is quicker) and processor time of the server a request (ours to Redis's: below 1 is less), medians over
# the rounds. Behind them redis-benchmark. Use: bench/serve/run.sh [WORK..]. Redis is Debian's: apt-get install
# redis-server redis-tools. ROUNDS is 5 if not given, REQUESTS 200000, CONNECTIONS "1 2 4 50 200", KEYS "1 64", PIPELINED
# "1 64"; with BENCHMARK= redis-benchmark is left out.
set -eu
source "$(dirname "$0")/../common.sh"
compile drive
works=${*:-zadd zscore zcard zcount ten_lowest ranges_of_100}
requests=${REQUESTS:-200000}
all_connections=${CONNECTIONS:-1 2 4 50 200}
most_workers=4
ours= port=

start_ours() {
    rm -f "$work/line"
    "$server" serve --listen 127.0.0.1:0 --workers "$1" > "$work/line" &
    ours=$!
    until grep -qs listening "$work/line"; do sleep 0.02; done
    port=$(sed 's/.*://' "$work/line")
}
stop_ours() {
    kill "$ours"
    wait "$ours" 2> /dev/null || true
}
# both NAME COMMAND..: a command with the words PORT and PID, against both servers, in turns
both() {
    local words=("${@:2}")
    start_ours "$workers"
    sed "s/^/$1 /" <<< "$("${words[@]/#PORT/$port}" "$ours")" >> "$work/ours"
    stop_ours
    start_redis 7379 --appendonly no
    await_redis 7379
    sed "s/^/$1 /" <<< "$("${words[@]/#PORT/7379}" "$redis")" >> "$work/theirs"
    stop_redis
}
# benchmark PIPELINED PORT COMMAND.. PID: requests a second by redis-benchmark
benchmark() {
    local pipelined=$1 port=$2 command=("${@:3:$#-3}")
    redis-benchmark -p "$port" -c "$connections" -P "$pipelined" -n "$requests" -r 100000 --csv "${command[@]}" 2> /dev/null |
        awk -F'","' 'END { print $2 }'
}
report() {
    awk -v n="$1" -v a="$(awk -v p="$1" '$1 == p { print $2 }' "$work/ours" | median)" \
        -v b="$(awk -v p="$1" '$1 == p { print $2 }' "$work/theirs" | median)" \
        -v c="$(awk -v p="$1" '$1 == p { print $3 }' "$work/ours" | median)" \
        -v d="$(awk -v p="$1" '$1 == p { print $3 }' "$work/theirs" | median)" \
        'BEGIN { printf "%-44s %10.0f %10.0f %6.2f", n, a, b, a / b; if (d > 0) printf " %7.2f", c / d; print "" }'
}

names=
for round in $(seq "${ROUNDS:-5}"); do
    for work_name in $works; do
        for pipelined in ${PIPELINED:-1 64}; do
            for keys in ${KEYS:-1 64}; do
                for connections in $all_connections; do
                    workers=$((connections < most_workers ? connections : most_workers))
                    name="$work_name:P$pipelined:keys$keys:connections$connections"
                    both "$name" "$work/drive" "$work_name" "$connections" "$pipelined" "$keys" "$requests" PORT
                    test "$round" -gt 1 || names="$names $name"
                done
            done
        done
    done
    workers=$most_workers
    for connections in ${BENCHMARK-$all_connections}; do
        for pipelined in ${PIPELINED:-1 64}; do
            end=":P$pipelined:connections$connections"
            both "benchmark:zadd$end" benchmark "$pipelined" PORT ZADD board __rand_int__ member:__rand_int__
            both "benchmark:zscore$end" benchmark "$pipelined" PORT ZSCORE board member:__rand_int__
            both "benchmark:zcard$end" benchmark "$pipelined" PORT ZCARD board
            test "$round" -gt 1 || names="$names benchmark:zadd$end benchmark:zscore$end benchmark:zcard$end"
        done
    done
done
printf '%-44s %10s %10s %6s %7s\n' work zcrackd redis ratio time
for name in $names; do report "$name"; done
