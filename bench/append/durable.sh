#!/bin/bash
# Changes over TCP that are on the device before they are answered: `zcrackd serve --file` with `--sync each` and with
# `--sync group` beside Redis with `appendfsync always`, on one disk, with the same clients, in turns. For each shape, so
# many connections, one change under way on each or 64, on one key or on a key for each connection: changes a second,
# medians over the rounds, and the ratio to Redis (above 1 is quicker). Redis is Debian's: apt-get install redis-server.
# Use: bench/append/durable.sh. ROUNDS is 5 if not given, SCALE (of the number of changes) 1, MODES "each group".
set -eu
source "$(dirname "$0")/../common.sh"
rustc --edition 2021 -O -o "$work/drive" "$here/../serve/drive.rs"
port=7398
# connections, under way on each, keys, changes
shapes=("1 1 1 2000" "4 1 4 4000" "50 1 50 10000" "1 64 1 30000" "4 64 4 60000" "4 64 1 60000")

# measured NAME PID: each shape's changes a second go into the file NAME
measured() {
    local connections pipelined keys changes
    for shape in "${shapes[@]}"; do
        read -r connections pipelined keys changes <<< "$shape"
        changes=$(awk -v n="$changes" -v s="${SCALE:-1}" 'BEGIN { print int(n * s) }')
        "$work/drive" zadd "$connections" "$pipelined" "$keys" "$changes" "$port" "$2" |
            sed "s/^/${connections}x$pipelined:keys$keys /" >> "$work/$1"
    done
}
# serve MODE: our server with a file of its own, and what it takes
serve() {
    rm -f "$work/line" "$work/changes"
    "$server" serve --listen "127.0.0.1:$port" --file "$work/changes" --sync "$1" > "$work/line" &
    local ours=$!
    until grep -qs listening "$work/line"; do sleep 0.02; done
    measured "$1" "$ours"
    kill "$ours"
    wait "$ours" 2> /dev/null || true
}

for round in $(seq "${ROUNDS:-5}"); do
    for mode in ${MODES:-each group}; do serve "$mode"; done
    rm -rf "$work/data" && mkdir "$work/data"
    start_redis "$port" --dir "$work/data" --appendonly yes --appendfsync always --auto-aof-rewrite-percentage 0
    await_redis "$port"
    measured redis "$redis"
    stop_redis
done
printf '%-18s %10s %10s %10s %8s %8s\n' shape each group redis each group
for shape in $(awk '!seen[$1]++ { print $1 }' "$work/group"); do
    for server in each group redis; do
        touch "$work/$server"
        awk -v s="$shape" '$1 == s { print $2 }' "$work/$server" | median
    done |
        awk -v s="$shape" '{ a[NR] = $1 } END { printf "%-18s %10.0f %10.0f %10.0f %8.2f %8.2f\n", s, a[1], a[2], a[3], a[1] / a[3], a[2] / a[3] }'
done
