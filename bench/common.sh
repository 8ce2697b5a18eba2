# What the scripts of the benches share: the server, a folder of their own, a Redis, medians. SERVER names another
# program, FOLDER another disk. Build zcrackd first: (cd crates/zcrackd && rt run -- --help)
here=$(cd "$(dirname "$0")" && pwd)
server=${SERVER:-$(cd "$here/../.." && pwd)/crates/zcrackd/out/zcrackd}
work=$(mktemp -d "${FOLDER:-/var/tmp}/bench.XXXXXX")
redis=
trap 'test -z "$redis" || kill "$redis" 2> /dev/null; rm -rf "$work"' EXIT

# compile NAME: a program of Rust beside the script
compile() { rustc --edition 2021 -O -o "$work/$1" "$here/$1.rs"; }

# milliseconds INPUT OUTPUT COMMAND..: how long a command takes
milliseconds() {
    local begin end
    begin=$(date +%s%N)
    "${@:3}" < "$1" > "$2"
    end=$(date +%s%N)
    echo $(((end - begin) / 1000000))
}

# start_redis PORT OPTION..: a Redis on loopback, which answers
start_redis() {
    redis-server --bind 127.0.0.1 --daemonize no --save "" --port "$@" > "$work/redis.log" &
    redis=$!
}
await_redis() { until redis-cli -p "$1" ping > /dev/null 2>&1; do sleep 0.1; done; }
stop_redis() {
    kill "$redis"
    wait "$redis" || true
    redis=
}

# the middle of numbers, one a line
median() { sort -n | awk '{ a[NR] = $1 } END { print a[int((NR + 1) / 2)] }'; }

# ratios PHASE..: the medians of the lines `PHASE NUMBER` in the files ours and theirs, and their ratio
ratios() {
    local phase
    printf '%-24s %14s %14s %8s\n' phase zcrackd redis ratio
    for phase in "$@"; do
        awk -v p="$phase" -v a="$(awk -v p="$phase" '$1 == p { print $2 }' "$work/ours" | median)" \
            -v b="$(awk -v p="$phase" '$1 == p { print $2 }' "$work/theirs" | median)" \
            'BEGIN { printf "%-24s %14.0f %14.0f %8.2f\n", p, a, b, a / b }'
    done
}
