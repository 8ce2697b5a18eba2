#!/bin/bash
# The append file beside Redis's on one disk, in turns, with the same changes: changes a second that are on the
# device before they are answered, one under way at a time and pipelined, the reload of 1,000,000 changes in
# milliseconds, and the bytes of a file of counters and best scores. Pipelined, Redis syncs once for all changes that it
# read at once, and so does `zcrackd stdio` with `--sync group`; without that it syncs once for each. Prints medians and their ratio (zcrackd to Redis), and how long a file of
# version 1 takes, which is renewed. Redis is Debian's: apt-get install redis-server. ROUNDS is 5 if not given.
set -eu
source "$(dirname "$0")/../common.sh"
compile drive
port=7398
start_logging() {
    start_redis "$port" --dir "$work/redis" --appendonly yes --appendfsync "$1" \
        --auto-aof-rewrite-percentage 0 --aof-use-rdb-preamble no
}
# fill_redis FILE: a Redis that begins with nothing takes these requests
fill_redis() {
    rm -rf "$work/redis" && mkdir "$work/redis"
    start_logging no
    await_redis "$port"
    redis-cli -p "$port" --pipe < "$1" > /dev/null
    stop_redis
}
# of_a_group: the same lines under other names
of_a_group() { sed 's/ /_group /'; }
for round in $(seq "${ROUNDS:-5}"); do
    rm -rf "$work/ours.append" "$work/grouped.append" "$work/redis" && mkdir "$work/redis"
    "$work/drive" run 2000 20000 stdio "$server" stdio --file "$work/ours.append" >> "$work/ours"
    "$work/drive" run 2000 20000 stdio "$server" stdio --file "$work/grouped.append" --sync group | of_a_group >> "$work/ours"
    start_logging always
    await_redis "$port"
    "$work/drive" run 2000 20000 tcp "$port" "$redis" | tee >(of_a_group >> "$work/theirs") >> "$work/theirs"
    stop_redis
done
"$work/drive" changes "${CHANGES:-1000000}" > "$work/changes.append"
fill_redis "$work/changes.append"
printf '*2\r\n$7\r\nZCRACKD\r\n$1\r\n2\r\n' | cat - "$work/changes.append" > "$work/effects.append"
for round in $(seq "${ROUNDS:-5}"); do
    "$work/drive" reload "$server" stdio --file "$work/effects.append" >> "$work/ours"
    cp "$work/changes.append" "$work/old.append"
    "$work/drive" reload "$server" stdio --file "$work/old.append" | sed 's/^reload/renewed/' >> "$work/renewed"
    begin=$(date +%s%N)
    start_logging no
    "$work/drive" loaded "$begin" tcp "$port" "$redis" >> "$work/theirs"
    stop_redis
done
"$work/drive" counters "${COUNTERS:-30000}" > "$work/counters"
fill_redis "$work/counters"
"$server" stdio --file "$work/counted.append" < "$work/counters" > /dev/null
echo "file_of_counters $(stat -c %s "$work/counted.append")" >> "$work/ours"
echo "file_of_counters $(cat "$work/redis"/appendonlydir/*incr* | wc -c)" >> "$work/theirs"
ratios in_turn in_turn_group pipelined pipelined_group reload members file_of_counters
echo "renewed: $(awk '$1 == "renewed" { print $2 }' "$work/renewed" | median) ms"
