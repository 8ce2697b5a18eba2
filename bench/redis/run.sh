#!/bin/bash
# One set of 1,000,000 members in `zcrackd stdio` and in a Redis on loopback, with the same commands, in turns.
# Prints for each phase the medians and their ratio (zcrackd to Redis; below 1 is quicker or smaller), and
# leaves the times of 1,000 ZCOUNTs at random bounds in curve.zcrackd and curve.redis beside this script.
# Redis is Debian's: apt-get install redis-server. ROUNDS is 5 if not given.
set -eu
source "$(dirname "$0")/../common.sh"
compile drive
port=7399
for round in $(seq "${ROUNDS:-5}"); do
    CURVE=$here/curve.zcrackd "$work/drive" stdio "$server" stdio >> "$work/ours"
    start_redis "$port" --appendonly no
    await_redis "$port"
    CURVE=$here/curve.redis "$work/drive" tcp "$port" "$redis" >> "$work/theirs"
    stop_redis
done
ratios $(awk '!seen[$1]++ { print $1 }' "$work/ours")
