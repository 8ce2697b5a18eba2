#!/bin/bash
# Everyday work on one set in `zcrackd stdio`, on a pair of Unix sockets, and in a Redis on its Unix socket, with the
# same client and the same requests, in turns. Prints for each work the processor time of the servers a command, as
# means over the rounds, or the resident bytes a member, and their ratio (zcrackd to Redis; below 1 is quicker or
# smaller). Use: bench/everyday/run.sh [MEMBERS [WORK..]]. Redis is Debian's: apt-get install redis-server. ROUNDS is
# 5 if not given. OLDER names an older build of the program, which is driven in turns too; a last column has zcrackd to it,
# but where it does not know the command.
set -eu
source "$(dirname "$0")/../common.sh"
compile drive
members=${1:-100000}
shift || true
works=${*:-"first_update_and_top_ten first_update_and_rank update_and_top_ten update_and_rank counters_by_incr \
two_scores ten_scores hundred_scores 1000_counts_at_new_bounds mix ranges_of_100_at_new_bounds ranges_of_100_again \
updates updates_after_ranges zscore load rate_limiter schedule_by_time schedule_by_lowest pages_of_100 \
pages_by_offset emptied removals_of_10 removals_of_1000 removals_of_100000 bytes_in_sets_of_50 bytes_of_13 bytes_of_200"}
if [ "$members" -lt 100000 ]; then works=${works/removals_of_100000/}; fi
for round in $(seq "${ROUNDS:-5}"); do
    for work_name in $works; do
        "$work/drive" "$work_name" "$members" "$round" pair "$server" stdio >> "$work/ours"
        if [ -n "${OLDER:-}" ]; then
            "$work/drive" "$work_name" "$members" "$round" pair "$OLDER" stdio >> "$work/older" 2> /dev/null || true
        fi
        start_redis 0 --appendonly no --unixsocket "$work/socket"
        until redis-cli -s "$work/socket" ping > /dev/null 2>&1; do sleep 0.02; done
        "$work/drive" "$work_name" "$members" "$round" unix "$work/socket" "$redis" >> "$work/theirs"
        stop_redis
    done
done
# mean WORK SIDE
mean() { awk -v p="$1" '$1 == p { s += $2; k += 1 } END { print k ? s / k : 0 }' "$work/$2"; }

echo "$members members, $(redis-server --version | sed 's/.* v=\([^ ]*\).*/Redis \1/')"
touch "$work/older"
for work_name in $works; do
    awk -v n="$work_name" -v a="$(mean "$work_name" ours)" -v b="$(mean "$work_name" theirs)" \
        -v c="$(mean "$work_name" older)" \
        'BEGIN { printf "%-28s %12.0f %12.0f %9.2f", n, a, b, a / b; if (c) printf " %9.2f", a / c; print "" }'
done
