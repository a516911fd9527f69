#!/usr/bin/env bash
# Calls a shared book from 1, 2 and 4 threads with a pass each, from 4 threads with 64 passes, and from 64
# threads with a pass each, and prints the calls a second, the best of three runs. Threads do nothing between
# two calls, so that all of them wait all the time.
set -eu
source "$(dirname "${BASH_SOURCE[0]}")/common.bash"
build_bench

# The calls a second of so many threads and passes, each of which makes so many calls.
measure() {
    local threads=$1 passes=$2 calls=$3 best=0 seconds rate
    for _ in 1 2 3; do
        seconds=$( { TIMEFORMAT=%R; time "$program" turn "$threads" "$passes" "$calls" >/dev/null; } 2>&1 )
        rate=$(awk -v n="$((passes * calls))" -v s="$seconds" 'BEGIN { printf "%d", n / (s > 0.001 ? s : 0.001) }')
        if [ "$rate" -gt "$best" ]; then best=$rate; fi
    done
    printf '%2s threads, %2s passes: %9s calls a second\n' "$threads" "$passes" "$best"
}

measure 1 1 300000
measure 2 2 150000
measure 4 4 75000
measure 4 64 4000
measure 64 64 1000
