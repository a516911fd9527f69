#!/usr/bin/env bash
# What bin/har takes for one recording of 10,000, 20,000 and 40,000 entries (bench/recordings), and --many for
# recordings with 50, 1,000 and 10,000, by 1, 2 and 4 jobs: the wall time, the processor time and the recordings in a
# second, with all that is beside them (the start, the summary), and the memory of the largest process. The machine is
# to do nothing else, and what it does is told (the load). FETCHPLAY names the program; a number as a word is that of
# recordings in each run of many, in the place of 400, 40 and 8.
set -eu
source "$(dirname "${BASH_SOURCE[0]}")/common.bash"
build_fetchplay
export FETCHPLAY=$program

echo "the load before: $(cut -d ' ' -f 1-3 /proc/loadavg), of $(nproc) processors"

# One recording with so many entries.
single() {
    "$root/bench/recordings" "$1" >"$work/single.har"
    /usr/bin/time -f '%e %U %S %M' -o "$work/time" "$root/bin/har" "$work/single.har" >/dev/null || [ $? = 1 ]
    tail -n 1 "$work/time" | awk -v entries="$1" -v size="$(stat -c %s "$work/single.har")" '{
        printf "%d entries, %d MB: %.2f s, %.2f s of processors, %d MB of memory\n",
            entries, size / 1000000, $1, $2 + $3, $4 / 1024 }'
}

# So many recordings with so many entries each, which are one file, named again and again.
measure() {
    local entries=$1 count=$2
    "$root/bench/recordings" "$entries" >"$work/$entries.har"
    for ((i = 0; i < count; i++)); do printf '%s\n' "$work/$entries.har"; done >"$work/list"
    for jobs in 1 2 4; do
        rm -f "$work/lines"
        /usr/bin/time -f '%e %U %S %M' -o "$work/time" "$root/bin/har" --many "$work/list" --jobs "$jobs" \
            --out "$work/lines" >"$work/summary" || [ $? = 1 ]
        [ "$(wc -l <"$work/lines")" = $((count + 1)) ] || { echo "$work/lines lacks recordings" >&2; exit 1; }
        tail -n 1 "$work/time" | awk -v entries="$entries" -v count="$count" -v jobs="$jobs" '{
            printf "%d entries, %d recordings, %d jobs: ", entries, count, jobs
            printf "%.2f s, %.2f s of processors, %.1f recordings in a second, %d MB\n",
                $1, $2 + $3, count / ($1 > 0 ? $1 : 0.01), $4 / 1024 }'
    done
}

single 10000
single 20000
single 40000
measure 50 "${1:-400}"
measure 1000 "${1:-40}"
measure 10000 "${1:-8}"
