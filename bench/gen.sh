#!/usr/bin/env bash
# What documents on threads cost, on the proved program: the instructions of `gen 8` and of `gen 64`, on one processor,
# and how many times the one is the other; the memory of `gen 64` at its peak; and its wall and processor time on one
# processor and on all, the median of 32 runs.
set -eu
source "$(dirname "${BASH_SOURCE[0]}")/common.bash"
build_fetchplay

# The instructions of `gen N`.
instructions_of() {
    taskset -c 0 valgrind --tool=callgrind --callgrind-out-file="$work/out" "$program" gen "$1" >/dev/null 2>"$work/log"
    sed -n 's/.*Collected : //p' "$work/log"
}

few=$(instructions_of 8)
many=$(instructions_of 64)
printf 'gen 8: %d instructions; gen 64: %d, which is %d.%02d times as many\n' "$few" "$many" \
    $((many / few)) $((many * 100 / few % 100))

# What bin/fetchplay gives the allocator.
export MALLOC_ARENA_MAX=16 MALLOC_TOP_PAD_=4194304 MALLOC_TRIM_THRESHOLD_=8388608 MALLOC_MMAP_THRESHOLD_=4194304

/usr/bin/time -f '%M' -o "$work/memory" "$program" gen 64 >/dev/null
printf 'gen 64: %d kilobytes of memory\n' "$(cat "$work/memory")"

# Adds the milliseconds of a run of `gen 64` on these processors to a file: wall time, and user and system time.
run_on() {
    { TIMEFORMAT='%R %U %S'; time taskset -c "$1" "$program" gen 64 >/dev/null; } 2>&1 \
        | awk '{ printf "%d %d\n", $1 * 1000, ($2 + $3) * 1000 }' >>"$work/$2"
}

# The median of a column of such a file.
median() {
    sort -n -k "$2" "$work/$1" | sed -n 16p | cut -d ' ' -f "$2"
}

# 32 runs each, in turns: on one processor, which is another each time, and on all.
for ((run = 0; run < 32; run++)); do
    run_on $((run % $(nproc))) one
    run_on 0-$(($(nproc) - 1)) all
done
printf 'on one processor: %d ms, of which the processor took %d\n' "$(median one 1)" "$(median one 2)"
printf 'on %d processors: %d ms, of processor time %d\n' "$(nproc)" "$(median all 1)" "$(median all 2)"
