#!/usr/bin/env bash
# Counts the instructions of one `covers` of the preflight cache over 1, 100 and 10,000 keys of 64
# entries: of 100 keys in turn the last entry is asked for, so that all 64 are looked at. A run with ten
# such rounds and one with none are counted; the difference is the questions'.
set -eu
source "$(dirname "${BASH_SOURCE[0]}")/common.bash"
build_bench

for keys in 1 100 10000; do
    asked=$(counted "$program" precache "$keys" 10)
    filled=$(counted "$program" precache "$keys" 0)
    printf '%6s keys: %6s instructions a question\n' "$keys" "$(((asked - filled) / 1000))"
done
