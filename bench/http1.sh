#!/usr/bin/env bash
# Counts the instructions a byte of the two readers: a head of 8 KB, and a body of 256 KB with its length and
# in chunks, in pieces of 1, 16, 1,460 and 4,096 bytes. A run with three rounds and one with one are counted;
# the difference is two rounds'.
set -eu
source "$(dirname "${BASH_SOURCE[0]}")/common.bash"
build_bench

# How many bytes a round reads.
declare -A bytes=([head]=8019 [plain]=262144 [chunked]=263941)

for kind in head plain chunked; do
    for piece in 1 16 1460 4096; do
        three=$(counted "$program" http1 "$kind" "$piece" 3)
        one=$(counted "$program" http1 "$kind" "$piece" 1)
        per_byte=$(((three - one) * 50 / bytes[$kind]))
        printf '%-7s in pieces of %4s: %3s.%02d instructions a byte\n' \
            "$kind" "$piece" $((per_byte / 100)) $((per_byte % 100))
    done
done
