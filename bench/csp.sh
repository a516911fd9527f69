#!/usr/bin/env bash
# Counts the instructions of one check of a request against 16 policies of 20 host words without path, of
# which the last matches, and against one word with a path of 100, 1,000 and 4,000 bytes. A run with 11
# rounds and one with a single round are counted; the difference is ten checks.
set -eu
source "$(dirname "${BASH_SOURCE[0]}")/common.bash"
build_bench

check() {
    local many one
    many=$(counted "$program" csp "$1" "$2" "$3" 11)
    one=$(counted "$program" csp "$1" "$2" "$3" 1)
    printf '%2s policies of %2s words with a path of %4s bytes: %6s instructions a check\n' \
        "$1" "$2" "$3" "$(((many - one) / 10))"
}

check 16 20 0
for length in 100 1000 4000; do
    check 1 1 "$length"
done
