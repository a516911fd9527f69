#!/usr/bin/env bash
# Counts the instructions of one `filtered` and of one `hide` of a head of 16, 64 and 128 headers with
# different names under tainting cors, whose CORS check passes, where `*` is exposed and where one name is.
# A run with 11 rounds and one with a single round are counted; the difference is ten calls.
set -eu
source "$(dirname "${BASH_SOURCE[0]}")/common.bash"
build_bench

for call in filtered hide; do
    for names in '*' X-Name-2; do
        for headers in 16 64 128; do
            many=$(counted "$program" filter "$call" "$names" "$headers" 11)
            one=$(counted "$program" filter "$call" "$names" "$headers" 1)
            printf '%-8s of %3s headers that expose %-8s: %7s instructions\n' \
                "$call" "$headers" "$names" "$(((many - one) / 10))"
        done
    done
done
