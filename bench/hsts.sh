#!/usr/bin/env bash
# Counts the instructions of one `is_known` of the host list over 64, 512 and 4,096 hosts of three labels,
# on average over 64 of the hosts and 64 names that are not known. A run with 10 rounds and one with none
# are counted; the difference is the questions'.
set -eu
source "$(dirname "${BASH_SOURCE[0]}")/common.bash"
build_bench

for hosts in 64 512 4096; do
    asked=$(counted "$program" hsts "$hosts" 10)
    filled=$(counted "$program" hsts "$hosts" 0)
    printf '%5s hosts: %6s instructions a question\n' "$hosts" "$(((asked - filled) / 1280))"
done
