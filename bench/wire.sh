#!/usr/bin/env bash
# What a fetch over the wire costs: the instructions of the proved program, reading and printing included, on
# scripts of 500 and 1,000 fetches whose answers have two headers and a body of 1,024 bytes. Each answer comes
# in one piece, or in pieces of so many bytes where a number is given.
set -eu
source "$(dirname "${BASH_SOURCE[0]}")/common.bash"
build_fetchplay

body=$(printf 'b%.0s' {1..1024})
headers='["Content-Type","text/plain"],["Content-Length","1024"]'
rule="{\"status\":200,\"headers\":[$headers],\"body\":\"$body\"}"
piece=${1:-4096}
some=$(played "$rule" "$piece" 500)
many=$(played "$rule" "$piece" 1000)
printf '500 fetches: %d instructions, 1,000: %d; a fetch more: %d\n' \
    "$some" "$many" $(((many - some) / 500))
