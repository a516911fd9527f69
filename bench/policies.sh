#!/usr/bin/env bash
# What policies cost: the instructions of the proved program, reading and printing included, of a fetch more from 50 to
# 100 fetches, in a document without policies and in one of 16 policies with 20 host words each, none of them violated.
set -eu
source "$(dirname "${BASH_SOURCE[0]}")/common.bash"
build_fetchplay

# The headers of a document with so many policies; only the last word of each lets the request in.
policies() {
    local count=$1
    for ((p = 0; p < count; p++)); do
        ((p == 0)) || printf ','
        printf '["Content-Security-Policy","connect-src'
        for ((w = 0; w < 19; w++)); do printf ' https://host%d.example%d.test' "$w" "$p"; done
        printf ' %s"]' "$origin"
    done
}

# A scenario of a document with so many policies and fetches.
document() {
    printf '{"format":1,"servers":[{"origin":"%s","rules":[{"status":200,"body":"ok"}]}],' "$origin"
    printf '"documents":[{"url":"%s/","headers":[%s],"script":[' "$origin" "$(policies "$1")"
    fetches '"url":"/"' "$2"
    printf ']}]}'
}

without=$(fetch_more 50 100 document 0)
with=$(fetch_more 50 100 document 16)
printf 'a fetch more without policies: %d instructions; with 16 of 20 words: %d; these add %d\n' \
    "$without" "$with" $((with - without))
