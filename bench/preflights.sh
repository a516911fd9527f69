#!/usr/bin/env bash
# What a preflight that the cache covers costs: the instructions of the proved program, reading and printing included,
# of a PUT more to another origin whose preflight was made before, and of a GET more, which needs none, from 125 to 250
# and from 250 to 500 fetches.
set -eu
source "$(dirname "${BASH_SOURCE[0]}")/common.bash"
build_fetchplay

# A scenario whose script makes so many equal requests with a method to another origin.
requests() {
    local method=$1 count=$2
    local allowed='["Access-Control-Allow-Origin","*"]'
    printf '{"format":1,"servers":[{"origin":"https://b.test","rules":[{"method":"OPTIONS","status":200,"headers":['
    printf '%s,["Access-Control-Allow-Methods","PUT"],["Access-Control-Max-Age","7200"]]},' "$allowed"
    printf '{"status":200,"headers":[%s],"body":"ok"}]}],"documents":[{"url":"%s/","script":[' "$allowed" "$origin"
    fetches "\"url\":\"https://b.test/\",\"method\":\"$method\"" "$count"
    printf ']}]}'
}

for method in GET PUT; do
    printf 'a %s more: %d instructions from 125 to 250, %d from 250 to 500\n' "$method" \
        "$(fetch_more 125 250 requests $method)" "$(fetch_more 250 500 requests $method)"
done
