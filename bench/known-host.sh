#!/usr/bin/env bash
# What it costs a fetch to ask whether its host is known: the instructions of the proved program, reading and
# printing included, on scripts of 500 and 1,000 fetches whose answers are those of bench/wire.sh. A document of
# https asks nothing. One of http asks at each fetch, and the call and its line of the history are printed too:
# where no host is known, and where 4,096 others are.
set -eu
source "$(dirname "${BASH_SOURCE[0]}")/common.bash"
build_fetchplay

body=$(printf 'b%.0s' {1..1024})
headers='["Content-Type","text/plain"],["Content-Length","1024"]'
rule="{\"status\":200,\"headers\":[$headers],\"body\":\"$body\"}"

# The instructions of a fetch more.
one_more() {
    local some many
    some=$(played "$rule" 4096 500)
    many=$(played "$rule" 4096 1000)
    printf '%d' $(((many - some) / 500))
}

silent=$(one_more)
printf 'a fetch more over https: %d instructions\n' "$silent"
origin=http://a.test
asking=$(one_more)
printf 'over http: %d, that is %d more\n' "$asking" $((asking - silent))
hosts=$(printf '{"host":"h%d.test","subdomains":true,"until":100},' {1..4096})
hosts=${hosts%,}
asking=$(one_more)
printf 'over http with 4,096 known hosts: %d, that is %d more\n' "$asking" $((asking - silent))
