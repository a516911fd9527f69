#!/usr/bin/env bash
# What redirects cost: the instructions of the proved program, reading and printing included, for a fetch more that
# follows none, 10 and 20 redirects, from 50 to 100 fetches.
set -eu
source "$(dirname "${BASH_SOURCE[0]}")/common.bash"
build_fetchplay

# A scenario whose server redirects `/k` to the next number below 20, and whose script fetches a path so often.
chain() {
    local path=$1 count=$2
    printf '{"format":1,"servers":[{"origin":"%s","rules":[' "$origin"
    for ((k = 0; k < 20; k++)); do
        printf '{"path":"/%d","status":302,"headers":[["Location","/%d"]]},' "$k" $((k + 1))
    done
    printf '{"status":200,"body":"ok"}]}],"documents":[{"url":"%s/","script":[' "$origin"
    fetches "\"url\":\"$path\"" "$count"
    printf ']}]}'
}

none=$(fetch_more 50 100 chain /20)
ten=$(fetch_more 50 100 chain /10)
twenty=$(fetch_more 50 100 chain /0)
printf 'a fetch without redirects: %d instructions; over 10: %d; over 20: %d\n' "$none" "$ten" "$twenty"
printf 'hops 1 to 10: %d; hops 11 to 20: %d\n' $((ten - none)) $((twenty - ten))
