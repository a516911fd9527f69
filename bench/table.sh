#!/usr/bin/env bash
# What one fetch more costs, kind by kind: the instructions of the proved program, reading and printing included, from
# 100 to 500 fetches of a script, beside those of an ordinary Rust program that does the same work (url, httparse,
# serde_json, plain lists; measured once) and the goal.
set -eu
source "$(dirname "${BASH_SOURCE[0]}")/common.bash"
build_fetchplay

body=$(printf 'b%.0s' {1..1024})
answer='{"status":200,"headers":[["Content-Type","text/plain"],["Content-Length","1024"]],"body":"'$body'"}'

# A GET of the document's own origin, whose answer has two headers and a body of 1,024 bytes and comes in pieces of so
# many bytes.
get() {
    scenario "$answer" "$1" "$2"
}

# A PUT to another origin, whose preflight's answer holds for so many seconds.
put() {
    local allowed='["Access-Control-Allow-Origin","*"]'
    printf '{"format":1,"servers":[{"origin":"https://b.test","rules":[{"method":"OPTIONS","status":200,"headers":['
    printf '%s,["Access-Control-Allow-Methods","PUT"],["Access-Control-Max-Age","%d"]]},' "$allowed" "$1"
    printf '{"status":200,"headers":[%s],"body":"ok"}]}],"documents":[{"url":"%s/","script":[' "$allowed" "$origin"
    fetches '"url":"https://b.test/","method":"PUT"' "$2"
    printf ']}]}'
}

# A GET that is redirected once.
redirect() {
    printf '{"format":1,"servers":[{"origin":"%s","rules":[' "$origin"
    printf '{"path":"/0","status":302,"headers":[["Location","/1"]]},{"status":200,"body":"ok"}]}],'
    printf '"documents":[{"url":"%s/","script":[' "$origin"
    fetches '"url":"/0"' "$1"
    printf ']}]}'
}

# A load of an image over http, which is upgraded.
load() {
    printf '{"format":1,"servers":[{"origin":"%s","rules":[{"status":200,"body":"ok"}]}],' "$origin"
    printf '"documents":[{"url":"%s/","script":[' "$origin"
    for ((i = 0; i < $1; i++)); do
        ((i == 0)) || printf ','
        printf '{"load":{"kind":"image","url":"http://a.test/i"}}'
    done
    printf ']}]}'
}

# A GET of the document's own origin under 16 policies of 20 words, of which the last lets it in.
guarded() {
    printf '{"format":1,"servers":[{"origin":"%s","rules":[{"status":200,"body":"ok"}]}],' "$origin"
    printf '"documents":[{"url":"%s/","headers":[' "$origin"
    for ((p = 0; p < 16; p++)); do
        ((p == 0)) || printf ','
        printf '["Content-Security-Policy","connect-src'
        for ((w = 0; w < 19; w++)); do printf ' https://host%d.example%d.test' "$w" "$p"; done
        printf ' %s"]' "$origin"
    done
    printf '],"script":['
    fetches '"url":"/"' "$1"
    printf ']}]}'
}

row() {
    printf '%-62s %12s %12s %12s\n' "$@"
}

row 'one fetch more' here ordinary goal
row 'a GET of its own origin, 2 headers, a body of 1,024 bytes' "$(fetch_more 100 500 get 4096)" 63900 36000
row 'a PUT to another origin, covered by the preflight cache' "$(fetch_more 100 500 put 7200)" 59000 35000
row 'the same with a preflight each time' "$(fetch_more 100 500 put 0)" 105900 62000
row 'a redirect and its target' "$(fetch_more 100 500 redirect)" 61400 37000
row 'a load of an image over http, upgraded' "$(fetch_more 100 500 load)" 40300 24000
row 'a GET of its own origin under 16 policies of 20 words' "$(fetch_more 100 500 guarded)" 691300 70000
row 'the GET of the first line, its answer byte by byte' "$(fetch_more 100 500 get 1)" '' 120000
taskset -cp 0 $$ >/dev/null
row 'gen 64, on one processor' "$(counted "$program" gen 64)" 734000000 440000000
