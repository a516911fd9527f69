#!/usr/bin/env bash
# What scripts cost, on the proved program. Instructions a byte of reading scenarios of some 4,000,000 bytes: of waits
# alone, of fetches with headers and templates, and of fetches with a body of 4,000 bytes. They stand in a repetition of
# none, so that nothing is played. Beside each what it costs where its format is refused, which is once the tree stands.
# Then the instructions of a wait, of a load and of a fetch with templates more, and the memory of a script that puts a
# body of 1,000,000 bytes 1,000 times into another.
set -eu
source "$(dirname "${BASH_SOURCE[0]}")/common.bash"
build_fetchplay

# A scenario of a format whose script repeats these commands so often: one text, as often as it fits.
repeating() {
    local format=$1 command=$2 count
    count=$((3999800 / (${#command} + 1)))
    printf '{"format":%d,"documents":[{"url":"%s/","script":[{"repeat":0,"do":[' "$format" "$origin"
    for ((i = 1; i < count; i++)); do printf '%s,' "$command"; done
    printf '%s]}]}]}' "$command"
}

# The instructions a byte of such a scenario, and of its tree alone.
a_byte() {
    local all=$(cost_of repeating 1 "$2") bytes=$(wc -c <"$work/scenario")
    local tree=$(cost_of repeating 3 "$2")
    printf '%s: %d instructions a byte, of which the tree takes %d\n' "$1" $((all / bytes)) $((tree / bytes))
}

long=$(printf 'b%.0s' $(seq 4000))
a_byte 'waits' '{"wait":1}'
a_byte 'fetches' '{"fetch":{"url":"/path?query","method":"POST","headers":[["X-A","${status}"],["X-B","b"]],'\
'"body":"${body}"}}'
a_byte 'fetches with 4,000 bytes' '{"fetch":{"url":"/","method":"POST","body":"'"$long"'"}}'

# A scenario whose script has so many of a command.
script_of() {
    local command=$1 count=$2
    printf '{"format":1,"servers":[{"origin":"%s","rules":[{"status":200,"body":"hi"}]}],' "$origin"
    printf '"documents":[{"url":"%s/","script":[{"fetch":{"url":"/"}}' "$origin"
    for ((i = 0; i < count; i++)); do printf ',%s' "$command"; done
    printf ']}]}'
}

printf 'a wait more, from 1,024 to 4,096: %d instructions; from 4,096 to 16,383: %d\n' \
    "$(fetch_more 1024 4096 script_of '{"wait":1}')" "$(fetch_more 4096 16383 script_of '{"wait":1}')"
printf 'a load more: %d instructions\n' "$(fetch_more 256 1000 script_of '{"load":{"kind":"image","url":"/i"}}')"
printf 'a fetch more: %d instructions; one with a template: %d\n' \
    "$(fetch_more 256 1000 script_of '{"fetch":{"url":"/hi"}}')" \
    "$(fetch_more 256 1000 script_of '{"fetch":{"url":"/${body}"}}')"

# A body of 1,000,000 bytes, and then a POST of a body that holds it 1,000 times.
growing() {
    printf '{"format":2,"servers":[{"origin":"%s","rules":[{"status":200,"body":"' "$origin"
    printf 'b%.0s' $(seq 1000000)
    printf '"}]}],"documents":[{"url":"%s/","script":[{"fetch":{"url":"/"}},' "$origin"
    printf '{"fetch":{"url":"/","method":"POST","body":"'
    printf '${body}%.0s' $(seq 1000)
    printf '"}}]}]}'
}
growing >"$work/scenario"
/usr/bin/time -f '%M' -o "$work/memory" "$program" play <"$work/scenario" >/dev/null
printf 'a body of 1,000,000 bytes put 1,000 times into another: %d kilobytes of memory\n' "$(cat "$work/memory")"
