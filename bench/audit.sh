#!/usr/bin/env bash
# What an audit costs beside the play that it checks, on the proved programs: the instructions of both for scenarios of
# 8 and of 64 documents with 200 PUTs each, on one processor, and how many times the one is the other; and the memory
# and the processor time of an audit of 4 MB of scenario with 60 MB of play. PLAYAUDIT is the path of the program.
set -eu
source "$(dirname "${BASH_SOURCE[0]}")/common.bash"
build_fetchplay
audit=${PLAYAUDIT:-$root/crates/playaudit/out/playaudit}
[ -n "${PLAYAUDIT:-}" ] || "$root/bin/playaudit" </dev/null >/dev/null 2>&1 || [ $? = 7 ]

# So many documents, each with this script, and a server that takes PUT from anywhere.
documents() {
    printf '{"format":1,"servers":[{"origin":"http://api.test","rules":[{"method":"OPTIONS","status":200,"headers":['
    printf '["Access-Control-Allow-Origin","*"],["Access-Control-Allow-Methods","PUT"]]},'
    printf '{"status":200,"headers":[["Access-Control-Allow-Origin","*"]]}]}],"documents":['
    for ((i = 0; i < $1; i++)); do
        ((i == 0)) || printf ','
        printf '{"url":"http://d%d.test/","script":[%s]}' "$i" "$2"
    done
    printf ']}'
}

# The input of an audit of a scenario's play.
framed() {
    "$program" play <"$work/scenario" >"$work/play"
    wc -c <"$work/scenario" | tr -d ' '
    cat "$work/scenario" "$work/play"
}

# The instructions of a run on one processor.
on_one() {
    taskset -c 0 valgrind --tool=callgrind --callgrind-out-file="$work/out" "$@" >/dev/null 2>"$work/log"
    sed -n 's/.*Collected : //p' "$work/log"
}

for count in 8 64; do
    documents "$count" '{"repeat":200,"do":[{"fetch":{"url":"http://api.test/x","method":"PUT"}},{"wait":1}]}' \
        >"$work/scenario"
    framed >"$work/input"
    played=$(on_one "$program" play <"$work/scenario")
    audited=$(on_one "$audit" <"$work/input")
    printf '%d documents: the play %d instructions, its audit %d, which is %d.%02d times as many\n' "$count" "$played" \
        "$audited" $((audited / played)) $((audited * 100 / played % 100))
    [ "$count" != 8 ] || few=$audited
done
printf '64 documents cost %d.%02d times as many as 8\n' $((audited / few)) $((audited * 100 / few % 100))

body=$(head -c 60000 /dev/zero | tr '\0' x)
post='{"fetch":{"url":"/","method":"POST","body":"'$body'"}}'
documents 62 '{"repeat":16,"do":['"$post"']}' >"$work/scenario"
framed >"$work/input"
/usr/bin/time -f '%U %M' -o "$work/memory" "$audit" <"$work/input" >/dev/null
printf '%d bytes of input: %s seconds, and kilobytes of memory\n' "$(wc -c <"$work/input")" "$(cat "$work/memory")"
