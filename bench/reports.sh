#!/usr/bin/env bash
# What a report costs, and how much memory reports take.
#
# - The instructions of the proved `cspreport` of a report more, and those of `fetchplay` of a POST more in mode no-cors
#   that sends as much to the same server; reading and printing are included. Scripts with 100 and 200 fetches have
#   twice as many reports, and the same scripts without `report-uri` are taken off.
# - The memory at its peak, in KB, of 16 documents whose scripts and reports both end by `limit text`: by long URLs and
#   bodies, and by many short requests, that is by redirects in a circle. And of 16 whose reports end by `limit
#   reports`.
#
# FETCHPLAY and CSPREPORT are the paths of the programs, where they are not to be built.
set -eu
source "$(dirname "${BASH_SOURCE[0]}")/common.bash"
build_fetchplay
fetchplay=$program
reports=${CSPREPORT:-$root/crates/cspreport/out/cspreport}
[ -n "${CSPREPORT:-}" ] || "$root/bin/cspreport" play <"$root/examples/same-origin.json" >/dev/null

made() {
    python3 "$root/bench/reports.py" "$@"
}

more() {
    echo $((($(counted "$1" play < <(made "$2" 200)) - $(counted "$1" play < <(made "$2" 100))) / 200))
}

# The peak in KB, and how the reports end, of so many documents.
peak() {
    made "$@" >"$work/scenario"
    (ulimit -S -s 1024
     MALLOC_ARENA_MAX=8 /usr/bin/time -f %M "$reports" play <"$work/scenario" >"$work/text") 2>"$work/kb"
    printf '%s: %s KB, %s\n' "$*" "$(cat "$work/kb")" \
        "$(grep -a ^end "$work/text" | sort | uniq -c | tr -s ' ' | tr '\n' ';')"
}

report=$(($(more "$reports" reported) - $(more "$reports" unreported)))
echo "a report more: $report instructions, a POST more: $(more "$fetchplay" posts)"
peak long 16
peak circles 16 260
peak circles 16 1
