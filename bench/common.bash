# What the benches share; each sources it. A folder for what they write, and counting by callgrind, whose
# instructions no busy machine blurs.
root=$(cd "$(dirname "${BASH_SOURCE[0]}")/.." && pwd)
work=$(mktemp -d)
trap 'rm -rf "$work"' EXIT

# The instructions of a run of a program with its words; its input is handed on, and its status is not looked at.
counted() {
    valgrind --tool=callgrind --callgrind-out-file="$work/out" "$@" >/dev/null 2>"$work/log" || true
    sed -n 's/.*Collected : //p' "$work/log"
}

# Makes `program` the path of the proved program, built where it is not new; or FETCHPLAY, where that names one.
build_fetchplay() {
    if [ -n "${FETCHPLAY:-}" ]; then
        program=$FETCHPLAY
        return
    fi
    program=$root/crates/fetchplay/out/fetchplay
    "$root/bin/fetchplay" play <"$root/examples/same-origin.json" >/dev/null
}

# The same of `corsserve` and CORSSERVE. Without words it only complains.
build_corsserve() {
    if [ -n "${CORSSERVE:-}" ]; then
        program=$CORSSERVE
        return
    fi
    program=$root/crates/corsserve/out/corsserve
    "$root/bin/corsserve" >/dev/null 2>&1 || [ $? = 1 ]
}

# Makes `program` the path of the benches' own program, built by a run that does a little of each work.
build_bench() {
    program=$root/crates/bench/out/bench
    (cd "$root/crates/bench" && rt run -- all >/dev/null 2>&1)
}

# The origin of a scenario, and its known hosts between commas.
origin=https://a.test
hosts=

# A scenario whose one server answers by this rule, in pieces of so many bytes, and whose script has so many
# fetches.
scenario() {
    local rule=$1 piece=$2 count=$3
    printf '{"format":1,"hsts":[%s],"servers":[{"origin":"%s","rules":[%s]}],' "$hosts" "$origin" "$rule"
    printf '"piece":%d,"documents":[{"url":"%s/","script":[' "$piece" "$origin"
    fetches '"url":"/","mode":"same-origin","referrer":"none"' "$count"
    printf ']}]}'
}

# The instructions of a play of such a scenario.
played() {
    scenario "$@" >"$work/scenario"
    counted "$program" play <"$work/scenario"
}

# The instructions of a play of the scenario that a function of a bench writes, called with these words.
cost_of() {
    "$@" >"$work/scenario"
    counted "$program" play <"$work/scenario"
}

# The instructions of a fetch more between two numbers of fetches, of which the last word of that function is one.
fetch_more() {
    local few=$1 many=$2
    shift 2
    local less=$(cost_of "$@" "$few")
    local more=$(cost_of "$@" "$many")
    echo $(((more - less) / (many - few)))
}

# A script of so many equal fetches, each with these keys.
fetches() {
    for ((i = 0; i < $2; i++)); do
        ((i == 0)) || printf ','
        printf '{"fetch":{%s}}' "$1"
    done
}
