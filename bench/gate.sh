#!/usr/bin/env bash
# What the gate costs from nothing, on a machine that does nothing else.
#
#     bench/gate.sh                           these files: first `fetchplay` without edits, then all of `rt ci`
#     bench/gate.sh against COMMIT            that commit and these files, and the ratios
#     bench/gate.sh against COMMIT in STEPS   the same in so many steps: a part of the one's crates, then of the
#                                             other's, so that a run that is cut off tells the ratio of what it came to
#     bench/gate.sh fetchplay against COMMIT  the first part alone
#
# It tells processor time (user and system) and wall time, and of these files how the processor time is shared among the
# crates, and among their proofs, their tests and the edits that must fail, in seconds. The shares are read off the
# running checks once a second, so they are a little less than the whole. On a machine that others share a processor may
# be half as fast for minutes: so a fixed piece of work is timed now and then beside the runs, and the ratio is told by
# it too.
set -eu
source "$(dirname "${BASH_SOURCE[0]}")/common.bash"
cd "$root"

usage() {
    echo 'bench/gate.sh: [fetchplay] [against COMMIT [in STEPS]]' >&2
    exit 2
}

# Makes a folder that `rt ci` takes for a repository, with the crates that stand in another. A line at the end of each
# crate's root file makes it new to what `rt` has kept.
laid() {
    local file
    mkdir -p "$2/.git"
    (cd "$1" && tar -c --exclude=out --exclude=build.log crates crates.txt HANDLES) | tar -x -C "$2"
    for file in "$2"/crates/*/src/lib.rt "$2"/crates/*/src/main.rt; do
        [ ! -f "$file" ] || printf '// Measured at %s.\n' "$began" >>"$file"
    done
}

# The crates of a folder in so many groups of about as many lines, a group a line.
groups() {
    local name lines
    sed -n 's/^\([a-z][a-z_0-9]*\).*:.*/\1/p' "$1/crates.txt" | while read -r name; do
        lines=$(find "$1/crates/$name" -name '*.rt' -o -name '*.antt' | xargs cat | wc -l)
        echo "$name $lines"
    done | awk -v steps="$2" '
        { name[NR] = $1; lines[NR] = $2; all += $2 }
        END { for (i = 1; i <= NR; i++) {
            before = int(done * steps / all); done += lines[i]
            printf "%s%s", name[i], i < NR && int(done * steps / all) == before ? " " : "\n" } }'
}

# One line for each running check: its process, the seconds it has taken, its crate, and what it proves.
checks() {
    local process seconds words name kind
    while read -r process seconds words; do
        name=${words#*--crate-name }
        kind=proofs
        case " $words " in *" --test "*) kind=tests ;; esac
        case "$(readlink "/proc/$process/cwd")" in *rt-edit*) kind=edits ;; esac
        printf '%s %s %s %s\n' "$process" "$seconds" "${name%% *}" "$kind"
    done < <(ps -eo pid=,cputimes=,args= | grep -e '/bin/rattle .*--crate-name' | grep -v grep)
}

# A fixed piece of work, timed every ten seconds while one of the trees is measured.
paced() {
    local tree
    TIMEFORMAT=%U
    while sleep 10; do
        tree=$(cat "$work/measured" 2>/dev/null) || continue
        { time awk 'BEGIN { for (i = 0; i < 2000000; i++) s += i * i % 7 }'; } 2>>"$work/$tree.pace"
    done
}

# The mean of those times, 0 where there is none.
pace_of() {
    awk '{ sum += $1 } END { print NR ? sum / NR : 0 }' "$work/$1.pace"
}

sampled() {
    while sleep 1; do
        [ ! -e "$work/counted" ] || checks >>"$work/samples"
    done
}

# Runs `rt ci` in a folder, on the crates that are named or on all.
run_ci() {
    (cd "$1" && shift && exec rt ci "$@")
}

# The same, and adds what it took to the folder's times.
timed() {
    local status=0 start user system
    start=$(date +%s.%N)
    TIMEFORMAT='%U %S'
    { time run_ci "$@" >"$work/log" 2>&1 || status=$?; } 2>"$work/time"
    tail -n 1 "$work/log"
    if [ "$status" != 0 ]; then
        grep -e 'NOT PROVED' -e 'NOT REFUSED' -e FAILED "$work/log" || tail -n 20 "$work/log"
        exit "$status"
    fi
    read -r user system <"$work/time"
    echo "$user $system $start $(date +%s.%N)" >>"$1.times"
}

# What the runs of one or both took, and the ratios.
told() {
    local tree
    for tree in $trees; do
        awk -v name="$1, $tree" '{ cpu += $1 + $2; wall += $4 - $3 }
            END { printf "%s: processor time %.1f minutes, wall time %.1f minutes\n", name, cpu / 60, wall / 60 }' \
            "$work/$tree.times"
    done
    [ -z "$against" ] || awk -v name="$1" -v those="$(pace_of those)" -v these="$(pace_of these)" '
        FNR == 1 { at++ } { cpu[at] += $1 + $2; wall[at] += $4 - $3 }
        END { printf "%s, ratio: processor time %.3f, wall time %.3f\n", name, cpu[2] / cpu[1], wall[2] / wall[1]
            by_it = "the fixed work took %.3f s and %.3f s; by it the ratio is %.3f, and of wall time %.3f\n"
            if (those > 0 && these > 0) printf by_it, those, these,
                cpu[2] / these / (cpu[1] / those), wall[2] / these / (wall[1] / those) }' \
        "$work/those.times" "$work/these.times"
}

# Runs `rt ci` in each tree, on the crates of a step or on all.
step() {
    local tree
    for tree in $trees; do
        rm -f "$work/counted"
        [ "$tree" != these ] || touch "$work/counted"
        echo "$tree" >"$work/measured"
        # shellcheck disable=SC2046 # (words)
        timed "$work/$tree" $([ "$1" = all ] || sed -n "${1}p" "$work/$tree.groups")
        rm "$work/measured"
    done
}

shares() {
    # The most seconds seen of each process count.
    awk '{ if ($2 > most[$1]) most[$1] = $2; name[$1] = $3; kind[$1] = $4 }
        END { for (p in most) { sum[name[p]] += most[p]; by[name[p] " " kind[p]] += most[p]; all[kind[p]] += most[p] }
            for (k in all) printf "all %s: %d\n", k, all[k]
            for (n in sum) printf "%s: %d (proofs %d, tests %d, edits %d)\n", n, sum[n],
                by[n " proofs"], by[n " tests"], by[n " edits"] }' "$work/samples" | sort -t : -k 2nr
}

only= against= steps=1
while [ $# -gt 0 ]; do
    case $1 in
        fetchplay) only=fetchplay ;;
        against) against=${2:?a commit} && shift ;;
        in) steps=${2:?a number of steps} && shift ;;
        *) usage ;;
    esac
    shift
done
began=$(date +%s)
laid "$root" "$work/these"
if [ -n "$against" ]; then
    git clone -q --no-checkout "$root" "$work/clone"
    git -C "$work/clone" checkout -q "$against"
    laid "$work/clone" "$work/those"
fi
trees=these
[ -z "$against" ] || trees='those these'
touch "$work/those.pace" "$work/these.pace"
sampled &
sampler=$!
paced &
pacer=$!
trap 'kill "$sampler" "$pacer"; rm -rf "$work"' EXIT

# First `fetchplay`, without edits.
for tree in $trees; do
    (cd "$work/$tree" && for edits in crates/*/must-fail; do
        mkdir -p "edits/${edits%/*}"
        mv "$edits" "edits/$edits"
    done)
    echo fetchplay >"$work/$tree.groups"
done
step 1
told fetchplay
[ -z "$only" ] || exit 0

# Then the others and the edits.
for tree in $trees; do
    (cd "$work/$tree/edits" && for edits in crates/*/must-fail; do mv "$edits" "../$edits"; done)
    rm -r "$work/$tree/edits"
    groups "$work/$tree" "$steps" >"$work/$tree.groups"
done
for number in $(seq "$steps"); do
    [ "$steps" != 1 ] || number=all
    step "$number"
    told "all, as far as it came"
done
shares
