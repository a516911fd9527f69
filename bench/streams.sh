#!/usr/bin/env bash
# Plays with streams of the system that are good or fail, in all 384 ways to choose
#   the words: none, `play`, `net`, `gen 2` (4);
#   the input: a scenario, a text that is refused, one that is too long, nothing (/dev/null), a folder, closed (6);
#   the output and the complaints: a file, full (/dev/full), closed, a pipe that nobody reads (4 each).
# It looks whether the status is the one of docs/rules/command-line.md, and whether the files got what belongs to it:
# the output the whole text with status 0, and else nothing, since no output fails in the middle; the complaints the
# line of the status, and nothing with status 0. FETCHPLAY is the path of the program, where it is not to be built.
set -u
source "$(dirname "${BASH_SOURCE[0]}")/common.bash"
program=${FETCHPLAY:-}
[ -n "$program" ] || build_fetchplay

# The inputs that are files, and a pipe whose reader has ended.
cp "$root/examples/same-origin.json" "$work/scenario"
printf '{' >"$work/refused"
head -c 4194305 /dev/zero | tr '\0' ' ' >"$work/long"
exec {gone}> >(exec true)
wait $!

# What the program writes where all is well.
for words in play net 'gen 2'; do
    "$program" $words <"$work/scenario" >"$work/text of $words" || exit 1
done
: >"$work/empty"

# The status by the words, the input, the output and the complaints.
status_of() {
    local status
    case $1 in
    '') status=1 ;;
    gen*) status=0 ;;
    *) case $2 in scenario) status=0 ;; refused | nothing) status=2 ;; long) status=6 ;; *) status=3 ;; esac ;;
    esac
    if [ $status = 0 ]; then
        [ "$3" = file ] || status=4
    else
        [ "$4" = file ] || status=4
    fi
    echo $status
}

# The line of a status, without `fetchplay: `.
line_of() {
    case $1 in
    1) echo 'usage: fetchplay play | net | gen N' ;;
    2) echo 'scenario refused at json' ;;
    3) echo 'reading failed' ;;
    4) echo 'writing failed' ;;
    6) echo 'input longer than 4194304 bytes' ;;
    esac
}

# Runs the program with these words and streams.
run() (
    case $2 in
    nothing) exec </dev/null ;;
    folder) exec </ ;;
    closed) exec <&- ;;
    *) exec <"$work/$2" ;;
    esac
    case $3 in
    file) exec >"$work/output" ;;
    full) exec >/dev/full ;;
    closed) exec >&- ;;
    unread) exec >&"$gone" ;;
    esac
    case $4 in
    file) exec 2>"$work/complaints" ;;
    full) exec 2>/dev/full ;;
    closed) exec 2>&- ;;
    unread) exec 2>&"$gone" ;;
    esac
    exec {gone}>&-
    exec "$program" $1
)

# Plays once, and says what is wrong.
check() {
    local wanted=$(status_of "$@") status text=$work/empty
    cp "$work/empty" "$work/output"
    cp "$work/empty" "$work/complaints"
    run "$@"
    status=$?
    [ "$status" != 0 ] || text="$work/text of $1"
    line_of "$wanted" | sed 's/^/fetchplay: /' >"$work/line"
    [ "$4" = file ] || : >"$work/line"
    [ "$3" = file ] || text=$work/empty
    if [ "$status" = "$wanted" ] && cmp -s "$work/output" "$text" && cmp -s "$work/complaints" "$work/line"; then
        return
    fi
    printf 'WRONG: words "%s", input %s, output %s, complaints %s: ' "$1" "$2" "$3" "$4"
    printf 'status %s where %s is right, %s\n' "$status" "$wanted" "$(cat "$work/complaints")"
    wrong=$((wrong + 1))
}

wrong=0
plays=0
declare -A came
for words in '' play net 'gen 2'; do
    for input in scenario refused long nothing folder closed; do
        for output in file full closed unread; do
            for complaints in file full closed unread; do
                check "$words" "$input" "$output" "$complaints"
                plays=$((plays + 1))
                status=$(status_of "$words" "$input" "$output" "$complaints")
                came[$status]=$((${came[$status]:-0} + 1))
            done
        done
    done
done
printf '%d plays, %d wrong; status' "$plays" "$wrong"
for status in $(printf '%s\n' "${!came[@]}" | sort); do
    printf ' %s: %d,' "$status" "${came[$status]}"
done | sed 's/,$/\n/'
[ "$wrong" = 0 ]
