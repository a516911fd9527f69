#!/usr/bin/env bash
# Measures the proved program outside the tests: one play of examples/same-origin.json, and one refused
# input of 4,194,304 bytes, in instructions and seconds.
set -eu
source "$(dirname "${BASH_SOURCE[0]}")/common.bash"
build_fetchplay
head -c 4194304 /dev/zero | tr '\0' ' ' >"$work/spaces"

# The instructions, and the seconds, of one run on an input.
measure() {
    local name=$1 input=$2 instructions seconds
    instructions=$(counted "$program" play <"$input")
    seconds=$( { TIMEFORMAT=%R; time "$program" play <"$input" >/dev/null 2>&1; } 2>&1 || true)
    printf '%-28s %12s instructions %8s s\n' "$name" "$instructions" "$seconds"
}

measure 'one play of same-origin' "$root/examples/same-origin.json"
measure 'a refused input of 4 MiB' "$work/spaces"
