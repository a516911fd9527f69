#!/usr/bin/env bash
# Plays inputs that are made to cost more than they are long, each at three sizes, n, 2n and 4n, and prints for each
# what it took: instructions (by callgrind, where a play takes less than two seconds), seconds of processor time, and
# memory at its peak; and how many times as much as the size before. It says where a cost grew by more than 2.3 times,
# and where memory is more than 64 MB, 6 times the text and 20 times the input together. Words name the inputs that are
# wanted (all, where there are none); with --long each is played once more, as long as a scenario may be, and with
# --quick nothing runs under callgrind. FETCHPLAY is the path of the program, where it is not to be built; for `gen 64`
# it gets the stack and the arenas that bin/fetchplay gives, which runs it else.
set -eu
source "$(dirname "${BASH_SOURCE[0]}")/common.bash"
program=${FETCHPLAY:-}
[ -n "$program" ] || build_fetchplay
launcher=${FETCHPLAY:-$root/bin/fetchplay}
python3 "$root/bench/hostile.py" "$program" "$launcher" "$work" "$@"
