#!/usr/bin/env bash
# Plays the deepest scenarios of nearly 4 MB: scripts with eight `repeat` and sixteen `if` inside each other, and texts
# whose lists and objects are as deep as a text is read. It prints for each its status and the least of some sizes of
# stack (8192 kilobytes, which is the usual one, and less) with which the program still comes to it; threads get a stack
# of the same size. With the word --used it prints too how much of its stack a thread used at most, by valgrind, which
# takes minutes. FETCHPLAY is the path of the program, where it is not to be built.
set -eu
source "$(dirname "${BASH_SOURCE[0]}")/common.bash"
program=${FETCHPLAY:-}
[ -n "$program" ] || build_fetchplay
python3 "$root/bench/stack.py" "$program" "$work" "$@"
