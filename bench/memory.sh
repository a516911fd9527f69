#!/usr/bin/env bash
# Refuses memory to the proved program, one request in each run, and looks at what it does: status 0 with the text of
# the play, or status 5 with `fetchplay: out of memory` and nothing or a beginning of the text. A document that learns
# by preflights is played with each of its requests for memory refused in turn, once that one alone and once each later
# one too; two documents on threads with every 50th; `gen 64` with number 20,000, which a program that plays nothing
# would not miss. Two threads that make 500 calls each on one book are played with every 50th: the calls that were
# answered are its history when it is closed, and it is legal. FETCHPLAY is the path of the program, and WORKED_BOOKS
# that of the program of the two threads, where they are not to be built, and JOBS how many runs there are at once.
set -eu
source "$(dirname "${BASH_SOURCE[0]}")/common.bash"
program=${FETCHPLAY:-}
[ -n "$program" ] || build_fetchplay
if [ -z "${WORKED_BOOKS:-}" ]; then
    "$root/bin/proved" rows_books </dev/null >/dev/null
fi
turns=${WORKED_BOOKS:-$root/crates/rows_books/out/rows_books}
cc -O2 -shared -fPIC -o "$work/refuse.so" "$root/bench/refuse.c"
python3 "$root/bench/memory.py" "$program" "$work/refuse.so" "$work" "${JOBS:-$(nproc)}" "$turns"
