#!/usr/bin/env bash
# What a fetch costs within a script: the instructions of the proved program, reading and printing included,
# on scripts of 128, 512 and 1,024 fetches of an answer with a body of two bytes.
set -eu
source "$(dirname "${BASH_SOURCE[0]}")/common.bash"
build_fetchplay

rule='{"status":200,"body":"hi"}'
few=$(played "$rule" 4096 128)
some=$(played "$rule" 4096 512)
many=$(played "$rule" 4096 1024)
printf '128 fetches: %d instructions, 512: %d, 1,024: %d\n' "$few" "$some" "$many"
printf 'a fetch more, from 128 to 512: %d instructions; from 512 to 1,024: %d\n' \
    $(((some - few) / 384)) $(((many - some) / 512))
