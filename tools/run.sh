#!/bin/sh
# run.sh PROGRAM WORDS..: runs a program that cc.sh made, directly on x86-64 and under qemu's emulator elsewhere.
program=$1
shift
[ "$(uname -m)" = x86_64 ] && exec "$program" "$@"
"$(dirname "$0")/need.sh" qemu-x86_64 --no-install-recommends qemu-user || exit 1
exec qemu-x86_64 "$program" "$@"
