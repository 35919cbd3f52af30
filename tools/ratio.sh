#!/bin/sh
# ratio.sh BEFORE.a: how long put, get and start take beside those of an earlier libfloatstore.a, in one run (ratio.c). To have one: in a clone at an earlier
# commit, tools/library.sh, then target/staticlib/libfloatstore.a. On x86-64 alone: under an emulator a time says nothing.
cd "$(dirname "$0")/.." || exit 1
[ "$(uname -m)" = x86_64 ] || { echo "ratio.sh: x86-64 alone: under an emulator a time says nothing" >&2; exit 1; }
[ $# = 1 ] && [ -f "$1" ] || { echo "usage: ratio.sh BEFORE.a, an earlier libfloatstore.a" >&2; exit 1; }
tools/need.sh objcopy binutils || exit 1
mkdir -p target/c
renamed=$(for f in version format start start_seeing put get delete count next; do echo "--redefine-sym floatstore_$f=floatstore_before_$f"; done)
# shellcheck disable=SC2086
objcopy $renamed "$1" target/c/before.a && tools/cc.sh target/c/ratio tools/ratio.c target/c/before.a && exec target/c/ratio
