#!/bin/sh
# longest.sh BEFORE.a: the longest put and the mean one, in erases, page writes and time, beside those of an earlier libfloatstore.a (longest.c). To have one: in a
# clone at an earlier commit, tools/library.sh, then target/staticlib/libfloatstore.a. Times are reckoned with ERASE_MS (45) for an erase and PAGE_MS (0.7) for a page
# write. What it prints tools/longest.py draws.
cd "$(dirname "$0")/.." || exit 1
[ $# = 1 ] && [ -f "$1" ] || { echo "usage: longest.sh BEFORE.a, an earlier libfloatstore.a" >&2; exit 1; }
tools/need.sh objcopy binutils || exit 1
mkdir -p target/c
renamed=$(for f in version format start start_seeing put get delete count next; do echo "--redefine-sym floatstore_$f=floatstore_before_$f"; done)
# shellcheck disable=SC2086
objcopy $renamed "$1" target/c/before.a && tools/cc.sh target/c/longest tools/longest.c target/c/before.a &&
  exec tools/run.sh target/c/longest "${ERASE_MS:-45}" "${PAGE_MS:-0.7}"
