#!/bin/sh
# A chip of version 0.9.0 (tests/old_chip/make.c made it), whose pages all have a flipped copy and some of which were cut short: it starts with the same map, goes on being
# written, and leaves its old pages behind as its ring turns (tests/old_chip/turn.c). A reader that takes a page in either form, or half of a flipped copy, is found.
cd "$(dirname "$0")/.." || exit 1
room=$(mktemp -d) || exit 1
trap 'rm -rf "$room"' EXIT
trap 'exit 130' INT TERM HUP
gzip -dc tests/old_chip/0.9.0.img.gz >"$room/0.9.0.img" || exit 1
tools/cc.sh target/c/turn -Itools tests/old_chip/turn.c tests/laboratory/twin.c tools/reading.c || exit 1
turn() { tools/run.sh target/c/turn "$room/0.9.0.img" tests/old_chip/0.9.0.map "$@"; }
turn || exit 1
for bug in 7 8; do
  out=$(turn $bug) && { echo "the planted fault $bug was not found: $out"; exit 1; }
  case $out in FOUND*) ;; *) echo "planted fault $bug: $out"; exit 1 ;; esac
done
# the tool reads the same map by docs/FORMAT.md alone
tools/floatstore_build.sh >/dev/null || exit 1
tools/run.sh target/c/floatstore list "$room/0.9.0.img" | sed "s/\t/ '/; s/\$/'/" >"$room/list"
sed 1d tests/old_chip/0.9.0.map | cmp - "$room/list" || { echo "the tool lists another map"; exit 1; }
