#!/bin/sh
# bench_sound.sh: how long it takes to test a page, in either form, and to make one, beside the same in plain C by clang -O2 (bench_sound.c), in one run. The functions
# aren't exported by the library: bench_sound.rattle lends them to C, as a crate that is proved and compiled in a folder of its own. On x86-64 alone: under an
# emulator a time says nothing.
cd "$(dirname "$0")/.." || exit 1
[ "$(uname -m)" = x86_64 ] || { echo "bench_sound.sh: x86-64 alone: under an emulator a time says nothing" >&2; exit 1; }
tools/need.sh clang clang && tools/library.sh || exit 1
room=$(mktemp -d) || exit 1
trap 'rm -rf "$room"' EXIT
trap 'exit 130' INT TERM HUP
mkdir -p "$room/crates/measured/src" "$room/.git" target/c && cp tools/bench_sound.rattle "$room/crates/measured/src/lib.rt" || exit 1
for part in src specs proofs; do mkdir -p "$room/crates/page" && cp -r "crates/page/$part" "$room/crates/page" || exit 1; done
printf 'page:\nmeasured staticlib: page\n' >"$room/crates.txt"
# as tools/library.sh has it
(cd "$room/crates/measured" && rt lib --cpu x86-64) >"$room/said" 2>&1 || { cat "$room/said" >&2; exit 1; }
clang -std=c11 -O2 -Wall -Wextra -Werror -o target/c/bench_sound tools/bench_sound.c "$room/crates/measured/out/libmeasured.a" && target/c/bench_sound
