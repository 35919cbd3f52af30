#!/bin/sh
# The laboratory at the driver (tests/laboratory/driven.c): nothing is found in the library that tools/port makes for a chip behind a driver, where erases,
# writes and reads are counted as they reach it and reads fail too; and each fault is found that is planted between the two, or in tools/port_driver.c.
# DRIVEN_SECONDS is the time for the library (30).
cd "$(dirname "$0")/.." || exit 1
tools/port x86-64 >/dev/null || exit 1
library=$PWD/target/port/x86-64/libfloatstore_driver.a
room=$(mktemp -d) || exit 1
trap 'rm -rf "$room"' EXIT
trap 'exit 130' INT TERM HUP
# build OUT WORDS..: the laboratory with a library
build() { out=$1; shift; tools/cc.sh "$out" -Itools tests/laboratory/driven.c tests/laboratory/lab.c tools/watch.c tools/reading.c "$@"; }
build target/c/driven "$library" || exit 1
tools/run.sh target/c/driven "${DRIVEN_SECONDS:-30}" || exit 1

# finds WHAT PROGRAM WORDS..: the laboratory finds the fault
finds() {
  what=$1
  shift
  if out=$(tools/run.sh "$@"); then
    echo "$out"
    echo "not found: $what"
    exit 1
  fi
  case $out in *FOUND*) echo "$what: FOUND${out#*FOUND}" ;; *) echo "the laboratory failed on '$what': $out"; exit 1 ;; esac
}
for fault in 1 2 3 4 5; do finds "$(tools/run.sh target/c/driven planted $fault)" target/c/driven planted $fault 60; done

# plant WHAT EDIT: the laboratory finds a library whose port_driver.c was edited so, by sed
plant() {
  sed "$2" tools/port_driver.c >"$room/port_driver.c"
  cmp -s tools/port_driver.c "$room/port_driver.c" && { echo "no longer to be planted: $1"; exit 1; }
  build "$room/driven" -std=gnu11 "$room/port_driver.c" "$room/floatstore_driver.ll.o" || exit 1
  finds "$1" "$room/driven" 60
}
. tools/kit.inc
(cd "$room" && "$toolchain/bin/llvm-ar" x "$library" floatstore_driver.ll.o) || exit 1
twice='if (!alive(c, fuse)) return;\n    uint64_t was = *fuse;\n    \1\n    if (*fuse) *fuse = was, \1'
plant 'a module that erases twice, and puts the fuse back' "/^void floatstore_swapped_erase.*{\$/,/^}/s/if (alive(c, fuse)) \\(done(.*);\\)\$/$twice/"
plant 'a failed read is taken as data' '/^void floatstore_swapped_read.*{$/,/^}/s/\*c->failed = 1;/(void)0;/'
plant 'after a failed read the chip is read again' '/^void floatstore_swapped_read.*{$/,/^}/s/!\*c->failed && //'
plant 'after a failed read the chip is written' '/^static int alive/,/^}/s/if (\*c->failed)/if (*c->failed > 1)/'
plant 'of an answer only 8 bits are looked at' '/^static void done(/,/^}/s/answer [!=]= 0/(uint8_t)&/'
plant 'after a -7 the area says that it is ready' 's/work\[0\] = 2;/work[0] = 1;/'
