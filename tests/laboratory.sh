#!/bin/sh
# The crash laboratory (tests/laboratory/lab.c): it must find nothing in the proved library and in a plain C twin of it, no difference between the two, and a fault in each
# of the fourteen broken twins. LABORATORY_SECONDS is the time for the library (40).
cd "$(dirname "$0")/.." || exit 1
tools/cc.sh target/c/lab -Itools tests/laboratory/stores.c tests/laboratory/lab.c tests/laboratory/twin.c tools/watch.c tools/reading.c || exit 1
lab() { tools/run.sh target/c/lab "$@"; }
lab library "${LABORATORY_SECONDS:-40}" || exit 1
for other in both twin; do
  out=$(lab $other 6) || { echo "$out"; exit 1; }
  echo "$out" | head -n 1
done
for bug in 1 2 3 4 5 6 7 8 9 10 11 12 13 14; do
  if out=$(lab bug$bug 90); then
    echo "$out"
    echo "the planted fault $bug was not found"
    exit 1
  fi
  case $out in *FOUND*) echo "$out" ;; *) echo "the laboratory failed on planted fault $bug: $out"; exit 1 ;; esac
done
