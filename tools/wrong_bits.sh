#!/bin/sh
# wrong_bits.sh: what each bit of a chip does when it alone is wrong (tools/wrong_bits.c), as the tables of docs/FAULTS.md.
cd "$(dirname "$0")/.." || exit 1
tools/cc.sh target/c/wrong_bits tools/wrong_bits.c tools/reading.c && exec tools/run.sh target/c/wrong_bits
