#!/bin/sh
# What the programs must write, as their files stdout have it, is what an independent model of the documents computes.
cd "$(dirname "$0")/.." || exit 1
for program in try_faults try_history try_limits try_one_byte try_pages try_wild; do
  python3 tests/model.py $program | diff - crates/$program/stdout || exit 1
done
