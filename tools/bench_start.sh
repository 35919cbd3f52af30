#!/bin/sh
# bench_start.sh: how long a start takes, by what stands on the chip; see bench_start.c. On Arm it runs under an emulator, and the figures say nothing.
cd "$(dirname "$0")/.." || exit 1
tools/cc.sh target/c/bench_start tools/bench_start.c && exec tools/run.sh target/c/bench_start
