#!/bin/sh
# bench.sh: how long put, get and start take on a full store of 16, 512, 2,048 and 4,096 blocks whose chip is memory. On Arm it runs under an emulator, and the figures say nothing.
cd "$(dirname "$0")/.." || exit 1
tools/cc.sh target/c/bench tools/bench.c && exec tools/run.sh target/c/bench
