#!/bin/sh
# stack.sh: how many bytes of stack each call takes. Whatever is called is bound before the program runs (-z now), so that no loader works on the painted stack.
cd "$(dirname "$0")/.." || exit 1
tools/cc.sh target/c/stack tools/stack.c -Wl,-z,now && exec tools/run.sh target/c/stack
