#!/bin/sh
# The library for other processors (tools/port): on emulated boards, in both builds, a history of 100,000 calls with power failures gives the answers, the bytes
# of the chip and the work area that it gives on x86-64 with the kit's own archive; a driver that fails, at each of its operations, is met (failing.c);
# and one that reads something else each time does no harm (wild.c). Neither build asks for memmove (docs/PORT-OTHER.md says what they ask for).
cd "$(dirname "$0")/.." || exit 1
top=$PWD
. tests/port/boards.inc
need_boards && tools/need.sh nm binutils || exit 1
room=$(mktemp -d) || exit 1
trap 'rm -rf "$room"' EXIT
trap 'exit 130' INT TERM HUP

mkdir "$room/kit"
tools/cc.sh target/c/history -Itests/port tests/port/history.c tests/port/linux.c || exit 1
(cd "$room/kit" && "$top/tools/run.sh" "$top/target/c/history" >said) || { cat "$room/kit/said"; exit 1; }

# what tools/port.py leaves, compiled for x86-64 as the kit does it, is the kit's own archive, byte for byte
. tools/kit.inc
mkdir "$room/back" && tools/port_module.sh && python3 tools/port.py target/port/floatstore.ll include 64 "$room/back" && cd "$room/back" || exit 1
sed -i 's/ optsize//' floatstore.ll
"$toolchain/bin/clang" --target=x86_64-unknown-linux-gnu -march=x86-64 -O3 -fPIC -ffunction-sections -fdata-sections -mllvm -trap-unreachable \
  -mllvm -no-trap-after-noreturn -mllvm -no-x86-call-frame-opt -mllvm -disable-machine-licm -mllvm -disable-postra-machine-licm \
  -mllvm -sink-common-insts=false --no-default-config -Wno-override-module -c floatstore.ll -o floatstore.o || exit 1
"$toolchain/bin/llvm-ar" p "$top/target/staticlib/libfloatstore.a" >kit.o
cmp floatstore.o kit.o || { echo "the module without what names x86-64 gives other code on x86-64"; exit 1; }
cd "$top" || exit 1

own=x86-64
[ "$(uname -m)" = x86_64 ] || own='x86-64 aarch64'
runs=0
# history TARGET BUILD WORDS..
history() {
  target=$1 build=$2 here=$room/$1-$2
  shift 2
  mkdir "$here" && firmware "$target" "target/port/$target" history.c "$here/history" "$@" || { echo "$target, $build: it doesn't link"; exit 1; }
  (cd "$here" && emulate "$target" "$here/history" >all 2>&1) || { head -n 20 "$here/all"; echo "$target, $build: the history failed"; exit 1; }
  grep -v '^#' "$here/all" >"$here/said"
  for part in said chip.bin words.bin; do
    cmp "$here/$part" "$room/kit/$part" || { echo "$target, $build: other ${part%.bin} than on x86-64"; exit 1; }
  done
  runs=$((runs + 1))
  echo "$target, $build: as on x86-64.$(sed -n 's/^#/ /p' "$here/all")"
}
# bad TARGET PROGRAM WORDS..: the driver's build with a bad driver
bad() {
  target=$1 program=$2
  shift 2
  firmware "$target" "target/port/$target" "$program" "$room/bad" -DDRIVER "$@" || { echo "$target: $program doesn't link"; exit 1; }
  (cd "$room" && emulate "$target" "$room/bad") >"$room/said" 2>&1 || { head -n 20 "$room/said"; echo "$target: $program failed"; exit 1; }
  [ "$(tail -n 1 "$room/said")" = passed ] || { cat "$room/said"; exit 1; }
}
for target in cortex-m4 cortex-m33 cortex-m0 rv32imac $own; do
  tools/port "$target" >/dev/null || exit 1
  ! nm -u "target/port/$target"/*.a | grep memmove || { echo "$target: a build asks for memmove"; exit 1; }
  history "$target" simulated
  history "$target" driver -DDRIVER
  bad "$target" failing.c
done
for build in '' -DDRIVER; do
  # shellcheck disable=SC2086
  firmware cortex-m4 target/port/cortex-m4 history.c "$room/hard" -mfloat-abi=hard -mfpu=fpv4-sp-d16 $build || { echo "it doesn't link with hard floats"; exit 1; }
done
echo "$runs runs gave the same: $(tail -n 2 "$room/kit/said" | head -n 1)"
echo "a driver that fails, on each of these: $(head -n 1 "$room/said"), each answered with -7, and the map before or after"
bad cortex-m4 wild.c
bad x86-64 wild.c -DCALLS=200000
echo "a wild driver: $(head -n 1 "$room/said"); every call ended, and touched nothing else"
