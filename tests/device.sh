#!/bin/sh
# The library on a chip that nobody here wrote: on an emulated board (Cortex-M4) it drives qemu's serial NOR flash through examples/port/nor.c. The page of
# firmware runs; the driver waits where a chip takes its time (device/slow.c); the device's trace keeps the data sheet's rules (device/trace.py); and killed at
# any moment, the map is after each start the one before or the one after (device/kills.py), which tools/floatstore reads from the image that is left. Each
# judge finds the faults that are planted in a driver.
#   DEVICE_KILLS=60 DEVICE_CHANGES=600 DEVICE_SEED=1 tests/device.sh [BOARD]      the defaults; a BOARD of device/emulator.py, ast1030
cd "$(dirname "$0")/.." || exit 1
board=${1:-ast1030}
tools/need.sh qemu-system-arm --no-install-recommends qemu-system-arm || exit 1
tools/need.sh arm-none-eabi-gcc --no-install-recommends gcc-arm-none-eabi || exit 1
case $board in npcm750*) processor=cortex-a9 ;; *) processor=cortex-m4 ;; esac
. tests/port/boards.inc && need_picolibc || exit 1
tools/port $processor >/dev/null && tools/port x86-64 >/dev/null && tools/floatstore_build.sh || exit 1
room=$(mktemp -d) || exit 1
trap 'rm -rf "$room"' EXIT
trap 'exit 130' INT TERM HUP
die() { echo "$*"; exit 1; }
port=$PWD/target/port/$processor
wraps='-Wl,--wrap=floatstore_chip_read -Wl,--wrap=floatstore_chip_write -Wl,--wrap=floatstore_chip_erase'
nor=examples/port/nor.c firmware=examples/port/firmware.c changes=tests/device/changes.c
build() { out=$1; shift; tests/device/build.sh "${board%%-*}" "$port/libfloatstore_driver.a" "$port" "$out" "$@" || exit 1; }
# slow OUT: the driver and the page of firmware on a chip that takes its time, on this machine
slow() { tools/cc.sh "$1" -Iexamples/port -Dmain=firmware -Dprintf=heard tests/device/slow.c "$firmware" "$nor" target/port/x86-64/libfloatstore_driver.a && tools/run.sh "$1"; }
tool() { tools/run.sh target/c/floatstore "$@"; }

# the page of firmware, twice on one chip: what it kept is there at the second start
build "$room/firmware.elf" $firmware $nor
for dive in 1 2; do
  said=$(python3 tests/device/emulator.py "$board" "$room/firmware.elf" "$room/firmware")
  [ "$said" = "dive $dive to $((750 + 250 * dive)) m
2 keys have a value
end 0" ] || die "the page of firmware says: $said"
done
echo "$board: examples/port/firmware.c keeps what it is given"

slow target/c/slow || exit 1

build "$room/changes.elf" $wraps $changes $nor
python3 tests/device/trace.py "$board" "$room/changes.elf" "$room/trace" "${DEVICE_CHANGES:-600}" "${DEVICE_SEED:-1}" || exit 1
python3 tests/device/kills.py "$board" "$room/changes.elf" "$room/kills" "${DEVICE_KILLS:-60}" "${DEVICE_SEED:-1}" || exit 1
tool check "$room/kills/store.img" || exit 1
tool list "$room/kills/store.img" >"$room/list" && python3 - "$room" <<'END' || die "tools/floatstore lists another map"
import json, sys
listed = dict(line.rstrip("\n").split("\t", 1) for line in open(sys.argv[1] + "/list"))
sys.exit(listed != json.load(open(sys.argv[1] + "/kills/map.json")))
END

# plant JUDGE WANTED FILE EDIT: with EDIT (of sed) made to a copy of FILE, one of nor, firmware and changes, the judge says a line with WANTED
plant() (
  eval "file=\$$3"
  copy=$room/$(basename "$file")
  sed "$4" "$file" >"$copy"
  cmp -s "$file" "$copy" && die "no longer to be planted: $4"
  eval "$3=$copy"
  rm -rf "$room/planted"
  case $1 in
  slow) slow "$room/slow" ;;
  trace) build "$room/planted.elf" $wraps $changes $nor && python3 tests/device/trace.py "$board" "$room/planted.elf" "$room/planted" 300 1 ;;
  kills) build "$room/planted.elf" $wraps $changes $nor && python3 tests/device/kills.py "$board" "$room/planted.elf" "$room/planted" 12 1 ;;
  esac >"$room/out" 2>&1 && die "not found: $4"
  grep -q "\(VIOLATION\|WRONG\).*$2" "$room/out" || { cat "$room/out"; die "found otherwise than by '$2': $4"; }
)
plant slow 'a write answers 0' nor '/^int floatstore_chip_write/,/^}/s/ || ready(nor, PROGRAM_US)//' || exit 1
plant slow 'an erase answers 0' nor '/^int floatstore_chip_erase/,/^}/s/ || ready(nor, ERASE_US)//' || exit 1
plant slow 'a read waits' nor '/^int floatstore_chip_read/,/^}/s/ready(nor, ERASE_US) || //' || exit 1
plant slow 'an erase answers 0' nor 's/ERASE_US 1000000u/ERASE_US 100000u/' || exit 1
plant slow 'reads as zeros' nor 's/(BUSY | LATCH | PROTECTED)) != LATCH/(BUSY | PROTECTED)) != 0/' || exit 1
plant slow 'keeps what it is given' firmware '/^static int64_t put/,/^}/s/ || start() < 0) return answer;/) return answer;/' || exit 1
plant slow 'is protected' nor 's/(BUSY | LATCH | PROTECTED)/(BUSY | LATCH)/' || exit 1
plant trace 'no write enable before 0x20' nor '/^int floatstore_chip_erase/,/^}/s/enable(nor)/ready(nor, ERASE_US)/' || exit 1
plant trace "the status wasn't read before" nor '/^static int ready/a\    if (us) return 0;' || exit 1
plant trace 'command 0xd8' nor 's/ERASE = 0x20/ERASE = 0xD8/' || exit 1
halves='    if (enable(nor) || nor_spi(nor->bus, out, 132, NULL, 0) || ready(nor, PROGRAM_US)) return 1;\n'
halves="$halves    begin(out + 128, PROGRAM, nor->base + 256 * page + 128);\\n"
halves="$halves    return enable(nor) || nor_spi(nor->bus, out + 128, 132, NULL, 0) || ready(nor, PROGRAM_US);"
plant trace 'a program of 128 bytes' nor "/^int floatstore_chip_write/,/^}/s/^    return.*/$halves/" || exit 1
plant trace 'the firmware counts' nor '/^int floatstore_chip_write/,/^}/s/^    return/    if (page % 16 == 7) return 0;\n&/' || exit 1
plant kills 'the map is none of\|a get says' nor '/^int floatstore_chip_write/,/^}/s/^    return/    if (page % 16 == 7) return 0;\n&/' || exit 1
plant kills 'the map is none of\|a get says\|after a failure' changes '/^static int fail(/,/^}/s/return 1;/return 0;/' || exit 1
echo "found each of $(grep -c '^plant [a-z]' tests/device.sh) faults in a driver"
