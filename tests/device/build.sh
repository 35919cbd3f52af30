#!/bin/sh
# build.sh BOARD LIBRARY INCLUDE OUT FILES AND FLAGS..: a firmware for an emulated board, ast1030 (Cortex-M4) or npcm750 (Cortex-A9), of the board's files here,
# the FILES and the LIBRARY, whose headers are in INCLUDE.
here=$(cd "$(dirname "$0")" && pwd) || exit 1
board=$1 library=$2 include=$3 out=$4
shift 4
case $board in
ast1030) words="-mcpu=cortex-m4 -mthumb -Wl,--defsym=CODE=0" ;;
npcm750) words="-mcpu=cortex-a9 -marm -mno-unaligned-access -DNO_RESET -Wl,--defsym=CODE=0x10000 -Wl,-e,reset" ;;
*) echo "build.sh: there is no board $board" >&2; exit 1 ;;
esac
exec arm-none-eabi-gcc $words -mfloat-abi=soft --specs=picolibc.specs -std=c11 -O2 -Wall -Wextra -Werror -I"$include" -I"$here" -I"$here/../../examples/port" \
  "$here/$board.c" "$here/board.c" "$@" "$library" -ffunction-sections -fdata-sections -nostartfiles -static -Wl,--gc-sections -Wl,--no-warn-rwx-segments \
  -Wl,-z,noexecstack -Wl,--defsym=DATA=0x40000 -T "$here/board.ld" -o "$out"
