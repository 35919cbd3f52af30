#!/bin/sh
# port_sizes.sh: makes every target of tools/port, and prints the bytes of code of both builds (docs/PORT-OTHER.md). There is no data beside it.
cd "$(dirname "$(readlink -f "$0")")/.." || exit 1
tools/need.sh size binutils || exit 1
echo '| target | chip in memory | behind a driver |'
echo '|---|---|---|'
for target in cortex-m0 cortex-m4 cortex-m33 cortex-a9 rv32imac aarch64 x86-64; do
  made=$(tools/port $target) || exit 1
  # text, data and bss of each object
  for build in floatstore floatstore_driver; do size "$made/lib$build.a" | LC_ALL=C awk 'NR > 1 { n += $1; data += $2 + $3 } END { print n, data }'; done |
    LC_ALL=C awk -v target=$target '
      { n[NR] = $1; data += $2 }
      END { if (data) exit 1; printf "| %s | %d,%03d | %d,%03d |\n", target, n[1] / 1000, n[1] % 1000, n[2] / 1000, n[2] % 1000 }' || exit 1
done
