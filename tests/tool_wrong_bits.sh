#!/bin/sh
# The tables of docs/FAULTS.md, "What a wrong bit does", are what tools/wrong_bits.sh counts; and no wrong bit makes a value that nobody put.
cd "$(dirname "$0")/.." || exit 1
said=$(tools/wrong_bits.sh) || exit 1
rows=$(echo "$said" | grep -c '^| the whole chip | 262144 | 0 |')
[ "$rows" = 2 ] || { echo "two chips without an invented value are wanted: $said"; exit 1; }
echo "$said" | grep '^|' | while read -r row; do
  grep -qxF "$row" docs/FAULTS.md || { echo "docs/FAULTS.md doesn't have: $row"; exit 1; }
done || exit 1
echo "what a wrong bit does: as docs/FAULTS.md says"
