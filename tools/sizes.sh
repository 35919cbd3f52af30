#!/bin/sh
# sizes.sh [B..]: what a store of B blocks (16, 512, 2,048) holds, needs and may take: README's table. Bounds are those of include/floatstore.h; a second is
# reckoned with ERASE_MS (45) for an erase and PAGE_MS (0.7) for a page write, which are usual ones for serial NOR: your chip's sheet has its own.
[ $# -gt 0 ] || set -- 16 512 2048
for b in "$@"; do
  case $b in '' | *[!0-9]* | ?????*) echo "sizes: '$b' is no number of blocks" >&2; exit 1 ;; esac
  [ "$b" -ge 4 ] && [ "$b" -le 4096 ] || { echo "sizes: a chip has 4 to 4096 blocks" >&2; exit 1; }
done
echo "$@" | tr ' ' '\n' | LC_ALL=C awk -v erase="${ERASE_MS:-45}" -v page="${PAGE_MS:-0.7}" '
  function counted(n, s) { for (s = ""; n >= 1000; n = int(n / 1000)) s = sprintf(",%03d", n % 1000) s; return n s }
  BEGIN { print "| blocks | keys | flash, bytes | work area, bytes | worst put: erases | page writes | in seconds |"; print "|---|---|---|---|---|---|---|" }
  {
    room = 8 * ($1 - 2); erases = 1; writes = 10
    printf "| %s | %s | %s | %s | ", counted($1), counted(room), counted(4096 * $1), counted(4 * (16 * $1 + 16))
    printf "%s | %s | %.3g |\n", counted(erases), counted(writes), (erases * erase + writes * page) / 1000
  }'
