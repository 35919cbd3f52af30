#!/bin/sh
# Lines of code (src/, contracts included), of definitions (specs/), of laws (proofs/*.antt) and of proof files (proofs/F/), by crate; and lines of
# laws and proof files for a line of code. Blank lines, comments and imports are not counted.
cd "$(dirname "$0")/.." || exit 1
count() { cat /dev/null "$@" | grep -cvE '^[[:space:]]*(--|//|$|use |ghost use |(pub )?mod )'; }
printf '%-10s %6s %6s %6s %6s %8s\n' crate code specs laws proofs 'a line'
# not out/, where rt keeps copies of them; a program has no specs/ and may have no proofs/
for dir in crates/*/; do
  code=$(count $(find "${dir}src" -name '*.rt'))
  specs=$(count $(find "${dir}specs" -name '*.antt' 2>/dev/null))
  laws=$(count $(find "${dir}proofs" -maxdepth 1 -name '*.antt' 2>/dev/null))
  proofs=$(count $(find "${dir}proofs" -mindepth 2 -name '*.antt' 2>/dev/null))
  echo "$(basename "$dir") $code $specs $laws $proofs"
done | awk '
  { printf "%-10s %6d %6d %6d %6d %8.1f\n", $1, $2, $3, $4, $5, ($4 + $5) / $2; c += $2; s += $3; l += $4; p += $5 }
  END { printf "%-10s %6d %6d %6d %6d %8.1f\n", "all", c, s, l, p, (l + p) / c }'
