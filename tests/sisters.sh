#!/bin/sh
# Wrong programs show something only if their harmless sisters (crates/*/must-pass/*.edit: the same line, written in another way) are proved as they stand:
# then a wrong program is refused for what it does, and not for being another text. All sisters of a crate are tried at once, on a copy of it.
cd "$(dirname "$0")/.." || exit 1
. tests/crates.inc
room=$(mktemp -d) || exit 1
trap 'rm -rf "$room"' EXIT
trap 'exit 130' INT TERM HUP
# (the copy is a repository of its own to rt, which begins with what it proved of the same crates here)
copy_crates "$room" && mkdir "$room/.git" && rm -rf "$room"/crates/*/must-fail || exit 1
names='' wanted=0 sisters=0
for folder in "$room"/crates/*/must-pass; do
  mkdir "${folder%/must-pass}/must-fail"
  cat "$folder"/*.edit >"${folder%/must-pass}/must-fail/sisters.edit"
  names="$names $(basename "${folder%/must-pass}")" wanted=$((wanted + 1)) sisters=$((sisters + $(ls "$folder"/*.edit | wc -l)))
done
# to the checker the sisters are one wrong program, and it must complain that it is not refused
# shellcheck disable=SC2086
(cd "$room" && rt must-fail $names) >"$room/said" 2>&1
proved=$(grep -c '^rt: must-fail [a-z_]*/sisters.edit: NOT REFUSED: the crate is still proved with this edit' "$room/said")
echo "harmless sisters: $sisters in $wanted crates; proved with all of them: $proved"
[ "$proved" = "$wanted" ] && [ "$wanted" -gt 0 ] && exit 0
sed -n 's/refused, as it must be/REFUSED, and a sister must be proved/; s/^rt: must-fail //p' "$room/said"
[ "$(grep -c '^rt: must-fail ' "$room/said")" = "$wanted" ] || tail -n 20 "$room/said"
exit 1
