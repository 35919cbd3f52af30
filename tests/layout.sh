#!/bin/sh
# Every file of Rattle and antt is in the formatter's layout: in a copy rt fmt, which only writes, changes nothing. (rt ci refuses a crate that isn't, after the
# minutes that those below it take.) And what isn't so is found.
cd "$(dirname "$0")/.." || exit 1
. tests/crates.inc
room=$(mktemp -d) || exit 1
trap 'rm -rf "$room"' EXIT
trap 'exit 130' INT TERM HUP
mkdir "$room/was" "$room/now" && copy_crates "$room/was" && copy_crates "$room/now" || exit 1
# formatted NAME: the files of the crate that rt fmt lays out otherwise, a line each
formatted() {
  (cd "$room/now/crates/$1" && rt fmt) >"$room/said" 2>&1 || { cat "$room/said"; return; }
  diff -rq "$room/was/crates/$1" "$room/now/crates/$1" | sed "s|.* $room/now/|not in rt fmt's layout: |; s| differ\$||"
}
bad=0 files=0
for crate in crates/*/; do
  name=$(basename "$crate")
  lost=$(formatted "$name")
  [ -z "$lost" ] || { echo "$lost"; bad=1; }
  files=$((files + $(find "$room/now/crates/$name" -name '*.rt' -o -name '*.antt' | wc -l)))
done
[ $bad = 0 ] || exit 1
n=0
for file in page/src/lib.rt page/specs/Page.antt page/proofs/is_blank/Answers.antt; do
  sed -i 's/ /  /' "$room/now/crates/$file" && cp "$room/now/crates/$file" "$room/was/crates/$file" || exit 1
  [ "$(formatted page)" = "not in rt fmt's layout: crates/$file" ] || { echo "not found: a space more in $file"; exit 1; }
  cp "$room/now/crates/$file" "$room/was/crates/$file"
  n=$((n + 1))
done
echo "$files files are in rt fmt's layout; found each of $n that are not"
