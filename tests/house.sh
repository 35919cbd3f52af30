#!/bin/sh
# docs/house.svg is what tools/house.py draws of the house as it is; docs/HOUSE.md has a line for each crate, and names no function, file or definition
# that isn't there. And what isn't so is found.
cd "$(dirname "$0")/.." || exit 1
python3 tools/house.py --check || exit 1
. tests/crates.inc
copy=$(mktemp -d) || exit 1
trap 'rm -rf "$copy"' EXIT

n=0
# plant WHAT WANTED: with the command WHAT done to a copy, the line WANTED is among what is found
plant() {
  rm -rf "$copy/house"
  mkdir "$copy/house" && copy_crates "$copy/house" && cp -r docs include tools tests "$copy/house"/ || exit 1
  (cd "$copy/house" && sh -c "$1") || exit 1
  python3 "$copy/house/tools/house.py" --check | grep -qxF "$2" || { echo "not found: $1"; exit 1; }
  n=$((n + 1))
}
picture="docs/house.svg is not what tools/house.py draws: run it"
plant 'mkdir -p crates/attic/src && echo "// empty" > crates/attic/src/lib.rt && echo "attic: page" >> crates.txt' "docs/HOUSE.md has no line for attic"
plant 'echo "use keys::next;" >> crates/survey/src/lib.rt' "$picture"
plant 'echo "use Rattle.survey.specs.Seen.{Sees}" >> crates/histories/specs/History.antt' "$picture"
plant 'sed -i "s/page::is_sound(page)/true/" crates/record/src/lib.rt' "$picture"
plant 'sed -i "s/chip\.write(p, /chip.erase(p, /" crates/*/src/lib.rt' "$picture"
plant 'sed -i "/^| .page. |/d" docs/HOUSE.md' "docs/HOUSE.md has no line for page"
plant 'echo "| \`cellar\` | | |" >> docs/HOUSE.md' "docs/HOUSE.md has a line for cellar, which is no crate"
plant 'echo "\`page::is_blink\`" >> docs/HOUSE.md' "docs/HOUSE.md names page::is_blink, which is no function"
plant 'echo "\`PutBegins\`" >> docs/HOUSE.md' "docs/HOUSE.md names PutBegins, which stands nowhere in crates/"
plant 'echo "crates/page/specs/Paper.antt" >> docs/HOUSE.md' "docs/HOUSE.md names the file crates/page/specs/Paper.antt, which isn't there"
echo "picture and page are those of the house; found each of $n faults in a copy"
