#!/bin/sh
# Documents and headers have lines of at most 160 characters, but for the rows of tables, which markdown can't break; README's table of sizes is what
# tools/sizes.sh prints; and what README and the documents link to is there. And what isn't so is found.
cd "$(dirname "$0")/.." || exit 1
texts='README.md CHANGELOG.md CONTRIBUTING.md include/floatstore.h include/floatstore_fs.h include/floatstore_text.h include/floatstore_driver.h examples/firmware.c life'
texts="$texts $(echo examples/port/*)"
texts="$texts $(echo docs/*.md docs/changes/*.md)"

# faults DIR: what is wrong there, a line each
faults() (
  cd "$1" || exit 1
  # characters, not bytes: the bytes that continue one of UTF-8 don't count
  for text in $texts; do
    LC_ALL=C sed 's/[\x80-\xBF]//g' "$text" | LC_ALL=C awk -v text="$text" 'length($0) > 160 && !/^\|/ { print text ":" NR ": " length($0) " characters" }'
  done
  tools/sizes.sh | while IFS= read -r row; do grep -qxF "> $row" README.md || echo "README.md lacks the row $row"; done
  for text in README.md CHANGELOG.md CONTRIBUTING.md docs/*.md; do
    grep -o '](\([^)# ]*\)' "$text" | sed 's/^](//' | grep -v '^https\?:' | while IFS= read -r to; do
      [ -e "$(dirname "$text")/$to" ] || echo "$text links to $to, which isn't there"
    done
  done
)
lost=$(faults .)
[ -z "$lost" ] || { echo "$lost"; exit 1; }

. tests/crates.inc
copy=$(mktemp -d) || exit 1
trap 'rm -rf "$copy"' EXIT
trap 'exit 130' INT TERM HUP
n=0
# plant WHAT WANTED: with the command WHAT done to a copy, the line WANTED is among what is found
plant() {
  rm -rf "$copy/here" && mkdir "$copy/here" && copy_crates "$copy/here" && cp -r ./*.md VERSION docs include examples tools life tests "$copy/here"/ || exit 1
  (cd "$copy/here" && sh -c "$1") || exit 1
  faults "$copy/here" | grep -qxF "$2" || { echo "not found: $1"; exit 1; }
  n=$((n + 1))
}
for text in README.md include/floatstore.h docs/DECISIONS.md docs/changes/8-next.md; do plant "printf '%0161d\n' 1 | cat - $text >new && mv new $text" "$text:1: 161 characters"; done
plant "sed -i 's/32,832/32,823/' README.md" 'README.md lacks the row | 512 | 4,080 | 2,097,152 | 32,832 | 1 | 10 | 0.052 |'
plant "sed -i 's/16 \* \$1 + 16/16 * \$1 + 17/' tools/sizes.sh" 'README.md lacks the row | 16 | 112 | 65,536 | 1,092 | 1 | 10 | 0.052 |'
plant "rm docs/ring.svg" "README.md links to docs/ring.svg, which isn't there"
echo "lines of at most 160 characters in $(echo $texts | wc -w) files; found each of $n faults in a copy"
