#!/bin/sh
# docs/ASKED.md has a heading for each document, section and request that the repository cites; and a citation of one that it doesn't have is found.
cd "$(dirname "$0")/.." || exit 1

# astray DIR: the citations in DIR that have no heading there, each as FILE:LINE: and the heading that is wanted
astray() {
  (
    cd "$1" || exit 1
    sed -n 's/^###* \(Document 0[0-9]\(, [a-z]* [0-9]*\)*\):.*/\1/p' docs/ASKED.md
    grep -rnIiEo --exclude=asked.sh --exclude=ASKED.md --exclude-dir=out \
      'documents? 0[0-9](, (section|request) [0-9]+)?|sections? [0-9]+ of document 0[0-9]|requests? [0-9]+((, | and )[0-9]+)*|^\| 0[0-9], [0-9]+ \|' \
      crates docs include tools tests examples README.md
  ) | awk -F: '
    NF == 1 { known[$0] = 1; next }
    {
      words = tolower($3)
      doc = match(words, /0[0-9]/) ? substr(words, RSTART, 2) : "02"
      kind = words ~ /section/ || words ~ /^\|/ && doc != "02" ? "section" : "request"
      gsub(/0[0-9]/, "", words)
      n = split(words, number, /[^0-9]+/)
      wanted = "Document " doc
      for (i = 1; i <= n; i++) if (number[i] != "") { wanted = "Document " doc ", " kind " " number[i]; if (!(wanted in known)) print $1 ":" $2 ": " wanted }
      if (!(wanted in known) && wanted !~ /,/) print $1 ":" $2 ": " wanted
      cited++
    }
    END { if (!cited) print "no citation was found" }'
}

lost=$(astray .)
[ -z "$lost" ] || { echo "$lost"; exit 1; }

. tests/crates.inc
copy=$(mktemp -d) || exit 1
trap 'rm -rf "$copy"' EXIT
copy_crates "$copy" && cp -r docs include tools tests examples README.md "$copy"/ || exit 1
n=0
while IFS='>' read -r citation wanted; do
  n=$((n + 1))
  echo "$citation" > "$copy/tools/planted"
  astray "$copy" | grep -qx "tools/planted:1: $wanted" || { echo "not found: $citation"; exit 1; }
done <<'END'
as document 01, section 7 has it>Document 01, section 7
Section 5 of document 03>Document 03, section 5
since requests 5, 9 and 13>Document 02, request 13
Document 02, request 14>Document 02, request 14
| 03, 9 | a row of a table |>Document 03, section 9
see document 04>Document 04
END
echo "each citation has its heading; found each of $n that have none"
