#!/usr/bin/env bash
# The tool's newer commands: dump, diff, history, export and import, values from standard input and files, --offset, --version, -h, the picture of a large chip,
# the man page and the completion.
. "$(dirname "$0")/tool.inc"
# says WANTED WORDS..: it succeeds and writes just that; ends STATUS PART WORDS..: it ends so, and says that on either channel
says() {
  local want=$1 got
  shift
  got=$(tool "$@" 2>said) && [ ! -s said ] || complain "floatstore $*: failed: $(cat said)"
  [ "$got" = "$want" ] || complain "floatstore $*: wrote '$got' and not '$want'"
}
ends() {
  local status=$1 want=$2
  shift 2
  tool "$@" >out 2>&1
  [ $? = "$status" ] || complain "floatstore $*: the status isn't $status"
  grep -qF -- "$want" out || complain "floatstore $*: said '$(cat out)', without '$want'"
}

# ---- values from elsewhere
tool format a.img 4
printf 'two\nlines\0' | tool put a.img stdin - && says hex:74776f0a6c696e657300 get a.img stdin
head -c 220 /dev/urandom >bytes && tool put a.img file @bytes && tool get a.img file --raw | cmp - bytes || complain "@FILE"
says '' put a.img at @@home && says @home get a.img at
says '' put a.img dash hex:2d && says - get a.img dash
head -c 221 /dev/zero >long && ends 1 'refused (2)' put a.img file @long
ends 1 'No such file' put a.img file @none

# ---- export and import: any bytes, both forms, and the map is the same
python3 - any.csv <<'END2'
import random, sys
random.seed(1)
with open(sys.argv[1], "w") as out:
    out.write("key,value\n")
    for i in range(40):
        key = bytes([random.randrange(0x21, 0x7f) for _ in range(random.randrange(1, 17))])
        value = bytes([[i % 256] * 3, [0x22, 0x5c, 0x2c], [random.randrange(256)] * 220, list(b'hex:"x"'), []][i % 5])
        out.write(f"hex:{key.hex()},hex:{value.hex()}\n")
END2
tool format any.img 8 && tool import any.img any.csv || complain "import of any bytes"
says 40 count any.img
tool list any.img >any.list
for form in json csv; do
  tool export any.img --$form >any.$form || complain "export --$form"
  rm -f back.img && tool format back.img 8 && tool import back.img any.$form && tool list back.img | cmp - any.list || complain "the round trip by $form"
  rm -f back.img && tool format back.img 8 && tool import back.img --$form - <any.$form && tool list back.img | cmp - any.list ||
    complain "the round trip by $form, as asked"
done
python3 -c 'import json; d = json.load(open("any.json")); assert len(d) == 40 and all(set(x) == {"key", "value"} for x in d)' || complain "any.json isn't JSON"
python3 -c 'import csv; d = list(csv.reader(open("any.csv", newline=""))); assert d[0] == ["key", "value"] and len(d) == 41' || complain "any.csv isn't CSV"
tool format none.img 4 && says '[]' export none.img && tool export none.img | tool import none.img && says 0 count none.img
printf '[ {"value":"d\\u00e9j\\u00e0 \\ud83d\\ude00\\n", "key":"k"} ]' | tool import none.img && says "hex:64c3a96ac3a020f09f98800a" get none.img k
printf 'key,value\r\na,"1,\r\n""2"""\r\nb,\r\n' | tool import none.img && says hex:312c0d0a223222 get none.img a && says '' get none.img b
before=$(sha256sum none.img)
for text in 'key;value' $'key,value\nx' $'key,value\n"x,y' '[{"key":"k"}]' '[{"key":"k","key":"l"}]' '[{"key":"k","value":"v"}' \
  '[{"key":"k","value":"v"}]]' '[{"key":"\q","value":""}]' '[{"key":"k","value":"\ud83d"}]' $'key,value\nk,hex:0'; do
  printf %s "$text" >bad.txt
  tool import none.img bad.txt >out 2>&1
  [ $? = 2 ] && [ "$(wc -l <out)" = 1 ] || complain "import of '$text': $(cat out)"
done
{ echo key,value; for i in $(seq 1 17); do echo "k$i,v"; done; } >many.csv
ends 1 "nothing was imported: refused (3)" import none.img many.csv
ends 1 "refused (1)" import none.img <(printf 'key,value\na,1\ntwo words,2\n')
[ "$before" = "$(sha256sum none.img)" ] || complain "an import that failed changed the image"

# ---- history, dump, diff
tool format h.img 4
for i in 1 2; do tool put h.img key "$i"; done
tool delete h.img key && tool put h.img other x && tool put h.img key 3
first=$'page\tblock\tplace\tstate\tkey\tvalue\n'
says "$first"$'0\t0\t0\tolder\tkey\t1\n1\t0\t1\tolder\tkey\t2\n2\t0\t2\tolder\tkey\t(deleted)\n4\t0\t4\tnewest\tkey\t3' history h.img key
ends 1 'no page says anything of that key' history h.img nothing
for i in $(seq 1 60); do echo "\"other\",\"$i\""; done | sed '1i key,value' | tool import h.img
tool history h.img other | awk -F'\t' '
  NR > 1 && $4 != "spare" { if ($6 <= last) bad = 1; last = $6 + 0; n++ }
  END { exit bad || n < 30 }' || complain "the history isn't in order"
ends 0 'page 17: block 1, place 1; form' dump h.img 17
tool dump h.img 17 >number && tool dump h.img 1:1 | cmp - number || complain "dump of a page by block and place"
tool dump h.img 17 | tail -n 16 | cut -c5-52 | tr -d ' \n' >hex
[ "$(cat hex)" = "$(tail -c +4353 h.img | head -c 256 | od -An -v -tx1 | tr -d ' \n')" ] || complain "dump shows other bytes"
ends 0 'it is a seal' dump h.img 31
ends 2 'counted from 0' dump h.img 64
ends 2 'counted from 0' dump h.img 1:16
cp h.img i.img && says '0 keys and 0 pages differ' diff h.img i.img
tool put i.img key 4 && tool put i.img fresh 1 && tool delete i.img other
ends 4 $'+ key\t4' diff h.img i.img
for line in $'- key\t3' $'+ fresh\t1' $'- other\t60' '3 keys and 3 pages differ'; do grep -qxF -- "$line" out || complain "diff lacks '$line': $(cat out)"; done
tool format five.img 5 && ends 4 '4 blocks and 5 blocks' diff h.img five.img

# ---- a store inside a larger dump
head -c 5000 /dev/urandom >dump && cat h.img >>dump && head -c 3333 /dev/urandom >>dump
ends 1 'no chip' count dump --offset 5000
says 2 count dump --offset 5000 --blocks 4
cp dump was && tool put dump key inside --offset 0x1388 --blocks 4 && says inside get dump key --offset 5000 --blocks 4
cmp -s <(head -c 5000 dump) <(head -c 5000 was) && cmp -s <(tail -c 3333 dump) <(tail -c 3333 was) || complain "bytes outside the store changed"
[ "$(stat -c %s dump)" = "$(stat -c %s was)" ] || complain "the dump has another size"
ends 1 'no offset' count h.img --offset 99999
ends 1 "it has 2 keys" format dump 4 --offset 5000
tool format dump 4 --offset 5000 --force && says 0 count dump --offset 5000 --blocks 4
cmp -s <(tail -c 3333 dump) <(tail -c 3333 was) || complain "format went beyond the store"

# ---- the picture of a large chip
tool format big.img 4096 && { echo key,value; for i in $(seq 1 300); do echo "k$i,$i"; done; } | tool import big.img || complain "no large chip"
tool map big.img --svg big.svg || complain "no large picture"
[ "$(stat -c %s big.svg)" -lt 1000000 ] || complain "the picture of 4096 blocks has $(stat -c %s big.svg) bytes"
python3 - <<'END2' || complain "the large picture lacks its numbers or its head"
import xml.dom.minidom as m
texts = [t.firstChild.data for t in m.parse("big.svg").getElementsByTagName("text")]
assert "4032" in texts and "+56" in texts and "head: block 19" in texts or print(texts)
END2

# ---- help, version, man page, completion
# complete AT WORDS..: what bash would offer at that word
complete() { bash -c '. "$1"; COMP_CWORD=$2; shift 2; COMP_WORDS=(floatstore "$@"); _floatstore; echo ${COMPREPLY[@]}' - "$top/tools/floatstore.bash" "$@"; }
version=$(head -n 1 "$top/VERSION" 2>/dev/null)
says "floatstore ${version:-unreleased}" --version
commands=$(tool help | sed -n 's/^  floatstore \([a-z]*\) .*/\1/p')
[ "$(echo "$commands" | wc -w)" = 14 ] || complain "help has other commands: $commands"
for c in $commands; do
  ends 0 "floatstore $c " "$c" -h
  options=$(tool "$c" -h | head -n 1 | grep -o -- '--[a-z]*')
  for word in $c $options; do
    grep -q -- "${word//-/\\\\-}" "$top/man/floatstore.1" || complain "the man page doesn't have $word of $c"
  done
  completed=$(complete 2 "$c" -- | tr ' ' '\n' | sort)
  [ "$completed" = "$(echo "$options" | sort)" ] || complain "the completion of $c has '$completed' and not '$options'"
done
completed=$(complete 1 "")
for c in $commands help; do case " $completed " in *" $c "*) ;; *) complain "the completion lacks $c" ;; esac; done
if command -v groff >/dev/null; then
  said=$(groff -man -Tutf8 -ww "$top/man/floatstore.1" 2>&1 >/dev/null)
  [ -z "$said" ] || complain "the man page: $said"
fi
echo "dump, diff, history, export, import and the rest: $wrong wrong"
[ "$wrong" = 0 ]
