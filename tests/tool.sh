#!/usr/bin/env bash
# The tool: every old command and every error. What fails must end with its status (1 refused, 2 misused, 3 damaged) and one line on standard error, and leave
# the image as it was. Salvage, what is asked at once, and what looks at pages: tests/tool_*.sh.
. "$(dirname "$0")/tool.inc"

# says WANTED WORDS..: the command succeeds and writes just that
says() {
  local want=$1 got
  shift
  tests=$((tests + 1))
  if ! got=$(tool "$@" 2>said) || [ -s said ]; then complain "floatstore $*: failed: $(cat said)"; return; fi
  [ "$got" = "$want" ] || complain "floatstore $*: wrote '$got' and not '$want'"
}
# has PART WORDS..: it succeeds and writes that among others
has() {
  local want=$1 got
  shift
  tests=$((tests + 1))
  got=$(tool "$@" 2>said) || complain "floatstore $*: failed: $(cat said)"
  case $got in *"$want"*) ;; *) complain "floatstore $*: wrote '$got', without '$want'" ;; esac
}
# fails PART WORDS..: it fails with status 1 and one line that has that, and writes nothing else anywhere; misused, damaged: with status 2, 3
fails() { ends 1 "$@"; }
misused() { ends 2 "$@"; }
damaged() { ends 3 "$@"; }
ends() {
  local status=$1 want=$2 before
  shift 2
  tests=$((tests + 1))
  before=$(cat ./*.img 2>/dev/null | sha256sum; ls -A)
  tool "$@" >out 2>said
  [ $? = "$status" ] || complain "floatstore $*: the status isn't $status"
  [ "$(wc -l <said)" = 1 ] || complain "floatstore $*: not one line: $(cat said)"
  grep -qF -- "$want" said || complain "floatstore $*: said '$(cat said)', without '$want'"
  [ ! -s out ] || complain "floatstore $*: wrote to standard output"
  [ "$before" = "$(cat ./*.img 2>/dev/null | sha256sum; ls -A)" ] || complain "floatstore $*: changed a file"
}
: >out; : >said
# plant IMAGE PAGE HEX: the record of a key, with an empty value, as put made it of any bytes before request 9
plant() {
  python3 - "$@" <<'END'
import sys
key = bytes.fromhex(sys.argv[3])
page = (bytes([1, 1, len(key), 0]) + bytes(12) + key).ljust(128, b"\0")
with open(sys.argv[1], "r+b") as image:
    image.seek(256 * int(sys.argv[2]))
    image.write(page + bytes(255 - x for x in page))
END
}

# ---- every command
has 'floatstore map IMAGE' help
says '' format a.img 4
[ "$(stat -c %s a.img)" = 16384 ] || complain "a.img has not 4 blocks"
says 0 count a.img
says '' put a.img depth '1500 m'
says '1500 m' get a.img depth
plant a.img 1 00ff
says '' get a.img hex:00FF
says '' put a.img hex:6465707468 2000
says 2000 get a.img depth
says 2 count a.img
says $'hex:00ff\t\ndepth\t2000' list a.img
says '' delete a.img hex:00ff
says '' format order.img 4 && says '' list order.img
for key in b ab a aab aa '~' '!'; do says '' put order.img "$key" "<$key>"; done
says $'!\t<!>\na\t<a>\naa\t<aa>\naab\t<aab>\nab\t<ab>\nb\t<b>\n~\t<~>' list order.img
says '' delete order.img aab && says '' put order.img aaa ''
says $'!\t<!>\na\t<a>\naa\t<aa>\naaa\t\nab\t<ab>\nb\t<b>\n~\t<~>' list order.img
rm order.img
says 1 count a.img
says '' put a.img -- --key '--value'
says --value get a.img -- --key
says '' put a.img text 'hex:' && says '' get a.img text
says '' put a.img bytes hex:6865783a31
says hex:6865783a31 get a.img bytes
[ "$(tool get a.img bytes --raw)" = hex:1 ] || complain "get --raw"
says '' put a.img 0123456789abcdef "$(printf '%220s' v)"
says "$(printf '%220s' v)" get a.img 0123456789abcdef
has 'oovnvvvv........  head' map a.img
has 'head: block 0, its next place 8; first round' check a.img
has 'agree on all 5 keys' check a.img
has 'saw 56 blank, 8 sound and 0 spoilt pages' check a.img
says '' map a.img --svg a.svg
python3 -c 'import sys, xml.dom.minidom as m; d = m.parse("a.svg"); sys.exit(len(d.getElementsByTagName("path")) != 64)' || complain "a.svg is not a picture of 64 pages"
ln -s a.img link
says '' put link by link
says link get a.img by
[ -L link ] || complain "a link was replaced"
chmod 640 a.img && says '' delete a.img by
[ "$(stat -c %a a.img)" = 640 ] || complain "the mode of a.img changed"
says '' format a.img --force && says 0 count a.img
says '' format a.img && says '' format a.img 4
says '' format big.img 4096 && says 0 count big.img && has 'room for 32752 keys' check big.img && rm big.img

# ---- the ring goes round, and the power fails
for i in $(seq 1 70); do tool put a.img "k$((i % 9))" "$i" || complain "put $i"; done
has 'spare: block' check a.img
has 'oldest' map a.img
has '9 of 16 keys' check a.img
was=$(tool get a.img k1)
if tool put a.img k1 cut --cut 1 --noise 7 2>said; then complain "a cut put succeeded"; fi
grep -q 'cut short (7)' said || complain "a cut put says '$(cat said)'"
has '1 page was left half written' check a.img
has 'and 1 spoilt pages; the first spoilt one is page' check a.img
says "$was" get a.img k1
says '' put a.img k1 whole
says whole get a.img k1
tool put a.img k2 cut --cut 1 --noise zeros 2>said
says cut get a.img k2
tool delete a.img k2 --cut 1 --noise ones 2>said
says cut get a.img k2
for i in $(seq 1 40); do cp a.img before.img; tool put a.img k3 "$i" --cut 2 2>said || break; done
has 'agree on all 9 keys' check a.img
for i in 0 1 2 3; do says "$(tool get before.img k$i)" get a.img k$i; done

# ---- every error
cp a.img keep && head -c 5000 a.img >odd.img && head -c 12288 /dev/zero >three.img && head -c 16384 /dev/zero >zero.img && mkdir folder
misused 'no command'
misused "no command 'frobnicate'" frobnicate
for c in format put get delete count list export import check map history dump diff salvage; do misused 'words are missing' $c; done
misused 'words are missing' put a.img key
misused 'too many words' get a.img key more
fails 'No such file' get none.img key
fails 'No such file' put none.img key value
fails 'No such file' format none.img
fails 'not a file' count folder
fails 'not a file' format folder 4
fails '5000 bytes is no chip' count odd.img
fails "12288 bytes is no chip" check three.img
fails 'refused (5)' format new.img 3
fails 'refused (5)' format new.img 4097
fails 'another size' format a.img 5
misused "'four' is no number" format new.img four
misused "'-4' is no number" format new.img -4
fails 'cannot be made' format no/such/folder.img 4
fails 'refused (1)' put a.img '' value
fails 'refused (1)' get a.img 0123456789abcdefg
fails 'refused (1)' delete a.img hex:
fails 'refused (1)' put a.img hex:00ff hex:
fails 'refused (1)' put a.img 'two words' value
fails 'refused (1)' put a.img $'line\n' value
fails 'refused (2)' put a.img key "$(printf '%221s' v)"
fails 'refused (4)' get a.img nothing
fails 'refused (4): the key has no value' delete a.img nothing
damaged 'refused (8)' count zero.img
damaged 'refused (8)' put zero.img key value
misused 'hex digits come in pairs' get a.img hex:0
misused 'not hex digits' put a.img hex:zz value
misused 'no option --svg' count a.img --svg x
misused 'needs a word' map a.img --svg
misused 'operations are counted from 1' put a.img a b --cut 0
misused 'is no number of a seed' put a.img a b --noise loud
for i in $(seq 1 16); do tool put full.img "k$i" v 2>/dev/null || tool format full.img 4 && tool put full.img "k$i" v; done
fails 'refused (3)' put full.img k17 v
if tool check zero.img >out 2>said; then complain "check of zero.img succeeded"; fi
grep -q 'refused (8)' said || complain "check of zero.img says '$(cat said)'"
grep -qx 'start    saw 0 blank, 0 sound and 64 spoilt pages; the first spoilt one is page 0, at byte 0' out || complain "check of zero.img shows '$(cat out)'"
[ -e /dev/full ] && { tool help >/dev/null; if tool count a.img >/dev/full 2>said; then complain "a full disk is not noticed"; fi; }
cmp -s a.img keep || complain "an error changed a.img"
[ -z "$(ls -A | grep '\.img\.')" ] || complain "a half-written file was left: $(ls -A)"
echo "the tool: $tests commands tried, $wrong wrong"
[ "$wrong" = 0 ]
