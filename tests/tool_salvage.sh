#!/usr/bin/env bash
# salvage: one flipped bit in page 15 of the head, a lost note, a wrong block: what was lost and what wasn't. And on chips with a block or a page that is
# wrong at random, of each key that salvage calls sure: it has the value that was put last.
. "$(dirname "$0")/tool.inc"
# shows IMAGE PATTERN: salvage ends with status 0 and has such a line
shows() {
  tool salvage "$1" >out 2>said || complain "salvage $1: failed: $(cat said)"
  grep -qE -- "$2" out || complain "salvage $1: no line '$2'"
}
# harm IMAGE AT HEX: bytes are xored with these
harm() {
  python3 - "$@" <<'END2'
import sys
with open(sys.argv[1], "r+b") as image:
    for i, x in enumerate(bytes.fromhex(sys.argv[3])):
        image.seek(int(sys.argv[2]) + i)
        byte = image.read(1)[0]
        image.seek(int(sys.argv[2]) + i)
        image.write(bytes([byte ^ x]))
END2
}
# old IMAGE PAGE: the same record in the flipped form, as version 0.9.0 wrote it
old() {
  python3 - "$@" <<'END2'
import sys
with open(sys.argv[1], "r+b") as image:
    image.seek(256 * int(sys.argv[2]))
    half = bytes([1]) + image.read(128)[1:]
    image.seek(256 * int(sys.argv[2]))
    image.write(half + bytes(255 - x for x in half))
END2
}
# what is xored with a page so that nothing of it can be read: it then has more bits 0 than it counts
noise=$(printf 'a5%.0s' $(seq 1 254))0700
# fill IMAGE N: puts k0 to k12 in turn with the numbers up to N; then k5 is deleted, and k6 put once more
fill() {
  tool format "$1" 8 || complain "format $1"
  { echo key,value; for i in $(seq 1 "$2"); do echo "k$((i % 13)),$i"; done; } | tool import "$1" || complain "import $1"
  tool delete "$1" k5 && tool put "$1" k6 six || complain "the last two of $1"
}
fill s.img 230
head=$(tool check s.img | sed -n 's/^ring     head: block \([0-9]*\),.*/\1/p')
tool list s.img >truth
note=$(tool history s.img k5 | awk -F'\t' '$6 == "(deleted)" && $4 == "newest" { print $1 }')
last=$(tool history s.img k6 | awk -F'\t' '$6 == "six" { print $1 }')
[ -n "$head" ] && [ -n "$note" ] || complain "no head or no note"

# ---- nothing wrong
shows s.img "^start    takes the chip: head block $head$"
shows s.img '^keys     13 with a newest record, 13 sure, 0 not; 0 more that only the spare has$'
shows s.img '^lost     nothing'

# ---- one flipped bit in page 15 of the head: start refuses, and nothing was lost
cp s.img head.img && harm head.img $((256 * (16 * head + 15) + 77)) 10
shows head.img '^start    refuses \(8\): all 8 blocks are sealed'
shows head.img "^guess    a later round with head block $head, .*: explained by 1 wrong bit"
shows head.img '^sure     no other head fits so well'
shows head.img '^keys     13 with a newest record, 13 sure, 0 not'
shows head.img '^lost     nothing'
shows head.img $'^key\tk5\t\\(deleted\\)\tsure$'
shows head.img $'^key\tk6\tsix\tsure$'
tool salvage head.img --csv >map.csv && tool format new.img 8 && tool import new.img map.csv || complain "no map to import"
tool list new.img | cmp -s - truth || complain "the salvaged map isn't the one that was"

# ---- a lost note: start takes the chip, and k5 is back; salvage says so
cp s.img note.img && harm note.img $((256 * note + 100)) 01
tool get note.img k5 >/dev/null || complain "k5 isn't back"
shows note.img $'^key\tk5\t[0-9]+\toverridden by page '"$note"', which is spoilt in one bit'
shows note.img "^one bit  page $note .*: it said k5"$'\t\\(deleted\\)$'
shows note.img $'^key\tk6\tsix\tsure$'
shows note.img '^keys     13 with a newest record, 12 sure, 1 not;'
cp s.img gone.img && harm gone.img $((256 * note)) "$noise"
shows gone.img $'^key\tk5\t[0-9]+\tunless one of 1 unreadable page after it that may be of this key is$'
shows gone.img $'^key\tk6\tsix\tsure$'
shows gone.img '^lost     1 of the pages that were written in the log can.t be read'
if grep -q '^one bit' out; then complain "a page of noise was read"; fi

# ---- a value spoilt in one bit of its text: with a flipped copy it is read both ways; a count tells that a bit is wrong and not which
cp s.img value.img
old value.img "$last" && tool list value.img | cmp -s - truth || complain "a page of the old form says something else"
harm value.img $((256 * last + 32)) 01
shows value.img "^one bit  page $last .*: it said k6"$'\t(six, or k6\trix|rix, or k6\tsix)$'
cp s.img value.img
harm value.img $((256 * last + 32)) 01
shows value.img $'^key\tk6\t[0-9]+\tunless one of 1 unreadable page'
if grep -q '^one bit' out; then complain "one of many readings was taken"; fi
# a bit where zeros are due, or one of the count but its lowest, is found all the same
for at in 99 254; do
  cp s.img value.img
  harm value.img $((256 * last + at)) 04
  shows value.img "^one bit  page $last .*: it said k6"$'\tsix$'
done

tool format single.img 4 && tool put single.img alone here && harm single.img 200 80
shows single.img $'^key\talone\there\tonly page 0 says so, which is spoilt in one bit'

# ---- a write that was cut: what can be seen of its key, which is where it has bits 0, keeps other keys sure
cp s.img cut.img && tool put cut.img k3 cut --cut 1 --noise 5 2>/dev/null
shows cut.img $'^key\tk3\t[0-9]+\tunless one of 1 unreadable page'
sure=$(grep -c $'^key\tk.*\tsure$' out)
[ "$sure" = 7 ] || complain "$sure keys are sure beside a cut write"

# ---- a wrong block: of noise, and blank
oldest=$(((head + 2) % 8)) middle=$(((head + 5) % 8))
cp s.img noise.img && head -c 4096 /dev/zero | dd of=noise.img bs=4096 seek=$middle conv=notrunc status=none
shows noise.img "^lost     block $middle \(sealed\): 15 of its 15 records can't be read$"
cp s.img blank.img && head -c 4096 /dev/zero | tr '\0' '\377' | dd of=blank.img bs=4096 seek=$middle conv=notrunc status=none
shows blank.img "^start    refuses \(8\): the head would be block"
shows blank.img "^guess    a later round with head block $head,"
shows blank.img "^or       a later round with head block $middle, .*that block is blank, and a head holds records"
shows blank.img "^lost     block $middle \(sealed\): 15 of its 15 records can't be read$"
cp s.img old.img && head -c 4096 /dev/zero | dd of=old.img bs=4096 seek=$oldest conv=notrunc status=none
shows old.img ' 13 sure, 0 not'

# ---- a copy that is lost while the spare still has what it was copied from
tool format copy.img 4 && { echo key,value; echo keep,me; for i in $(seq 1 44); do echo "other,$i"; done; } | tool import copy.img
for i in $(seq 45 75); do
  tool history copy.img keep | grep -q spare && break
  tool put copy.img other "$i"
done
copy=$(tool history copy.img keep | awk -F'\t' '$4 == "newest" { print $1 }')
harm copy.img $((256 * copy)) "$noise"
if tool get copy.img keep >/dev/null 2>&1; then complain "keep isn't lost"; fi
shows copy.img $'^key\tkeep\tme\tLOST or never there: only the spare has it'
shows copy.img '1 more that only the spare has$'

tool format empty.img 4 && shows empty.img '^lost     the chip is blank: an empty store, or all of it$'

# ---- at random: what is called sure is so; what isn't as it was is not called sure
cat >random.py <<'END2'
import random, subprocess, sys
tool, seed = sys.argv[1:-2], int(sys.argv[-1])
random.seed(seed)
whole = open("s.img", "rb").read()
truth = dict(line.rstrip("\n").split("\t") for line in open("truth"))
last = 256 * int(sys.argv[-2])
bad = sure = unsure = 0
for turn in range(24):
    chip = bytearray(whole)
    block = random.randrange(8)
    at, size = random.choice([(4096 * block, 4096), (4096 * block + 256 * random.randrange(16), 256), (4096 * block + 15 * 256, 256)])
    chip[at:at + size] = random.choice([b"\0" * size, b"\xff" * size, random.randbytes(size)])
    if chip[at:at + size] == b"\xff" * size and at == last:
        continue  # the last record, blank: as if it had never been written, and nobody can tell
    open("random.img", "wb").write(chip)
    said = subprocess.run(tool + ["salvage", "random.img"], capture_output=True, text=True)
    bad += said.returncode != 0
    for line in said.stdout.splitlines():
        if not line.startswith("key\tk") or line == "key\tkey\tvalue\thow sure":
            continue
        _, key, value, how = line.split("\t")
        was = truth.get(key, "(deleted)")
        sure, unsure = sure + (how == "sure"), unsure + (how != "sure")
        if how == "sure" and value != was:
            print(f"seed {seed}, turn {turn}: {key} is called sure with {value}, and was {was}")
            bad += 1
print(f"{sure} keys called sure, {unsure} not")
sys.exit(bad or sure < 100 or unsure < 20)
END2
python3 random.py "$top/tools/run.sh" "$top/target/c/floatstore" "$last" 3 || complain "at random"
echo "salvage: $wrong wrong"
[ "$wrong" = 0 ]
