#!/usr/bin/env bash
# Nothing is lost by the tool: a picture over an image, an image that may not be written, owner, mode and links, forty puts at once, format of what isn't blank,
# a disk that is full, a change that this machine didn't survive, and what is said of a chip that start refuses.
. "$(dirname "$0")/tool.inc"
# kept STATUS PART WORDS..: the command ends so, says that, and no file here is another afterwards
kept() {
  local status=$1 want=$2 before
  shift 2
  before=$(find . -type f ! -name out | sort | xargs sha256sum; ls -A)
  tool "$@" >out 2>&1
  [ $? = "$status" ] || complain "floatstore $*: the status isn't $status: $(cat out)"
  grep -qF -- "$want" out || complain "floatstore $*: said '$(cat out)', without '$want'"
  [ "$before" = "$(find . -type f ! -name out | sort | xargs sha256sum; ls -A)" ] || complain "floatstore $*: changed a file"
}
: >out
# flip IMAGE PAGE BYTE BIT
flip() {
  python3 - "$@" <<'END2'
import sys
at = 256 * int(sys.argv[2]) + int(sys.argv[3])
with open(sys.argv[1], "r+b") as image:
    image.seek(at)
    byte = image.read(1)[0]
    image.seek(at)
    image.write(bytes([byte ^ 1 << int(sys.argv[4])]))
END2
}

# ---- a picture over an image
tool format s.img 8 && tool put s.img key value || complain "no image"
ln s.img hard && ln -s s.img soft && cp s.img another.img && echo letter >letter.txt
for name in s.img hard soft "$PWD/s.img"; do kept 1 'that is the image' map s.img --svg "$name"; done
kept 1 'no picture' map s.img --svg another.img
kept 1 'no picture' map s.img --svg letter.txt
: >empty && tool map s.img --svg empty && tool map s.img --svg empty || complain "a picture isn't replaced by a picture"
[ "$(tool map s.img --svg - | head -c 4)" = '<svg' ] || complain "map --svg - writes no picture"

# ---- owner, mode and links stay; what may not be written isn't
chmod 0640 s.img
[ "$(id -u)" = 0 ] && chown 12345:23456 s.img
before=$(stat -c '%i %u %g %a %h' s.img)
tool put s.img key new && tool put soft key newer && tool put hard other value || complain "puts by three names"
[ "$before" = "$(stat -c '%i %u %g %a %h' s.img)" ] || complain "a put changed $before to $(stat -c '%i %u %g %a %h' s.img)"
[ "$(tool get hard key)" = newer ] && [ "$(tool count soft)" = 2 ] || complain "three names, two maps"
chmod 0444 s.img
for c in 'put s.img key x' 'delete s.img key' 'format s.img --force' 'import s.img letter.txt'; do kept 1 'Permission denied' $c; done
[ "$(tool get s.img key)" = newer ] || complain "an image that may not be written can't be read"
chmod 0640 s.img && rm hard soft

# ---- format
kept 1 'it has 2 keys, which format would remove; --force' format s.img
kept 1 'it has 2 keys' format s.img 8
head -c 32768 /dev/zero >zero.img && kept 1 "it isn't blank" format zero.img
tool format zero.img --force && [ "$(tool count zero.img)" = 0 ] || complain "format --force"
tool format zero.img || complain "a blank image can't be formatted"

# ---- forty at once
tool format many.img 8
for i in $(seq 1 40); do tool put many.img "k$i" "$i" & done
wait
[ "$(tool count many.img)" = 40 ] || complain "of forty puts at once $(tool count many.img) were kept"
for i in 1 17 40; do [ "$(tool get many.img k$i)" = $i ] || complain "the value of k$i"; done
for i in $(seq 1 40); do tool delete many.img "k$i" & done
wait
[ "$(tool count many.img)" = 0 ] || complain "of forty deletes at once $(tool count many.img) are left"

# ---- a full disk, and a change that was interrupted
(wrong=0; ulimit -f 8; kept 1 'File too large' put many.img key value; [ $wrong = 0 ]) || complain "a file that may not grow"
[ -z "$(ls -A | grep rescue)" ] || complain "a half-written file was left: $(ls -A)"
cp s.img s.img.rescue && tool put s.img.rescue key rescued
kept 1 's.img.rescue is the image after it' put s.img key x
kept 1 's.img.rescue is the image after it' format s.img --force
[ "$(tool get s.img key 2>/dev/null)" = newer ] || complain "an image whose change was interrupted can't be read"
cp s.img.rescue s.img && rm s.img.rescue && [ "$(tool get s.img key)" = rescued ] || complain "the rescued image"
echo 'half' >s.img.rescue.part && tool put s.img key last && [ ! -e s.img.rescue.part ] || complain "half a rescue file stands in the way"

# Killed at any moment: the image is whole, or the file beside it is.
cat >kill.py <<'END2'
import os, random, subprocess, sys, time
tool = sys.argv[1:]
random.seed(1)
for i in range(60):
    p = subprocess.Popen(tool + ["put", "killed.img", f"k{i % 20}", str(i)], stderr=subprocess.DEVNULL)
    time.sleep(random.random() * 0.005)
    p.kill()
    p.wait()
    if os.path.exists("killed.img.rescue"):
        os.replace("killed.img.rescue", "killed.img")
    said = subprocess.run(tool + ["check", "killed.img"], capture_output=True, text=True)
    if said.returncode != 0 or "agree on all 20 keys" not in said.stdout:
        sys.exit(f"after kill {i}: {said.stdout}{said.stderr}")
END2
tool format killed.img 64 && { echo key,value; for i in $(seq 0 19); do echo "k$i,first"; done; } | tool import killed.img
python3 kill.py "$top/tools/run.sh" "$top/target/c/floatstore" || complain "a kill lost the image"

# ---- what start refuses: the rule, the block, and never format
tool format ring.img 8
for i in $(seq 1 200); do echo "\"k$((i % 11))\",\"$i\""; done | sed '1i key,value' | tool import ring.img || complain "200 puts"
head=$(tool check ring.img | sed -n 's/^ring     head: block \([0-9]*\),.*/\1/p')
tail=$(((head + 4) % 8))
cp ring.img all.img && flip all.img $((16 * head + 15)) 200 3
kept 3 'all 8 blocks are sealed, and one must be the head; what can still be read: floatstore salvage all.img' get all.img k1
cp ring.img gap.img && head -c 4096 /dev/zero | tr '\0' '\377' | dd of=gap.img bs=4096 seek=$tail conv=notrunc status=none
kept 3 "isn't sealed" count gap.img
kept 3 'floatstore salvage gap.img' list gap.img
tool format first.img 8 && tool put first.img a b && flip first.img $((16 * 5 + 2)) 0 0
kept 3 'the head would be block 0, but for a later round block 2 and 5 more aren'"'"'t sealed, for the first block 5 isn'"'"'t blank' put first.img a c
python3 - full.img <<'END2' || complain "no full image"
import sys
chip = bytearray(b"\xff" * 4096 * 4)
for i in range(18):
    key = b"key%02d" % i
    page = (bytes([1, 1, len(key), 1]) + bytes(12) + key.ljust(16, b"\0") + b"v").ljust(128, b"\0")
    at = 256 * (i // 15 * 16 + i % 15)
    chip[at:at + 256] = page + bytes(255 - x for x in page)
seal = bytes([1, 3]).ljust(128, b"\0")
chip[256 * 15:256 * 16] = seal + bytes(255 - x for x in seal)
open(sys.argv[1], "wb").write(chip)
END2
kept 3 'it has 18 keys, and there is room for 16; the newest are too many: key16 key17' count full.img
grep -rq 'format makes' "$top"/tools/floatstore*.c && complain "format is offered as the way out"
echo "nothing lost: $wrong wrong"
[ "$wrong" = 0 ]
