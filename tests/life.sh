#!/bin/sh
# A float's life on small and on larger chips and with several seeds: it must come to its end, within the bounds, with forty power failures and the map that
# its plain copy has. What can't be a life is refused in one line before anything is built; and ./life is at home behind a symbolic link, in a checkout that
# can't be written, and says while it builds how far it is. A copy of the scripts with an rt that only pretends shows the last three in seconds.
cd "$(dirname "$0")/.." || exit 1
room=$(mktemp -d) || exit 1
trap 'chmod -R u+w "$room"; rm -rf "$room"' EXIT
trap 'exit 130' INT TERM HUP
out=$room/out
die() { echo "$*"; exit 1; }

for words in '' '--blocks 4 --seed 2' '--blocks 5 --seed 3 --cuts' '--blocks 64'; do
  ./life $words >"$out" 2>/dev/null || die "life $words failed"
  grep -q '^power failures: 40,' "$out" && grep -q 'never anything else' "$out" || { cat "$out"; exit 1; }
  tail -n 1 "$out" | grep -q '^map: .* and there are no others$' || { cat "$out"; exit 1; }
  case $words in *--cuts*) [ "$(grep -c '^  day .* cut at operation ' "$out")" = 40 ] ;; *) grep -q -- '--cuts' "$out" ;; esac || die "life $words: its cuts"
  # the columns of the bounds: seen ends at column 39, bound at 50, in the head and in each row
  awk 'n-- > 0 { rows++; if (substr($0, 39, 1) == " " || substr($0, 40, 3) != "   " || substr($0, 50, 1) == " " || substr($0, 51, 1) !~ /^ ?$/) exit 1 }
       /^bounds,/ { n = 5 } END { if (rows != 5) exit 1 }' "$out" || die "life $words: the table of bounds is not aligned"
done
# what README shows of a life is what it says
sed -n '/^Among what `.\/life` says/,/^## /s/^    //p' README.md >"$room/shown"
./life >"$out" 2>/dev/null && [ "$(wc -l <"$room/shown")" -gt 5 ] || die "README shows nothing of a life"
while IFS= read -r line; do grep -qxF -- "$line" "$out" || die "README shows another life: $line"; done <"$room/shown"

./life --image "$room/life.img" >"$out" 2>/dev/null && [ "$(wc -c <"$room/life.img")" = 65536 ] || die "--image kept no chip"
./life --image "$room/life.img" --seed 2 >"$out" 2>/dev/null || die "--image doesn't take the image of an earlier life"

# ---- a copy in which no library stands, and rt only pretends: it says what rt says, makes a library of the real one's bytes, and notes that it was called
home=$room/home
. tests/crates.inc
mkdir -p "$home/target" "$room/bin" "$room/tmp" "$room/links" && copy_crates "$home" && cp -r life tools include "$home"/ || exit 1
ln -s "$home/life" "$room/links/life" || exit 1
real=$PWD/target/staticlib/libfloatstore.a
cat >"$room/bin/rt" <<END
#!/bin/sh
[ "\$1" = version ] && { echo pretended; exit 0; }
echo "\$1" >>"$room/called"
[ -z "\${SLOW-}" ] || sleep 3
# the chip was proved earlier, of which rt says nothing
for crate in page record; do
  echo "crate \$crate: modules loaded=200 checked=20"
  echo "logic=proved functions=20 sum=0"
done
echo "fn floatstore::hold: proved"
[ "\$1" != lib ] || { mkdir -p out && cp "$real" out/; }
END
chmod +x "$room/bin/rt"
pretend() { (cd "$room/tmp" && PATH=$room/bin:$PATH TMPDIR=$room/tmp "$@"); }

n=0
# refused PART WORDS..: not a life; one line, with that part, and nothing is built for it
refused() {
  part=$1
  shift
  if pretend "$home/life" "$@" >"$out" 2>&1; then die "life $* succeeded"; fi
  [ "$(wc -l <"$out")" = 1 ] && grep -qF -- "$part" "$out" || { echo "life $*: not one line with '$part'"; cat "$out"; exit 1; }
  [ ! -e "$room/called" ] || die "life $*: built before it was refused"
  n=$((n + 1))
}
refused '4 to 256' --blocks 3
refused '4 to 256' --blocks 257
refused '4 to 256' --blocks 18446744073709551632
refused '4 to 256' --blocks many
refused '4 to 256' --blocks -4
refused 'needs a word' --seed
refused 'a seed is a number' --seed ''
refused 'a seed is a number' --seed 1x
refused 'a seed is a number' --seed 1000000000000000000
refused 'a seed is a number' --seed 18446744073709551617
refused 'no option --frobnicate' --frobnicate
refused 'no option 16' 16
refused 'no such folder' --image "$room/none/life.img"
refused 'not a file' --image "$room"
refused 'no image of a chip' --image "$home/crates.txt"
refused 'no image of a chip' --cuts --image "$home/life" --blocks 4
pretend "$home/life" --help >"$out" 2>&1 && grep -q -- '--cuts  *lists' "$out" && [ ! -e "$room/called" ] || die "--help builds something, or doesn't help"

# interrupted while it proves: nothing is left behind but what stands in target/
pretend env SLOW=1 timeout -s INT 1 "$home/life" >"$out" 2>&1 && die "an interrupted life succeeded"
[ -e "$room/called" ] || die "it was interrupted too early for this test"
[ -z "$(ls -A "$room/tmp")" ] || die "left behind: $(ls -A "$room/tmp")"
rm -f "$room/called"

# through a link, from nothing: it says how far it is; then once more where nothing can be written, and rt is not called again
pretend "$room/links/life" --blocks 4 >"$out" 2>"$room/said" || { cat "$room/said"; die "behind a link there is no life"; }
all=$(($(sed -n 's/^floatstore [a-z]*: *//p' crates.txt | wc -w) + 1))
for line in "proving the library, $all crates;" "  crate 1 of $all: page proved ([0-9]* s); now: chip" "  crate 3 of $all: record proved ([0-9]* s); now: ring_log" \
  "  crate $all of $all: floatstore, the C interface"; do
  grep -q "$line" "$room/said" || { cat "$room/said"; die "not said while it was proved: $line"; }
done
cp "$out" "$room/first"
chmod -R a-w "$home"
as=
[ "$(id -u)" != 0 ] || as='setpriv --reuid=65534 --regid=65534 --clear-groups'
chmod 755 "$room" "$room/tmp"
pretend $as "$room/links/life" --blocks 4 >"$out" 2>"$room/said" || { cat "$room/said"; die "no life in a checkout that can't be written"; }
cmp -s "$out" "$room/first" && [ "$(grep -c '^lib$' "$room/called")" = 1 ] || die "the second life is another one, or was built anew"

# without a kit: the library that stands there will do as long as it is of these sources
printf '#!/bin/sh\nexit 127\n' >"$room/bin/rt"
pretend "$home/life" --blocks 4 >"$out" 2>"$room/said" && cmp -s "$out" "$room/first" || { cat "$room/said"; die "no life without the kit"; }
chmod -R u+w "$home" && echo '// another' >>"$home/crates/page/src/lib.rt"
if pretend "$home/life" >"$out" 2>&1; then die "a library of other sources was taken"; fi
grep -q 'is not on this machine' "$out" || { cat "$out"; die "it doesn't say that the kit is missing"; }
echo "five lives with forty power failures each, $n refused before anything was built, one behind a link that can't be written, one without the kit"
