#!/bin/sh
# library.sh: target/staticlib/libfloatstore.a, for the sources as they are. Proves what isn't proved yet (some minutes from nothing; it says crate by crate
# how far it is), and does and writes nothing where the library stands already. What the prover said is kept beside it, in libfloatstore.a.said.
cd "$(dirname "$(readlink -f "$0")")/.." || exit 1
under=$(sed -n 's/^floatstore [a-z]*: *//p' crates.txt)
library=target/staticlib/libfloatstore.a

# The stamp: a sum of the sources, then the kit. Without a kit the library will do if it was made of these sources, by whichever kit.
sources=$({
  uname -m
  for c in floatstore $under; do
    # out/ is what rt made, with copies of sources in it
    find "crates/$c" -path "crates/$c/out" -prune -o \( -name '*.rt' -o -name '*.antt' \) -print | LC_ALL=C sort | xargs sha256sum
  done
} | sha256sum | cut -d' ' -f1)
was=$(cat $library.stamp 2>/dev/null)
if kit=$(rt version 2>/dev/null); then
  [ -f "$library" ] && [ "$was" = "$sources $kit" ] && exit 0
else
  [ -f "$library" ] && [ "${was%% *}" = "$sources" ] && exit 0
  echo "rt, the command of the Rattle kit, is not on this machine: without it this library can't be proved, and so not be built (README, 'Without the kit')" >&2
  exit 1
fi
mkdir -p target/staticlib && [ -w target/staticlib ] || { echo "the library isn't built yet, and target/staticlib can't be written" >&2; exit 1; }

# rt proves one crate after the other, in the order of crates.txt, and says nothing of one that it proved earlier and that hasn't changed
all=$(echo $under floatstore | wc -w)
rm -f "$library" "$library.stamp"
echo "proving the library, $((all)) crates; from nothing this takes some minutes" >&2
name='' since=$(date +%s)
# --cpu: code for every x86-64; what rt makes without it asks for instructions of later ones
{ (cd crates/floatstore && rt lib --cpu x86-64) && cp crates/floatstore/out/libfloatstore.a "$library"; } 2>&1 | tee "$library.said" | while IFS= read -r line; do
  case $line in
    "crate "*": modules loaded="*) name=${line#crate } name=${name%%:*} ;;
    "logic=proved "*)
      [ "$name" != floatstore ] || continue
      n=$(echo $under | tr ' ' '\n' | grep -nx "$name" | cut -d: -f1)
      now=$(date +%s)
      echo "  crate $n of $((all)): $name proved ($((now - since)) s); now: $(echo $under floatstore | cut -d' ' -f$((n + 1)))" >&2
      since=$now ;;
    "fn floatstore::"*": proved") [ "$name" = floatstore ] || echo "  crate $((all)) of $((all)): floatstore, the C interface" >&2; name=floatstore ;;
  esac
done
[ -f "$library" ] || { cat "$library.said" >&2; exit 1; }
echo "$sources $kit" >"$library.stamp"
