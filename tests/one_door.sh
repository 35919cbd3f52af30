#!/bin/sh
# One door (tests/one_door.py): the sources as they are pass, each of the planted programs is found at its line, and a harmless sister is not.
cd "$(dirname "$0")/.." || exit 1
. tests/crates.inc
copy=$(mktemp -d) || exit 1
trap 'rm -rf "$copy"' EXIT
copy_crates "$copy" && cp -r tests "$copy" || exit 1
mkdir -p "$copy/crates/planted/src"
planted=$copy/crates/planted/src/lib.rt

# what every form that is allowed looks like; the second line is where a fault goes
sister() {
  cat > "$planted" <<END
pub fn wrong(chip: &mut [u8], b: usize, fuse: &mut u64, noise: &[u8; 4096], work: &mut [u32]) -> usize {
    $1
}
use chip::look_at;
use chip::{Chip, Halt};
#[unsafe(no_mangle)]
fn spoil(x: &mut [u8]) {}
fn wear(c: &mut [u8], n: &mut u64) {}
fn look(chip: &[u8], fuse: &u64, noise: &[u8]) -> usize
    requires low { slice_index chip.now 0 ≡ fuse.now }
    requires { given {n = 0} (length noise.now) }
    ensures { result ≡ length chip.now }
{
    // chip[0] = 0;
    if *fuse == 0 {
        return chip.len();
    }
    if (*fuse == 0) | (work[0] == 2) {
        return 0;
    }
    let page = chip::page_at(chip, 0);
    work[page[2] as usize] = 1;
    chip::erase(chip, 0, fuse, noise,);
    look(chip, fuse, noise)
}
fn carry<'a>(chip: &'a mut Chip<'_>, p: usize) {
    chip.write(p, &[255u8; 256]);
    seek(chip.bytes(), p);
    carry(chip, p);
}
fn seek(chip: &[u8], p: usize) {}
fn call(chip: &mut [u8], fuse: &mut u64, noise: &[u8; 4096]) {
    if (*fuse == 0) || noise_of(1) {
        return;
    }
    carry(&mut Chip::new(chip, fuse, noise), chip.bytes().len());
}
END
  python3 "$copy/tests/one_door.py" | grep '^crates/planted/src/lib.rt:'
}

if sister ''; then
  echo "a harmless program was refused"
  exit 1
fi
n=0
while IFS= read -r fault; do
  n=$((n + 1))
  if ! sister "$fault" | grep -q 'lib.rt:2: '; then
    echo "not found: $fault"
    exit 1
  fi
done <<'END'
let x = chip[0];
let part = &chip[0..2];
work[chip[2] as usize] = 1;
if chip[0] == 255 { return 0; }
let f = *fuse; chip::erase(chip, b, fuse, noise); *fuse = f; chip::erase(chip, b, fuse, noise);
let x = chip[0]; let c = &mut *chip; c[0] = 0; c[0] = x;
if *fuse == 3 { return 0; }
if 3 - *fuse == 0 { return 0; }
if *fuse == 0 + 3 { return 0; }
if (3 - *fuse == 0) | true { return 0; }
let x = chip;
let chip = work;
chip[0] = 0;
chip[0] &= 1;
(chip[0]) = 1;
let x = &mut chip[0];
spoil(&mut chip[0..1]);
spoil(chip);
look(work, fuse, noise);
Found::At(chip);
memset(chip, 0);
other::look(chip, fuse, noise);
wear(work, fuse);
look(chip, &mut 5, noise);
*fuse = 5;
let x = *fuse;
if noise[0] == 1 { return 0; }
let x = noise.len();
struct Kept { chip: &mut [u8] }
fn lend(fuse: u64) {}
fn peek(chip: &[u8]) -> u8 ensures right { result ≡ first {n = 0} chip.now } { chip[0] }
unsafe { work[0] = 1; }
let x = work as *mut u32;
use chip as other;
let x = chip.bytes()[0];
let part = chip.bytes();
spoil(chip.bytes());
carry(&mut other, 0);
let mut other = Chip::new(chip, fuse, noise);
let mut chip = Chip::new(work, fuse, noise);
Chip::new(chip, &mut 5, noise);
carry(&mut Chip::new(work, fuse, noise), 0);
let other = &mut Chip::new(chip, fuse, noise);
if *fuse == 0 + 3 || true { return 0; }
let x = chip.bytes().first();
let chip = &mut chip;
let mut chip = Chip::new(chip, fuse, noise);
carry(&mut chip, 0);
let mut chip = Chip::new(chip, fuse, noise).erase(0);
(&mut Chip::new(chip, fuse, noise)).erase(0);
if *fuse == 0 || work[0] == 2 { return 0; }
fn once_more(c: &mut Chip<'_>) { let d = c; let _ = d.erase(0); }
fn once_more(c: &mut Chip, x: usize) { c.erase(x); c.erase(x); }
fn once_more(c: &mut Chip<'_>) {}
fn lend(chip: Chip<'_>) {}
fn lend(chip: &Chip<'_>) {}
struct Kept<'a> { c: &'a mut Chip<'a> }
type Other<'a> = Chip<'a>; let x = Other::bytes(c)[0];
let x = <Chip<'_>>::bytes(c)[0];
Chip::erase(chip, 0);
let _ = d.erase(0);
END
rm -r "$copy/crates/planted"
# the same in the crate chip: in a method of Chip, before what it does with the three; beside the methods; or at the end of the file
door=crates/chip/src/lib.rt
# lay PLACE FAULT: the fault laid there, in a line of its own; the number of that line
lay() {
  case $1 in
  erase | write) at="        $1(self.bytes, " ;;
  new) at='        Chip {' ;;
  bytes) at='        self.bytes' ;;
  beside) at='    // Erases block b.' ;;
  end) at= ;;
  esac
  awk -v at="$at" -v fault="$2" 'at != "" && index($0, at) == 1 { print fault } { print } END { if (at == "") print fault }' $door >"$copy/$door"
  grep -nxF "$2" "$copy/$door" | cut -d : -f 1
}
while read -r place fault; do
  n=$((n + 1))
  line=$(lay "$place" "$fault")
  if ! python3 "$copy/tests/one_door.py" | grep "^$door:$line: \|^crates/chip: the public " >/dev/null; then
    echo "not found in the crate chip: $place $fault"
    exit 1
  fi
done <<'END'
end pub fn peek(chip: &[u8]) -> u8 { chip[0] }
end fn peek(chip: &[u8], p: usize) -> &[u8] { &chip[p..p + 1] }
end pub fn clear_all(to: &mut [u8]) { clear(to); }
end fn put_back(fuse: &mut u64) { *fuse = 5; }
end fn first(c: &Chip<'_>) -> u8 { c.bytes[0] }
end pub fn again(c: &mut Chip<'_>) { erase(c.bytes, 0, c.fuse, c.noise); }
end impl Chip<'_> { pub fn first(&self) -> u8 { self.bytes[0] } }
new *fuse = 5;
new chip[0] = 0;
bytes let x = self.bytes[0];
erase let f = *self.fuse; erase(self.bytes, b, self.fuse, self.noise); *self.fuse = f;
erase if 1000000 < *self.fuse { erase(self.bytes, b, self.fuse, self.noise); return self.lit(); }
erase if *self.fuse == 3 { return self.lit(); }
erase if self.noise[0] == 1 { return self.lit(); }
erase let x = self.bytes[0]; self.bytes[0] = 0; self.bytes[0] = x;
erase let c = self; c.bytes()[0]; c.erase(b);
erase let c = self; c.bytes[0] = 0;
erase let Chip { bytes, .. } = self; bytes[0] = bytes[0];
erase let Self { bytes, .. } = self; bytes[0] = bytes[0];
erase spoil(self.bytes);
erase self.erase(b);
erase if self.bytes()[0] == 255 { return self.lit(); }
write if self.bytes[256 * p] != 255 || !blank_at(self.bytes(), p) { return Err(Halt::Dirty); }
write let f = *self.fuse; write(self.bytes, p, new, self.fuse, self.noise); *self.fuse = f; erase(self.bytes, p / 16, self.fuse, self.noise);
write erase(self.bytes, p / 16, self.fuse, self.noise);
beside fn spoil(&mut self) { let x = self.bytes[0]; self.bytes[0] = 0; self.bytes[0] = x; *self.fuse = *self.fuse; }
beside fn first(&self) -> u8 { self.bytes[0] }
beside fn part(&mut self) -> &mut [u8] { self.bytes }
beside fn twice(&mut self) { erase(self.bytes, 0, self.fuse, self.noise); erase(self.bytes, 0, self.fuse, self.noise); }
beside pub fn twice(&mut self) { let _ = self.lit(); }
end impl Chip<'_> { fn peek(chip: &[u8]) -> u8 { chip[0] } } pub fn first(chip: &[u8]) -> u8 { Chip::peek(chip) }
end impl Chip<'_> { fn left(fuse: &u64) -> u64 { *fuse } } pub fn fuse_left(fuse: &u64) -> u64 { Chip::left(fuse) }
end impl Chip<'_> { fn take(fuse: &mut u64) { *fuse = 5; } } fn put_back(fuse: &mut u64) { Chip::take(fuse); }
end impl Look for Halt { fn first(chip: &[u8]) -> u8 { chip[0] } }
end fn again(chip: &mut [u8], b: usize, fuse: &mut u64, noise: &[u8; 4096]) { erase(chip, b, fuse, noise); }
END
for kind in 'pub fn first_at(chip: &[u8], p: usize) -> u8 { let page = page_at(chip, p); page[0] }' \
  'impl Chip<'"'_"'> { fn first_at(&self, p: usize) -> u8 { if *self.fuse == 0 { return 0; } let page = page_at(self.bytes(), p); page[0] } }'; do
  lay end "$kind" >/dev/null
  python3 "$copy/tests/one_door.py" >/dev/null || { echo "a harmless function of the crate chip was refused: $kind"; exit 1; }
done
python3 tests/one_door.py || exit 1
echo "found each of $n planted programs, and passed their harmless sisters"
