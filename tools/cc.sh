#!/bin/sh
# cc.sh OUT FILES AND FLAGS..: compiles C against include/ and links the proved library. The library is code for x86-64: on any other machine a cross compiler
# is taken, and the program is linked whole (-static) for the emulator. Run it by run.sh. Where OUT was made of the same files, flags and library already,
# nothing is done and nothing written.
top=$(cd "$(dirname "$(readlink -f "$0")")/.." && pwd) || exit 1
out=$1
shift
"$top/tools/library.sh" || exit 1
library=$top/target/staticlib/libfloatstore.a

# what OUT is made of: the words (a file's content in the place of its name), the headers, the library
made=$({
  for word in "$@"; do if [ -f "$word" ]; then sha256sum <"$word"; else printf '%s\n' "${word#"$top/"}"; fi; done
  find "$top/include" "$top/tools" "$top/tests" -name '*.h' 2>/dev/null | LC_ALL=C sort | xargs cat
  cat "$library" "$top/tools/cc.sh"
} | sha256sum)
[ -x "$out" ] && [ "$(cat "$out.made" 2>/dev/null)" = "$made" ] && exit 0

if [ "$(uname -m)" = x86_64 ]; then
  cc=gcc whole=
  "$top/tools/need.sh" gcc gcc libc6-dev || exit 1
else
  cc=x86_64-linux-gnu-gcc whole=-static
  "$top/tools/need.sh" $cc gcc-x86-64-linux-gnu libc6-dev-amd64-cross || exit 1
fi
mkdir -p "$(dirname "$out")" || exit 1
rm -f "$out.made"
trap 'rm -f "$out.$$"' EXIT
trap 'exit 130' INT TERM HUP
$cc -std=c11 -O2 -Wall -Wextra -Werror -I"$top/include" $whole -o "$out.$$" "$@" "$library" && mv "$out.$$" "$out" && echo "$made" >"$out.made"
