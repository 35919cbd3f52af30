#!/bin/sh
# The C interface: its calls from C on both sides of each limit; the short calls of floatstore_fs.h; the page of firmware, which must write what is stored
# beside it. The library asks C for memcpy and memset and for nothing else. The headers compile without a warning as C99 and later and as C++, each alone; and
# what FS_INIT must not take does not compile.
cd "$(dirname "$0")/.." || exit 1
tools/cc.sh target/c/calls tests/calls.c && tools/run.sh target/c/calls || exit 1
tools/cc.sh target/c/fs tests/fs.c && tools/run.sh target/c/fs || exit 1
tools/cc.sh target/c/firmware examples/firmware.c && tools/run.sh target/c/firmware | diff - examples/firmware.stdout || exit 1

tools/need.sh nm binutils || exit 1
asked=$(nm -u target/staticlib/libfloatstore.a | sed -n 's/^ *U //p' | sort -u | tr '\n' ' ')
[ "$asked" = 'memcpy memset ' ] || { echo "the library asks C for $asked(docs/C.md: for memcpy and memset)"; exit 1; }

tools/need.sh gcc gcc libc6-dev && tools/need.sh g++ g++ || exit 1
strict='-fsyntax-only -Wall -Wextra -pedantic -Werror -Iinclude'
n=0
for header in include/*.h; do
  for std in c99 c11 c17; do echo "#include \"$header\"" | gcc -std=$std $strict -I. -x c - || exit 1; n=$((n + 1)); done
  for std in c++11 c++17; do echo "#include \"$header\"" | g++ -std=$std $strict -I. -x c++ - || exit 1; n=$((n + 1)); done
done
for std in c99 c11; do gcc -std=$std $strict tests/fs.c examples/firmware.c || exit 1; done
for std in c++11 c++17; do g++ -std=$std $strict -x c++ tests/fs.c || exit 1; done
wrong=0
for i in $(sed -n 's/^#.*if WRONG == \([0-9]*\).*/\1/p' tests/fs.c); do
  for cc in 'gcc -std=c99' 'g++ -std=c++11 -x c++'; do
    said=$($cc -fsyntax-only -Iinclude -DWRONG="$i" tests/fs.c 2>&1) && { echo "FS_INIT took what is wrong: case $i, $cc"; exit 1; }
    echo "$said" | grep -Eq 'negative|narrowing' || { echo "case $i, $cc is refused for another reason: $said"; exit 1; }
    wrong=$((wrong + 1))
  done
done
[ $wrong -gt 0 ] && echo "headers: compiled $n times, as C and as C++, without a warning; $wrong wrong initialisers refused"
