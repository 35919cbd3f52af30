#!/bin/sh
# A release: VERSION, the header and the changelog agree; the archive is the same bytes when it is made again by another hand; unpacked elsewhere its sums are
# right, the page of firmware links against it by pkg-config and by CMake, and the tool in it reads an image. And what isn't so is found.
cd "$(dirname "$0")/.." || exit 1
room=$(mktemp -d) || exit 1
trap 'rm -rf "$room"' EXIT
trap 'exit 130' INT TERM HUP
die() { echo "$*"; exit 1; }
top=$PWD

# agree DIR: what is wrong with the numbers of the version there
agree() {
  version=$(cat "$1/VERSION")
  echo "$version" | grep -Eqx '[0-9]+\.[0-9]+\.[0-9]+' || echo "VERSION is not three numbers"
  grep -qx "#define FLOATSTORE_VERSION \"$version\"" "$1/include/floatstore.h" || echo "FLOATSTORE_VERSION is not $version"
  numbers=$(for part in MAJOR MINOR PATCH; do sed -n "s/^#define FLOATSTORE_VERSION_$part \([0-9]*\)$/\1/p" "$1/include/floatstore.h"; done | tr '\n' .)
  [ "$numbers" = "$version." ] || echo "the three numbers of the header are $numbers"
  grep -q "^## $version" "$1/CHANGELOG.md" || echo "CHANGELOG.md has no heading for $version"
}
lost=$(agree .)
[ -z "$lost" ] || die "$lost"
n=0
for edit in 's/^#define FLOATSTORE_VERSION ".*/#define FLOATSTORE_VERSION "0.0.1"/' 's/^\(#define FLOATSTORE_VERSION_MINOR\) .*/\1 77/' \
  's/^## [0-9].*/## 0.0.1/' 's/^[0-9][0-9.]*$/0.0.1/'; do
  rm -rf "$room/copy" && mkdir "$room/copy" && cp -r VERSION include CHANGELOG.md "$room/copy" || exit 1
  sed -i "$edit" "$room/copy/VERSION" "$room/copy/CHANGELOG.md" "$room/copy/include/floatstore.h"
  [ -n "$(agree "$room/copy")" ] || die "not found: $edit"
  n=$((n + 1))
done

# twice, by different hands: here, and in a copy elsewhere, behind a link, where the tool is compiled anew
archive=$(tools/release "$room/one") || exit 1
mkdir -p "$room/other/target" && cp -r target/staticlib "$room/other/target" || exit 1
. tests/crates.inc
copy_crates "$room/other" || exit 1
for part in ./*.md VERSION docs examples include tools man; do [ ! -e "$part" ] || cp -r "$part" "$room/other" || exit 1; done
ln -s "$room/other" "$room/link"
when=$(tar --full-time -tvzf "$archive" | sed -n '1s/.* \([0-9-]* [0-9:]*\) [^ ]*$/\1/p')
again=$(cd "$room" && umask 077 && SOURCE_DATE_EPOCH=$(date -d "$when" +%s) TZ=Asia/Tokyo LC_ALL=C.UTF-8 link/tools/release "$room/two") || exit 1
cmp "$archive" "$again" || die "two runs gave different bytes"
(cd "$room/one" && sha256sum -c --quiet SHA256SUMS) || die "the sum beside the archive is wrong"

# elsewhere
mkdir "$room/else" && tar -C "$room/else" -xzf "$archive" || exit 1
home=$room/else/$(basename "$archive" .tar.gz)
(cd "$home" && sha256sum -c --quiet SHA256SUMS) || die "a sum in the archive is wrong"
[ "$(cd "$home" && find . -type f | wc -l)" = "$(($(wc -l <"$home/SHA256SUMS") + 1))" ] || die "a file has no sum"
printf x >>"$home/lib/libfloatstore.a"
if (cd "$home" && sha256sum -c --quiet SHA256SUMS) >/dev/null 2>&1; then die "a changed library is not found"; fi
tar -C "$room/else" -xzf "$archive" || exit 1
for page in man/*.1; do [ ! -f "$page" ] || cmp "$page" "$home/share/man/man1/$(basename "$page")" || die "the archive lacks $page"; done
if grep -rlF "$PWD" "$home" | grep -q .; then die "the archive names the folder that it was made in"; fi

tools/need.sh pkg-config pkg-config || exit 1
if [ "$(uname -m)" = x86_64 ]; then cc=gcc whole=; else cc=x86_64-linux-gnu-gcc whole=-static; fi
export PKG_CONFIG_PATH="$home/lib/pkgconfig"
[ "$(pkg-config --modversion floatstore)" = "$(cat VERSION)" ] || die "pkg-config says $(pkg-config --modversion floatstore)"
cp "$home/share/doc/floatstore/examples/firmware.c" "$room/" && cd "$room" || exit 1
# shellcheck disable=SC2046
$cc $whole -o firmware firmware.c $(pkg-config --cflags --libs floatstore) || die "the firmware doesn't link by pkg-config"
"$top/tools/run.sh" "$room/firmware" | diff - "$top/examples/firmware.stdout" || die "the firmware linked by pkg-config writes something else"
tool() { "$top/tools/run.sh" "$home/bin/floatstore" "$@"; }
tool format a.img 4 && tool put a.img depth 1500 && [ "$(tool get a.img depth)" = 1500 ] || die "the tool of the archive"

by_cmake='no cmake here to try'
if command -v cmake >/dev/null 2>&1; then
  cat >CMakeLists.txt <<END
cmake_minimum_required(VERSION 3.13)
project(firmware C)
find_package(floatstore $(cat "$top/VERSION") EXACT REQUIRED)
find_package(floatstore $(sed 's/\.[0-9]*$//' "$top/VERSION") REQUIRED)
add_executable(by_cmake firmware.c)
target_link_libraries(by_cmake floatstore::floatstore $whole)
find_package(floatstore 77.0 QUIET)
if(floatstore_FOUND)
  message(FATAL_ERROR "a version that it isn't")
endif()
END
  { cmake -S . -B by -DCMAKE_C_COMPILER=$cc -DCMAKE_PREFIX_PATH="$home" && cmake --build by; } >said 2>&1 ||
    { cat said; die "the firmware doesn't link by CMake"; }
  "$top/tools/run.sh" "$room/by/by_cmake" | diff - "$top/examples/firmware.stdout" || die "the firmware linked by CMake writes something else"
  by_cmake='and by CMake'
fi
echo "version $(cat "$top/VERSION"), $n wrong ones found; the archive is the same twice, and what is in it links by pkg-config ($by_cmake) and runs"
