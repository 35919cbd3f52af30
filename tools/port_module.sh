#!/bin/sh
# port_module.sh: target/port/floatstore.ll, the text of the LLVM module that Rattle lowers the proved library to. Does nothing where it stands already, for
# these sources and this kit. How: rt takes its kit from the folder that it lies in. Here that is a folder of links to the real kit, with copies of rt's own
# files, in which only clang is another: a script that keeps what it is given and then calls the real one. The archive that comes out must be
# target/staticlib/libfloatstore.a, byte for byte: so what is kept is what that archive is compiled from.
cd "$(dirname "$(readlink -f "$0")")/.." || exit 1
die() { echo "port: $*" >&2; exit 1; }
command -v rt >/dev/null 2>&1 || die "rt, the command of the Rattle kit, is not on this machine: without it there is no module to compile"
tools/library.sh || exit 1
library=target/staticlib/libfloatstore.a
module=target/port/floatstore.ll
[ -f $module ] && cmp -s $library.stamp $module.stamp && exit 0

. tools/kit.inc
mkdir -p target/port && room=$(mktemp -d "$PWD/target/port/module.XXXXXX") || exit 1
trap 'rm -rf "$room"' EXIT
trap 'exit 130' INT TERM HUP

# links FROM TO BUT..: a folder TO of links to what is in FROM, but for those
links() {
  from=$1 to=$2
  shift 2
  mkdir -p "$to" && for f in "$from"/*; do case " $* " in *" ${f##*/} "*) ;; *) ln -s "$f" "$to/" || exit 1 ;; esac; done
}
links "$kit" "$room/kit" bin toolchain && links "$kit/bin" "$room/kit/bin" rt rtlib.py && cp "$kit/bin/rt" "$kit/bin/rtlib.py" "$room/kit/bin" &&
  links "$toolchain" "$room/kit/toolchain" bin && links "$toolchain/bin" "$room/kit/toolchain/bin" clang || exit 1
other=$room/kit/toolchain/bin/clang
cat >"$other" <<END
#!/bin/sh
for word in "\$@"; do case \$word in *.bc) cp "\$word" "$room/floatstore.bc" ;; esac; done
exec "$toolchain/bin/clang" "\$@"
END
chmod +x "$other" || exit 1
# the words are those of tools/library.sh
(cd crates/floatstore && "$room/kit/bin/rt" lib --cpu x86-64) >"$room/said" 2>&1 || { cat "$room/said" >&2; die "rt lib failed"; }
[ -s "$room/floatstore.bc" ] || die "no module was kept: this kit calls its clang in another way"
cmp -s crates/floatstore/out/libfloatstore.a $library || die "the library that was made with the module is not $library"
(cd "$room" && "$toolchain/bin/clang" --target=x86_64-unknown-linux-gnu -x ir -O0 -Xclang -disable-llvm-passes -S -emit-llvm floatstore.bc -o floatstore.ll) ||
  die "the module can't be written as text"
rm -f $module.stamp && mv "$room/floatstore.ll" $module && cp $library.stamp $module.stamp
