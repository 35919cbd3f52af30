#!/bin/sh
# What tools/port must refuse is refused, by one line, and nothing is left; harmless sisters pass. What a fault in the part for a driver does, the programs of
# tests/port see. And a program that is compiled for one build doesn't link with the other's archive.
cd "$(dirname "$0")/.." || exit 1
top=$PWD
. tests/port/boards.inc
. tests/crates.inc
need_boards || exit 1
tools/port_module.sh || exit 1
room=$(mktemp -d) || exit 1
trap 'rm -rf "$room"' EXIT
trap 'exit 130' INT TERM HUP
die() { echo "$*"; exit 1; }

# a copy in which faults are planted; `fresh` makes it anew
copy=$room/copy
mkdir -p "$copy/target/port" && copy_crates "$copy" && cp -r VERSION tests "$copy" && cp -r target/staticlib "$copy/target" || exit 1
fresh() {
  rm -rf "$copy/tools" "$copy/include" && cp -r tools include "$copy" && cp target/port/floatstore.ll* "$copy/target/port/" || exit 1
}
# edit WHAT FILE SED: plants it
edit() {
  fresh
  cp "$copy/$2" "$room/before" && sed -E -i "$3" "$copy/$2" || exit 1
  if cmp -s "$room/before" "$copy/$2"; then die "$1: the edit changes nothing"; fi
}
n=0
refused() { # WHAT WANTED FILE SED: with this edit there is one line, which has WANTED in it, and nothing is left
  edit "$1" "$3" "$4"
  mkdir -p "$copy/target/port/cortex-m4"
  if (cd "$copy" && tools/port cortex-m4) >"$room/out" 2>"$room/said"; then die "$1: not refused"; fi
  [ "$(wc -l <"$room/said")" = 1 ] && grep -qF -- "$2" "$room/said" && [ ! -s "$room/out" ] || { cat "$room/said"; die "$1: refused, but not in a line with '$2'"; }
  [ "$(cd "$copy/target/port" && echo *)" = 'floatstore.ll floatstore.ll.stamp' ] || die "$1: refused, and something is left: $(ls "$copy/target/port")"
  n=$((n + 1))
}
passes() { # WHAT FILE SED: a harmless sister
  edit "$1" "$2" "$3"
  (cd "$copy" && tools/port cortex-m4) >/dev/null 2>"$room/said" || { cat "$room/said"; die "$1: refused"; }
  sisters=$((sisters + 1))
}
module=target/port/floatstore.ll
sisters=0
# in F LINES: a sed that puts lines at the beginning of the function F
in_function() { printf '/^define .*@"%s"\\(/,/^start:/s/^start:$/start:\\n%s/' "$1" "$2"; }
tested() { in_function lent::unready "$1"; } # the chip is its a0, of a1 bytes, and the work area its a2, of a3 words
# planted HEAD LINES: a sed that puts a function of the module's own at its end
planted() { printf 's/^attributes #0 = .*/define internal noundef %s #0 {\\nstart:\\n%s\\n}\\n&/' "$1" "$2"; }

fresh
(cd "$copy" && tools/port cortex-m4) >/dev/null || die "the module as it is was refused"

unknown="a form that isn't known"
refused 'a pointer becomes a number' "$unknown" $module "$(tested '  %x = ptrtoint ptr %a0 to i64')"
refused 'a number becomes a pointer' "$unknown" $module "$(tested '  %x = inttoptr i64 4096 to ptr')"
refused "a place whose size LLVM computes" "$unknown" $module "$(tested '  %x = alloca { ptr, i64 }, align 8')"
refused 'a distance in words' "$unknown" $module "$(tested '  %x = getelementptr i32, ptr %a2, i64 1')"
refused 'a pair that is stored' "$unknown" $module "$(tested '  store { ptr, i64 } %x, ptr %y, align 8')"
refused 'a pair of two pointers' "$unknown" $module "$(tested '  %x = load { ptr, ptr }, ptr %y, align 8')"
refused 'a slice taken as a pair of another alignment' "$unknown" $module \
  "$(tested '  %x = alloca [16 x i8], align 8\n  store ptr %a2, ptr %x, align 8\n  %y = load { ptr, i64 }, ptr %x, align 1')"
refused 'an enum taken as a pair of another alignment' "$unknown" $module \
  "$(tested '  %x = alloca [16 x i8], align 8\n  %y = load { i8, i64 }, ptr %x, align 1')"
passes 'a pair of two bytes' $module "$(tested '  %x = alloca [16 x i8], align 8\n  %y = load { i8, i8 }, ptr %x, align 1')"
refused 'a pointer that is compared' "$unknown" $module "$(tested '  %x = icmp eq ptr %a0, %a2')"
refused 'inline assembly' "$unknown" $module "$(tested '  call void asm sideeffect "nop", ""()')"
# how far the address of p is from that of q; whether it is fewer bytes than .., and what is copied where it isn't: TO, ptr FROM, i64 HOW MANY
near='  %p = alloca i64, align 8\n  %q = alloca i64, align 8\n  %x = ptrtoaddr ptr %p to i64\n  %y = ptrtoaddr ptr %q to i64\n  %z = sub i64 %x, %y\n'
below="$near"'  %w = icmp ult i64 %z, %a1\n'
copying() { printf '%s' "  br i1 %w, label %near, label %apart\\napart:\\n  call void @llvm.memmove.p0.p0.i64(ptr $1, i1 false)\\n  br label %near\\nnear:"; }
refused 'an address' "$unknown" $module "$(tested '  %x = ptrtoaddr ptr %a0 to i64')"
refused 'a distance that is compared with another sign' "$unknown" $module "$(tested "$near  %w = icmp slt i64 %z, %a1\\n$(copying '%p, ptr %q, i64 %a1')")"
refused 'a distance that is used again' "$unknown" $module "$(tested "$below$(copying '%p, ptr %q, i64 %a1')\\n  %v = add i64 %z, 1")"
refused 'a distance whose comparison is used again' "$unknown" $module "$(tested "$below$(copying '%p, ptr %q, i64 %a1')\\n  %v = zext i1 %w to i8")"
refused 'a distance that is compared where nothing is copied' "$unknown" $module "$(tested "$below  %v = add i64 %a1, 1")"
refused 'a distance that is compared with another number than is copied' "$unknown" $module "$(tested "$below$(copying '%p, ptr %q, i64 %a3')")"
refused 'a distance that is compared where the other way is copied' "$unknown" $module "$(tested "$below$(copying '%q, ptr %p, i64 %a1')")"
passes 'a distance that is compared with how many bytes are copied' $module "$(tested "$below$(copying '%p, ptr %q, i64 %a1')")"
refused 'global data' "$unknown" $module 's/^source_filename.*/&\n@g = global i64 0/'
refused 'a datum of one byte' "$unknown" $module 's/^source_filename.*/&\n@static.9 = private unnamed_addr constant [1 x i8] zeroinitializer, align 1/'
refused 'a foreign function' "$unknown" $module 's/^source_filename.*/&\ndeclare void @exit(i32)/'
refused 'a call of nothing' "a function that it doesn't have" $module "$(tested '  call void @exit(i32 1)')"
refused "a function of the compiler's that isn't known here" "$unknown" $module "$(tested '  %x = call i64 @llvm.ctlz.i64(i64 1, i1 false)')"
refused 'a count of bits that is wider than its number' "$unknown" $module "$(tested '  %x = call i64 @llvm.ctpop.i8(i8 1)')"
refused "another processor's attribute" "$unknown" $module 's/"target-cpu"="x86-64"/"target-cpu"="skylake"/'
refused 'a module that was not proved' "$unknown" $module 's/!"rattle logic=[0-9a-f]*"/!"rattle unproved"/'
refused 'null in the midst' "$unknown" $module "$(tested '  %x = icmp eq ptr %a0, null')"
count='/^define noundef i64 @floatstore_count/,/^}/'
refused 'something else for null' "$unknown" $module "${count}s/^  (%r3 = mul i64 %r2), 4096/  \1, 4095/"
refused "another pointer's null" "$unknown" $module "${count}s/^  %r1 = icmp eq ptr %a0, null/  %r1 = icmp eq ptr %a2, null/"
refused 'what is null is moved on too' "$unknown" $module "${count}s/^  (%r4 = getelementptr i8, ptr %a0, i64) %r3/  \1 %a1/"
mixed='part of a pointer in one line'
slice='  %x = alloca [16 x i8], align 8\n  store ptr %a2, ptr %x, align 8\n' # a place x with a pointer
refused "a slice's pointer read as a number" "$mixed" $module "$(tested "$slice  %y = load i64, ptr %x, align 8")"
refused "a slice's pointer read as a number by the function that it is handed to" "$mixed" $module "$(tested "$slice  %y = call i64 @planted(ptr %x)")
  $(planted 'i64 @planted(ptr noundef %a0)' '  %x = load i64, ptr %a0, align 8\n  ret i64 %x')"
refused "a slice's pointer copied, and read there as a number" "$mixed" $module \
  "$(tested "$slice  %z = alloca [16 x i8], align 8\n  call void @llvm.memmove.p0.p0.i64(ptr %z, ptr %x, i64 16, i1 false)\n  %y = load i64, ptr %z, align 8")"
refused 'a place with a pointer, of which any byte is read as a number' "$mixed" $module \
  "$(tested "$slice  %w = add i64 1, 2\n  %y = getelementptr i8, ptr %x, i64 %w\n  %z = load i8, ptr %y, align 1")"
refused 'a place with a pointer, of which any byte is handed on' "$mixed" $module \
  "$(tested "$slice  %w = add i64 1, 2\n  %y = getelementptr i8, ptr %x, i64 %w\n  %z = call i64 @planted(ptr %y)")
  $(planted 'i64 @planted(ptr noundef %a0)' '  %x = load i64, ptr %a0, align 8\n  ret i64 %x')"
refused 'a number taken as the pointer of a pair' "$mixed" $module \
  "$(tested '  %x = alloca [16 x i8], align 8\n  store i64 1, ptr %x, align 8\n  %y = load { ptr, i64 }, ptr %x, align 8')"
refused 'a pointer taken as the number of a pair' "$mixed" $module \
  "$(tested "$slice  %y = getelementptr i8, ptr %x, i64 8\n  store ptr %a2, ptr %y, align 8\n  %z = load { ptr, i64 }, ptr %x, align 8")"
refused 'a part of a pointer filled with zeros' "$mixed" $module "$(tested "$slice  call void @llvm.memset.p0.i64(ptr %x, i8 0, i64 4, i1 false)")"
fours='  %v = getelementptr i8, ptr %x, i64 4\n  call void @llvm.memset.p0.i64(ptr %v, i8 0, i64 8, i1 false)' # zeros from byte 4 of x to byte 11
refused 'zeros that begin within a pointer' "$mixed" $module "$(tested "$slice$fours")"
# behind FAR POINTER: a place x with the pointer so many bytes in
behind() { printf '%s' "  %x = alloca [32 x i8], align 8\\n  %y = getelementptr i8, ptr %x, i64 $1\\n  store ptr $2, ptr %y, align 4\\n"; }
refused 'zeros that end within a pointer' "$mixed" $module "$(tested "$(behind 8 %a2)$fours")"
passes 'zeros that end before a pointer' $module "$(tested "$(behind 16 %a2)$fours")"
refused 'a pointer filled with ones' "$mixed" $module "$(tested "$slice  call void @llvm.memset.p0.i64(ptr %x, i8 1, i64 8, i1 false)")"
refused 'a part of a pointer copied' 'a part of a pointer' $module \
  "$(tested "$slice  %z = alloca [16 x i8], align 8\n  call void @llvm.memmove.p0.p0.i64(ptr %z, ptr %x, i64 4, i1 false)")"
refused 'a part of a pointer copied to where one stands' 'a part of a pointer' $module \
  "$(tested "$slice  %z = alloca [16 x i8], align 8\n  store ptr %a2, ptr %z, align 8\n  call void @llvm.memmove.p0.p0.i64(ptr %z, ptr %x, i64 4, i1 false)")"
odd='a pointer where none begins'
refused 'a pointer that begins 4 bytes in' "$odd" $module "$(tested "$(behind 4 %a2)")"
passes 'a pointer that begins 8 bytes in' $module "$(tested "$(behind 8 %a2)")"
kept='  %y = alloca ptr, align 8\n  store ptr %x, ptr %y, align 8\n  %z = load ptr, ptr %y, align 8\n' # the address of the place x, kept in y and taken from there
refused 'the address of a place with a pointer, kept' "$mixed" $module "$(tested "$slice$kept  %w = load i64, ptr %z, align 8")"
refused 'the address of a place with a pointer, answered' "$mixed" $module "$(tested "$slice  %y = call ptr @planted(ptr %x)\n  %z = load i64, ptr %y, align 8")
  $(planted 'ptr @planted(ptr noundef %a0)' '  ret ptr %a0')"
passes 'the address of a place with a pointer, by which the pointer is taken' $module "$(tested "$slice$kept  %w = load ptr, ptr %z, align 8")"
refused 'the address of a place with a pointer, kept, by which zeros begin within it' "$mixed" $module \
  "$(tested "$slice$kept  %w = getelementptr i8, ptr %z, i64 4\n  call void @llvm.memset.p0.i64(ptr %w, i8 0, i64 8, i1 false)")"
refused 'the address of a place of the size of a pointer, kept, by which 8 bytes are filled' 'a place of the size of a pointer' $module \
  "$(tested "  %x = alloca ptr, align 8\n  store ptr %a2, ptr %x, align 8\n$kept  call void @llvm.memset.p0.i64(ptr %z, i8 0, i64 8, i1 false)")"
refused 'two places by one function, of which one has a number there' "$mixed" $module \
  "$(tested "$slice  %z = alloca i64, align 8\n  store i64 1, ptr %z, align 8\n  %v = call ptr @planted(ptr %x)\n  %w = call ptr @planted(ptr %z)")
  $(planted 'ptr @planted(ptr noundef %a0)' '  %x = load ptr, ptr %a0, align 8\n  ret ptr %x')"
refused 'a function that calls itself' 'calls itself' $module "$(tested '  call void @planted(ptr %a2)')
  $(planted 'void @planted(ptr noundef %a0)' '  call void @planted(ptr %a0)\n  ret void')"
refused 'a pointer stored in the work area' 'no place for one' $module "$(tested '  store ptr %a0, ptr %a2, align 8')"
refused 'a pointer stored in the work area by way of a place' 'no place for one' $module \
  "$(tested "$slice  %y = load ptr, ptr %x, align 8\n  store ptr %a0, ptr %y, align 8")"
refused 'a pointer read from the work area' 'no place for one' $module "$(tested '  %x = load { ptr, i64 }, ptr %a2, align 8')"
refused 'a pointer stored in the work area whose address it holds' 'no place for one' $module "$(tested "$slice  store ptr %x, ptr %a2, align 8")"
refused 'a pointer copied to what is lent' 'no place for one' $module \
  "$(tested "$slice  %y = getelementptr i8, ptr %a4, i64 8\n  call void @llvm.memmove.p0.p0.i64(ptr %y, ptr %x, i64 8, i1 false)")"
into='\n  %y = load ptr, ptr %x, align 8\n  store ptr %a2, ptr %y, align 8'
refused 'a pointer stored by a null pointer' 'no place for one' $module \
  "$(tested '  %x = alloca [8 x i8], align 8\n  call void @llvm.memset.p0.i64(ptr %x, i8 0, i64 8, i1 false)'"$into")"
refused 'a pointer stored at a datum of no byte' 'no place for one' $module \
  "$(tested '  %x = alloca [8 x i8], align 8\n  store ptr @static.9, ptr %x, align 8'"$into")
  s/^source_filename.*/&\\n@static.9 = private unnamed_addr constant [0 x i8] zeroinitializer, align 1/"
own='  %x = alloca [8 x i8], align 8\n  store ptr %a0, ptr %x, align 8\n' # a place x with the pointer that the function is handed
refused "a slice's pointer read as a number by a function that nothing calls" "$mixed" $module \
  "$(planted 'i64 @planted(ptr noundef %a0)' "$own  %y = load i64, ptr %x, align 8\n  ret i64 %y")"
refused 'a pointer read by a function that nothing calls, where it has no place' 'no place for one' $module \
  "$(planted 'ptr @planted(ptr noundef %a0)' '  %x = load ptr, ptr %a0, align 8\n  ret ptr %x')"
passes 'a function that nothing calls, with a place of its own' $module \
  "$(planted 'ptr @planted(ptr noundef %a0)' "$own  %y = load ptr, ptr %x, align 8\n  ret ptr %y")"
passes 'a place with a pointer and a number beside it' $module "$(tested "$slice  %z = getelementptr i8, ptr %x, i64 8\n  store i64 3, ptr %z, align 8")"
passes 'a pair loaded from a place that was filled with zeros, and handed on' $module \
  "$(tested "$slice  call void @llvm.memset.p0.i64(ptr %x, i8 0, i64 16, i1 false)\n  %y = call { ptr, i64 } @planted(ptr %x)\n  %z = extractvalue { ptr, i64 } %y, 1")
  $(planted '{ ptr, i64 } @planted(ptr noundef %a0)' '  %x = load { ptr, i64 }, ptr %a0, align 8\n  ret { ptr, i64 } %x')"

differs="don't have the same floatstore_"
refused 'a parameter more in the module' "$differs" $module 's/^(define noundef i64 @floatstore_count\(.*)\) #0/\1, i64 noundef %a5) #0/'
refused 'an exported function that no header has' "$differs" $module 's/@"floatstore::number"/@floatstore_number/;s/^define internal (.*@floatstore_number)/define \1/'
refused 'floatstore.h: a length of 32 bits' "$differs" include/floatstore.h '/^int64_t floatstore_count/s/size_t work_len/uint32_t work_len/'
refused 'floatstore.h: a function less' "$differs" include/floatstore.h '/^int64_t floatstore_version/d'
refused 'floatstore_driver.h: a function less' "$differs" include/floatstore_driver.h '/^int64_t floatstore_count/d'
refused 'floatstore_driver.h: the fuse is back' "$differs" include/floatstore_driver.h '/^int64_t floatstore_count/s/\)/, const uint64_t *fuse)/'
refused 'floatstore_driver.h: lengths before pointers' "$differs" include/floatstore_driver.h '/^int64_t floatstore_count/s/void \*chip, size_t chip_len/size_t chip_len, void *chip/'
refused 'floatstore_driver.h: another area' "doesn't compile: " include/floatstore_driver.h '/^int64_t floatstore_count/s/uint32_t \*work/uint8_t *work/'
refused 'floatstore_driver.h: another driver' "doesn't compile: " include/floatstore_driver.h '/^int floatstore_chip_erase/s/uint32_t block/const uint8_t *block/'
passes 'floatstore.h: a comment more' include/floatstore.h '/^int64_t floatstore_count/s/$/ \/\* cheap \*\//'

known='with the parameters that are known here'
looks='looks through the pointer'
refused 'read has another name' "$known" $module 's/@"chip::read"/@"chip::look"/'
refused 'write has another parameter' "$known" $module 's/^(define internal void @"chip::write"\(.*ptr noundef %a5)\)/\1, ptr noundef %a6)/'
refused 'erase answers something' "$known" $module 's/^define internal void @"chip::erase"/define internal noundef i64 @"chip::erase"/'
refused 'erase is exported' 'no i64' $module 's/^define internal void @"chip::erase"/define void @"chip::erase"/'
refused 'erase is never called' 'called 0 times' $module 's/call void @"chip::erase"\(.*/ret void/'
refused 'a byte of the chip is loaded' "$looks chip" $module "$(tested '  %x = load i8, ptr %a0, align 1')"
refused 'a byte of the chip is stored' "$looks chip" $module "$(tested '  store i8 0, ptr %a0, align 1')"
refused 'a pair is loaded from the chip' "$looks chip" $module "$(tested '  %x = load { i8, i64 }, ptr %a0, align 8')"
refused 'the chip is copied from' "$looks chip" $module \
  "$(tested '  %x = alloca i32, align 4\n  call void @llvm.memmove.p0.p0.i64(ptr %x, ptr %a0, i64 4, i1 false)')"
refused 'the chip is filled' "$looks chip" $module "$(tested '  call void @llvm.memset.p0.i64(ptr %a0, i8 0, i64 4, i1 false)')"
refused 'a place within the chip' "$looks chip" $module "$(tested '  %x = getelementptr i8, ptr %a0, i64 256')"
chips='  %x = alloca [16 x i8], align 8\n  store ptr %a0, ptr %x, align 8\n' # a place x with the chip
refused 'the chip by way of a place' "$looks chip" $module "$(tested "$chips  %y = load ptr, ptr %x, align 8\n  %z = load i8, ptr %y, align 1")"
copied='  %y = alloca [16 x i8], align 8\n  call void @llvm.memmove.p0.p0.i64(ptr %y, ptr %x, i64 16, i1 false)\n  %z = load ptr, ptr %y, align 8'
refused 'the chip by way of a copy of its slice' "$looks chip" $module "$(tested "$chips$copied"'\n  call void @"page::fill"(ptr %z, i64 254)')"
# a place x with the chip 8 bytes in, and a place b; f and t are 4 bytes in them
within="$(behind 8 %a0)"'  %b = alloca [32 x i8], align 8\n  %f = getelementptr i8, ptr %x, i64 4\n  %t = getelementptr i8, ptr %b, i64 4\n'
moved() { printf '%s' "  call void @llvm.memmove.p0.p0.i64(ptr $1, i1 false)\\n  %u = getelementptr i8, ptr %b, i64 $2\\n  %z = load ptr, ptr %u, align 4"; }
byte='\n  %w = load i8, ptr %z, align 1'
refused 'the chip by way of a copy that begins before it' "$odd" $module "$(tested "$within$(moved '%b, ptr %f, i64 16' 4)$byte")"
refused 'the chip by way of a copy from 4 bytes before it to 4 bytes in' "$odd" $module "$(tested "$within$(moved '%t, ptr %f, i64 12' 8)$byte")"
refused 'the chip 4 bytes in, by way of a copy' "$odd" $module \
  "$(tested "$(behind 4 %a0)  %b = alloca [32 x i8], align 8\n$(moved '%b, ptr %x, i64 16' 4)$byte")"
refused 'the chip by way of a copy that begins with it' "$looks chip" $module "$(tested "$within$(moved '%b, ptr %y, i64 16' 0)$byte")"
passes 'the chip copied from where it begins on' $module "$(tested "$within$(moved '%b, ptr %y, i64 16' 0)")"
refused 'the chip by way of an answer' "$looks chip" $module \
  "$(tested '  %y = call { ptr, i64 } @planted(ptr %a0)\n  %z = extractvalue { ptr, i64 } %y, 0\n  %w = load i8, ptr %z, align 1')
  $(planted '{ ptr, i64 } @planted(ptr noundef %a0)' "$chips  %y = load { ptr, i64 }, ptr %x, align 8\n  ret { ptr, i64 } %y")"
refused 'the chip is handed on as the work area' "$looks chip" $module 's/(call [^@]*@"lent::unready"\(ptr %\w+, i64 %\w+), ptr %\w+/\1, ptr %a0/'
refused 'the work area is read as a chip' "isn't always given the chip" $module "$(tested '  call void @"chip::read"(ptr %a2, i64 %a3, i64 0, ptr %a2, i64 %a3)')"
refused 'the chip is read into the chip' "isn't always given the chip" $module "$(tested '  call void @"chip::read"(ptr %a0, i64 %a1, i64 0, ptr %a0, i64 %a1)')"
refused 'the noise is looked at' "$looks noise" $module "$(in_function chip::Chip::erase '  %x = getelementptr i8, ptr %a0, i64 24\n  %y = load ptr, ptr %x, align 8\n  %z = load i8, ptr %y, align 1')"
refused 'erase is given something else for noise' "isn't always given the noise" $module \
  's/^  call void @"chip::erase"\((.*), ptr %\w+\)$/  %x = alloca i8, align 1\n  call void @"chip::erase"(\1, ptr %x)/'
refused 'the noise is the chip' "isn't always given the chip" $module \
  "$(in_function chip::Chip::new '  call void @"chip::erase"(ptr %a4, i64 %a2, i64 0, ptr %a3, ptr %a4)')"
refused 'the noise where the chip stands in what a call is lent' 'come to the same place' $module "$(in_function chip::Chip::new '  store ptr %a4, ptr %a0, align 8')"
passes 'the chip is handed on by way of a place, its length beside it' $module \
  "$(tested "$chips  %y = getelementptr i8, ptr %x, i64 8\n  store i64 %a1, ptr %y, align 8\n  %z = load { ptr, i64 }, ptr %x, align 8\n  %w = extractvalue { ptr, i64 } %z, 0")"
echo "refused: $n modules and headers, each by one line; $sisters harmless sisters pass"

# wrong words
fresh
n=0
line() { # WANTED COMMAND..: status 1 and one line
  wanted=$1
  shift
  if (cd "$copy" && "$@") >"$room/out" 2>"$room/said"; then die "$*: status 0"; fi
  [ "$(cat "$room/out" "$room/said" | wc -l)" = 1 ] && grep -qF -- "$wanted" "$room/said" || { cat "$room/said"; die "$*: not one line with '$wanted'"; }
  n=$((n + 1))
}
line 'one TARGET: cortex-m0' tools/port
line 'one TARGET: cortex-m0' tools/port cortex-m4 cortex-m33
line "no target 'avr'" tools/port avr
mkdir "$room/bin" && for c in sh dirname readlink pwd rm env; do ln -s "$(command -v $c)" "$room/bin/$c"; done
line 'python3 is not on this machine' env PATH="$room/bin" tools/port cortex-m4
ln -s "$(command -v python3)" "$room/bin/python3"
line 'rt, the command of the Rattle kit' env PATH="$room/bin" tools/port cortex-m4

# planted faults that the programs must see, on this machine or on the Cortex-M4
seen=0
sees() { # WHAT TARGET PROGRAM FILE SED
  edit "$1" "$4" "$5"
  (cd "$copy" && tools/port "$2") >/dev/null || die "$1: it doesn't compile"
  firmware "$2" "$copy/target/port/$2" "$3" "$room/program" -DDRIVER || die "$1: it doesn't link"
  if (cd "$room" && emulate "$2" "$room/program") >"$room/said" 2>&1; then die "$1: $3 sees nothing"; fi
  grep -Eq 'WRONG|a fault' "$room/said" || { cat "$room/said"; die "$1: $3 fails for another reason"; }
  seen=$((seen + 1))
}
driver=tools/port_driver.c
sees 'a failure is answered with 0' x86-64 history.c $driver 's/^(static void done.*)$/\1\n    answer = 0;/'
sees 'the fuse is not 0 after a failure, nor is the failure looked at' x86-64 history.c $driver 's/(answer == 0 \? \*fuse - 1 :) 0/\1 1/;s/^    if \(\*c->failed\) \*fuse = 0;/    (void)c;/'
sees 'a failed write is no failure' x86-64 history.c $driver 's/^    if \(answer != 0\) \*c->failed = 1;/    (void)c;/;s/(answer == 0 \? \*fuse - 1 :) 0/\1 \*fuse - 1/'
sees 'another page' x86-64 history.c $driver 's/\(uint32_t\)page/(uint32_t)page ^ 1/'
sees 'another block' x86-64 history.c $driver 's/\(uint32_t\)block/(uint32_t)block ^ 1/'
sees 'a failed read is no failure' x86-64 failing.c $driver '/floatstore_chip_read\(c/s/\*c->failed = 1;$/(void)c;/'
sees 'the chip is read after a failure' x86-64 failing.c $driver 's/if \(!\*c->failed && /if (/'
sees 'the chip is written after a failed read' x86-64 failing.c $driver 's/^    if \(\*c->failed\) \*fuse = 0;/    (void)c;/'
sees 'the area is not marked' x86-64 failing.c $driver 's/work\[0\] = 2;/(void)work;/'
sees "the module's own answer after a failure" x86-64 failing.c $driver 's/^    return -FLOATSTORE_POWER_GONE;/    return answer;/'
sees 'lengths on a page that are not cut' x86-64 wild.c $module '/^define .*@"record::(key_on|value_length)"/,/^}/s/(@"core::int::usize::min"\(i64 %r[0-9]+), i64 [^)]*\)/\1, i64 255)/'
sees 'lengths that are not widened' cortex-m4 history.c $driver 's/uint64_t (chip_len|work_len|key_len|value_len|buffer_len)/uint32_t \1/g'
echo "seen: $seen planted faults; $n wrong words answered by a line"

# one build's program and the other's archive
fresh
(cd "$copy" && tools/port x86-64) >/dev/null || exit 1
made=$copy/target/port/x86-64
firmware x86-64 "$made" history.c "$room/program" && firmware x86-64 "$made" history.c "$room/program" -DDRIVER || die 'the two builds'
mkdir "$room/crossed" && cp "$made"/*.h "$room/crossed" && cp "$made/libfloatstore.a" "$room/crossed/libfloatstore_driver.a" &&
  cp "$made/libfloatstore_driver.a" "$room/crossed/libfloatstore.a" || exit 1
for build in '' -DDRIVER; do
  # shellcheck disable=SC2086
  if firmware x86-64 "$room/crossed" history.c "$room/program" $build 2>"$room/said"; then die "a program of one build links with the other's archive"; fi
  grep -q 'undefined reference' "$room/said" || { cat "$room/said"; die 'it fails for another reason'; }
done
for pair in 'floatstore.h floatstore_driver.h' 'floatstore_driver.h floatstore_fs.h' 'floatstore_fs.h floatstore_driver.h'; do
  if printf '#include <%s>\n#include <%s>\n' $pair | gcc -fsyntax-only -Iinclude -x c - 2>"$room/said"; then die "both headers compile: $pair"; fi
  grep -q '#error' "$room/said" || { cat "$room/said"; die "$pair: another error"; }
done
printf '#include <floatstore_driver.h>\n#include <floatstore_text.h>\n' | gcc -fsyntax-only -Wall -Wextra -Werror -Iinclude -x c - || exit 1
echo "the two builds don't mix, neither their archives nor their headers"
