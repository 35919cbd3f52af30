#!/usr/bin/env python3
"""port.py MODULE.ll INCLUDE BITS OUT: of the module that Rattle lowered for x86-64, two for any target of LLVM whose pointers have BITS bits (32 or 64):
OUT/floatstore.ll, the chip in memory, and OUT/floatstore_driver.ll, the chip behind a driver. INCLUDE has both headers.

1. Every line must be of a form that is listed here. Why these mean the same where a pointer has 32 bits: Rattle lays out its own data. A place on the stack is
a number of bytes with an alignment, a field is reached by a number of bytes, a slice in a place is 16 bytes, its pointer at 0 and its length, an i64, at 8. A
narrower pointer takes less of its 8 bytes, and whoever copies a place copies all of it, or fills it with zeros. So nothing changes as long as no number
becomes a pointer, and a pointer a number only to see whether it lies in the n bytes from another one on that are copied to it (APART), no type has a size that
LLVM takes from the target but ptr itself, and a place of that size holds a pointer and no more, no byte of a place is part of a pointer here and of a number
there, by whichever way a line comes to the place, pointers stand in such places only and not in what is lent, and whole, a multiple of 8 bytes from where the
place begins, and there is no global data, no inline assembly, and no call but of the module's own functions, memmove, memset, trap and ctpop, which counts the
bits of a number.
A number of bytes that is added to a pointer is an i64, of which 32 bits are taken: right for every object that lies in the memory.
A function hands over a slice, or an enum with what it has, as two words: two parameters, or a pair as its answer. Of a pair no size matters but where one is
loaded from a place, 8 bytes apart, or 1 where both are bytes; where BITS is 32 the first becomes two loads. A slice that is written out and has no byte
begins at a datum of no byte, of which nothing can be read. An exported function makes 4096 of a null pointer, for a slice without an element: null is null on
every target.

2. The headers must declare what the module exports. Then what names x86-64 goes, and where BITS is 32 each exported function gets one of its name before it
that takes its lengths as size_t, as the header says, and widens them.

3. For the driver chip::read, chip::write and chip::erase lose their bodies, which are in tools/port_driver.c, and the exported functions are called
floatstore_module_*. Refused, unless each of the three is there once, with the parameters known here, and is called and not mentioned otherwise; and unless the
pointers chip and noise of the exported functions come to the three, as their chip and noise, and no line of any other function looks through them: loads,
stores, copies, fills or counts on from there. Not checked here: what the three are asked for. That is in their contracts, which are proved."""
import collections
import os
import re
import sys

V = r"(?:%[\w.]+|-?\d+|true|false)"
P = r"%[\w.]+"
I = r"i(?:1|8|16|32|64)"
T = r"(?:i1|i8|i16|i32|i64|ptr)"
PAIR = r"\{ (?:i8, (?:i8|ptr)|(?:i8|i64|ptr), i64) \}"  # what two registers hold: a slice, or an enum's number and what it has; never a place's type
R = rf"(?:{T}|{PAIR})"
EMPTY = r"@static\.\d+"  # a slice's beginning where it has no byte
NAME = r"""@(?:"[\w:<>, &\[\]=+'{}#()*]+"|(?!llvm)[\w.]+)"""
INSIDE = [
    rf"{P} = alloca (?:i8|i16|i32|i64|ptr|\[\d+ x i8\]), align [1248]",
    rf"{P} = load (?:i8|i16|i32|i64|ptr), ptr {P}, align [1248](?:, !\w+ !\d+)*",
    rf"store (?:i8|i16|i32|i64|ptr) {V}, ptr {P}, align [1248]",
    rf"store ptr {EMPTY}, ptr {P}, align 8",
    rf"{P} = load (?:\{{ i8, i8 \}}, ptr {P}, align 1|(?!\{{ i8, i8 \}}){PAIR}, ptr {P}, align 8)",
    rf"{P} = extractvalue {PAIR} {P}, [01]",
    rf"{P} = getelementptr (?:inbounds nuw )?i8, ptr {P}, i64 {V}",
    rf"{P} = (?:add|sub|mul|shl)(?: nuw)?(?: nsw)? {I} {V}, {V}",
    rf"{P} = (?:udiv|urem|sdiv|srem|lshr|ashr|and|or|xor) {I} {V}, {V}",
    rf"{P} = icmp (?:eq|ne|[us][lg][te]) {I} {V}, {V}",
    rf"{P} = icmp eq ptr {P}, null",  # the first line of LENT, and nowhere else
    rf"{P} = ptrtoaddr ptr {P} to i64",  # the first two lines of APART, and nowhere else
    rf"{P} = (?:zext|sext|trunc)(?: nuw)?(?: nsw)? {I} {V} to {I}",
    rf"br label {P}",
    rf"br i1 {V}, label {P}, label {P}",
    rf"switch {I} {V}, label {P} \[",
    rf"{I} -?\d+, label {P}",
    r"\]",
    r"unreachable",
    rf"ret (?:void|{R} {V})",
    rf"(?:{P} = )?call (?:void|{R}) {NAME}\((?:{T} {V}(?:, {T} {V})*)?\)",
    rf"call void @llvm\.memmove\.p0\.p0\.i64\(ptr {P}, ptr {P}, i64 {V}, i1 false\)",
    rf"call void @llvm\.memset\.p0\.i64\(ptr {P}, i8 {V}, i64 {V}, i1 false\)",
    rf"{P} = call (?:i8 @llvm\.ctpop\.i8\(i8|i64 @llvm\.ctpop\.i64\(i64) {V}\)",
    r"call void @llvm\.trap\(\)(?: #\d+)?",
]
# a slice that is lent from outside: its pointer, or 4096 where that is null, since a slice without an element has an address too
LENT = [
    rf"({P}) = icmp eq ptr ({P}), null",
    rf"({P}) = zext i1 ({P}) to i64",
    rf"({P}) = mul i64 ({P}), 4096",
    rf"({P}) = getelementptr i8, ptr ({P}), i64 ({P})",
]
# whether a pointer lies in the n bytes from another one on, which else are copied to it: the same of addresses of 32 bits that are widened
APART = [
    rf"({P}) = ptrtoaddr ptr ({P}) to i64",
    rf"({P}) = ptrtoaddr ptr ({P}) to i64",
    rf"({P}) = sub i64 ({P}), ({P})",
    rf"({P}) = icmp ult i64 ({P}), ({P})",
    rf"br i1 ({P}), label {P}, label {P}",
    rf"call void @llvm\.memmove\.p0\.p0\.i64\(ptr ({P}), ptr ({P}), i64 ({P}), i1 false\)",
]
PARAMETER = rf"{T}(?: noundef)?(?: zeroext)? {P}"
DEFINE = rf"define (internal )?(?:noundef )?(?:zeroext )?(void|{R}) ({NAME})\(((?:{PARAMETER}(?:, {PARAMETER})*)?)\) #0 \{{"
OUTSIDE = [
    r"",
    r";.*",
    r'source_filename = "rattle"',
    r'target datalayout = "e-m:e-p270:32:32-p271:32:32-p272:64:64-i64:64-i128:128-f80:128-n8:16:32:64-S128"',
    r'target triple = "x86_64-unknown-linux-gnu"',
    rf"{EMPTY} = private unnamed_addr constant \[0 x i8\] zeroinitializer, align 1",
    DEFINE,
    r"\}",
    r"[\w.]+:(?:\s+; (?:preds = .*|No predecessors!))?",
    r"declare void @llvm\.(?:memmove|memset|trap)[\w.]*\(.*\) #[1-9]",
    r"declare (?:i8 @llvm\.ctpop\.i8\(i8|i64 @llvm\.ctpop\.i64\(i64)\) #[1-9]",
    r'attributes #0 = \{ nounwind "probe-stack"="inline-asm" "stack-probe-size"="3072" "target-cpu"="x86-64" \}',
    r"attributes #[1-9] = \{[\w (),:]*\}",
    r"!llvm\.ident = !\{!0\}",
    r'!\d+ = !\{(?:!"rattle logic=[0-9a-f]+"|i8 0, i8 2)?\}',  # a module that wasn't proved says "unproved"
]
inside = re.compile("|".join(f"(?:{f})" for f in INSIDE))
outside = re.compile("|".join(f"(?:{f})" for f in OUTSIDE))
SWAPPED = {'@"chip::read"': "ptr i64 i64 ptr i64", '@"chip::write"': "ptr i64 i64 ptr ptr ptr", '@"chip::erase"': "ptr i64 i64 ptr ptr"}
PLACES = {  # which of their parameters are the chip, and the noise
    "chip": [('@"chip::read"', 0), ('@"chip::write"', 0), ('@"chip::erase"', 0)],
    "noise": [('@"chip::write"', 5), ('@"chip::erase"', 4)],
}


def refuse(why):
    sys.exit(f"port: {why}")


class Function:
    """A function of the module: its name, whether it is exported, its parameters [(type, name)], its lines [(number, line)], and the numbers of those lines
    that make a pointer of one that is lent from outside (LENT)."""

    def __init__(self, m):
        self.internal, self.result, self.name = m[1] is not None, m[2], m[3]
        self.parameters = [(p.split()[0], p.split()[-1]) for p in m[4].split(", ") if p]
        self.lines, self.lent = [], set()

    def find_lent(self):
        for i, (number, line) in enumerate(self.lines):
            if " = icmp eq ptr " in line:
                m = [re.fullmatch(form, said) for form, (_, said) in zip(LENT, self.lines[i : i + 4])]
                known = len(m) == 4 and all(m) and not self.internal and ("ptr", m[0][2]) in self.parameters
                if not known or (m[1][2], m[2][2], m[3][2], m[3][3]) != (m[0][1], m[1][1], m[0][2], m[2][1]):
                    refuse(f"line {number} of the module has a form that isn't known here, with the three after it: {line}")
                self.lent.add(self.lines[i + 3][0])

    def find_apart(self):
        """Each address is taken by APART, and no other line has it, the difference or what the comparison says."""
        known = set()
        for i, (number, line) in enumerate(self.lines):
            if " = ptrtoaddr " in line and number not in known:
                m = [re.fullmatch(form, said) for form, (_, said) in zip(APART, self.lines[i : i + 6])]
                if len(m) == 6 and all(m) and (m[2][2], m[2][3], m[3][2], m[4][1], *m[5].groups()) == (*(m[k][1] for k in range(4)), m[0][2], m[1][2], m[3][3]):
                    words = [w for _, said in self.lines for w in re.findall(P, said)]
                    if all(words.count(m[k][1]) == 2 for k in range(4)):
                        known.add(self.lines[i + 1][0])
                        continue
                refuse(f"line {number} of the module has a form that isn't known here, with the five after it: {line}")


def read_module(text):
    """The functions, once every line of the module has a known form."""
    functions = []
    for number, line in enumerate(text, 1):
        stripped = re.sub(r"\s*;.*", "", line.strip())
        if not (inside.fullmatch(stripped) if line.startswith("  ") else outside.fullmatch(line)):
            refuse(f"line {number} of the module has a form that isn't known here: {line.strip()}")
        if m := re.fullmatch(DEFINE, line):
            functions.append(Function(m))
        elif line.startswith("  "):
            functions[-1].lines.append((number, stripped))
    names = {f.name for f in functions}
    for f in functions:
        for number, line in f.lines:
            if (m := re.search(rf"call (?:void|{R}) ({NAME})\(", line)) and m[1] not in names:
                refuse(f"line {number} of the module calls a function that it doesn't have: {line}")
        f.find_lent()
        f.find_apart()
    return functions


class Pointers:
    """Which pointers may lead into the same object, by one reading of the lines in any order: two do, if one is stored where the other is loaded, or handed to
    its place. A pointer is (function, name), or what stands in an object, and leads into it some way in: (object, how far), where how far may be None, not
    known. Of an object `inner` has, by how far in, the pointer that stands there; under None the only one, of an object in `blurred`: there not all distances
    are known. `same` and `blur` make no new pointers: so they end, where objects hold each other's addresses too."""

    def __init__(self):
        self.parent, self.inner, self.blurred = {}, {}, set()

    def find(self, a):
        """The object that a leads into, named by one pointer, and how far into it."""
        way = []
        while a in self.parent:
            way.append(a)
            a = self.parent[a][0]
        far = 0
        for b in reversed(way):
            more = self.parent[b][1]
            far = None if far is None or more is None else far + more
            self.parent[b] = a, far
        return a, None if a in self.blurred else far

    def object(self, a):
        return self.find(a)[0]

    def content(self, a, on=0, it=None):
        """What stands where a leads to, or `on` bytes from there; `it`, where nothing stood."""
        a, far = self.find(a)
        if far is None or on is None:
            self.blur(a)
            a, far = self.find(a)
        at = None if a in self.blurred else far + on
        return self.inner.setdefault(a, {}).setdefault(at, it or ("content of", a, at))

    def contents(self, a):
        """All that is known to stand in the object that a leads into."""
        return list(self.inner.get(self.object(a), {}).values())

    def blur(self, a):
        """Of the object a it isn't told apart any more what stands where."""
        if a not in self.blurred:
            self.blurred.add(a)
            known = list(self.inner.pop(a, {}).values())
            self.inner[a] = {None: b for b in known[:1]}
            for b in known[1:]:
                self.same(known[0], b)

    def same(self, a, b, on=0):
        """a leads to where b does, or `on` bytes from there."""
        (a, i), (b, j) = self.find(a), self.find(b)
        i, on = (None, None) if None in (i, j, on) else (i, j + on - i)
        if a == b:
            if on != 0:
                self.blur(a)
            return
        if on is None:
            self.blur(a)
            self.blur(b)
            a, b = self.object(a), self.object(b)
            if a == b:
                return
        held = self.inner.pop(a, {})
        self.parent[a] = b, on
        for far, c in held.items():
            self.same(c, self.content(b, None if far is None or on is None else far + on, c))


def read_lines(f):
    """What each line of a function does: (number, line, what, names and numbers)."""
    out = []
    for number, line in f.lines:
        does = lambda what, *of, number=number, line=line: out.append((number, line, what, of))
        if m := re.match(rf"({P}) = alloca (ptr)?", line):
            does("begins", m[1], m[2] is not None)
        elif m := re.match(rf"({P}) = getelementptr .*?ptr ({P}), i64 ({V})$", line):
            does("move", m[1], m[2], 0 if number in f.lent else int(m[3]) if m[3].isdigit() else None)
            if number not in f.lent:
                does("take", m[2], 0, 0, False)
        elif m := re.match(rf"({P}) = load (ptr|\{{ ptr, i64 \}}), ptr ({P}),", line):
            does("is there", m[1], m[3], 0)
            does("take", m[3], 0, 8, True)
            if m[2] != "ptr":
                does("take", m[3], 8, 8, False)
        elif m := re.match(rf"({P}) = load \{{ i8, ptr \}}, ptr ({P}),", line):
            does("is there", m[1], m[2], 8)
            does("take", m[2], 0, 1, False)
            does("take", m[2], 8, 8, True)
        elif m := re.match(rf"{P} = load \{{ i(8|64), i(8|64) \}}, ptr ({P}),", line):
            does("take", m[3], 0, int(m[1]) // 8, False)
            does("take", m[3], int(m[2]) // 8, int(m[2]) // 8, False)
        elif m := re.match(rf"({P}) = extractvalue (?:\{{ ptr, i64 \}} ({P}), 0|\{{ i8, ptr \}} ({P}), 1)", line):
            does("move", m[1], m[2] or m[3], 0)
        elif m := re.match(rf"store ptr ({P}|{EMPTY}), ptr ({P}),", line):
            does("is there", m[1], m[2], 0)
            does("take", m[2], 0, 8, True)
        elif m := re.match(rf"(?:{P} = load|store) i(\d+)(?: {V})?, ptr ({P})", line):
            does("take", m[2], 0, int(m[1]) // 8, False)
        elif m := re.match(rf"call void @llvm\.memmove\S*\(ptr ({P}), ptr ({P}), i64 ({V}),", line):
            does("copy", m[1], m[2], int(m[3]) if m[3].isdigit() else None)
        elif m := re.match(rf"call void @llvm\.memset\S*\(ptr ({P}), i8 ({V}), i64 ({V}),", line):
            n = int(m[3]) if m[3].isdigit() else None
            # 8 bytes 0, or those that a narrower pointer takes of them, are a null pointer, and a number too
            does("take", m[1], 0, n, None if m[2] == "0" and n is not None and n % 8 == 0 else False)
        elif m := re.match(rf"(?:({P}) = )?call (?:void|({R})) ({NAME})\((.*)\)$", line):
            answer = m[1] if m[2] in ("ptr", "{ ptr, i64 }", "{ i8, ptr }") else None
            does("call", m[3], [word.split()[-1] for word in m[4].split(", ") if word], answer)
        elif m := re.match(rf"ret (?:ptr|\{{ ptr, i64 \}}|\{{ i8, ptr \}}) ({P})", line):
            does("move", "its answer", m[1], 0)
    return out


class Followed:
    """Which pointers lead into the same object, call by call from the exported functions and those that nothing calls on, each function anew at each call. A
    pointer is (call, name). `places` are the beginnings of places on the stack, and whether each has the size of a pointer; `lent` leads to what is none.
    `taken` is what the lines take of the objects and put there: a pointer, how far from it, how many bytes (None where that isn't known), whether they are a
    pointer (None: zeros, for pointers too), and the line; `copied` what they copy: to, from, how many bytes, the line; `calls` of each function its calls."""

    def __init__(self, functions, without=()):
        self.by_name, self.without = {f.name: f for f in functions}, without
        self.does = {f.name: read_lines(f) for f in functions}
        self.pointers, self.taken, self.copied, self.calls = Pointers(), [], [], collections.defaultdict(list)
        self.places, self.lent = [], []
        called = {of[0] for does in self.does.values() for _, _, what, of in does if what == "call"}
        # last those that are called, but from nowhere that is followed: from one another, or from those without lines
        for f in sorted(functions, key=lambda f: f.internal and f.name in called):
            if not f.internal or f.name not in self.calls:
                self.lent += [(f.name, name) for kind, name in f.parameters if kind == "ptr"]
                self.follow(f.name, f.name, ())

    def follow(self, name, call, above):
        if name in above:
            refuse(f"{name} of the module calls itself")
        self.calls[name].append(call)
        for number, line, what, of in self.does[name] if name not in self.without else []:
            why = number, name, line
            if what == "move":
                self.pointers.same((call, of[0]), (call, of[1]), of[2])
            elif what == "begins":
                self.places.append(((call, of[0]), of[1]))
            elif what == "is there":
                self.lent += [(call, of[0])] if of[0].startswith("@") else []
                self.pointers.same((call, of[0]), self.pointers.content((call, of[1]), of[2]))
            elif what == "take":
                self.taken.append(((call, of[0]), *of[1:], why))
            elif what == "copy":
                a, b, n = (call, of[0]), (call, of[1]), of[2]
                for on in range(0, n, 8) if n is not None else [None]:
                    self.pointers.same(self.pointers.content(a, on), self.pointers.content(b, on))
                self.copied.append((a, b, n, why))
                self.taken += [(p, 0, 0 if n is not None else None, False, why) for p in (a, b)]
            else:
                inner = sum(map(len, self.calls.values()))
                for (kind, parameter), word in zip(self.by_name[of[0]].parameters, of[1]):
                    if kind == "ptr":
                        self.pointers.same((inner, parameter), (call, word))
                if of[2]:
                    self.pointers.same((inner, "its answer"), (call, of[2]))
                self.follow(of[0], inner, above + (name,))


MIXED = "a byte is part of a pointer in one line of the module and of a number in another"
NO_PLACE = "a pointer stands where the module has no place for one"
PART = "a part of a pointer is taken, or a pointer where none begins"
SMALL = "a place of the size of a pointer is taken as something else"


def check_places(functions):
    """Pointers are stored in places on the stack only, a multiple of 8 bytes from where these begin; and each byte of a place is part of a pointer in all lines
    that take it or in none, by whichever way the line came to the place, and so are the bytes that it is copied to; and no part of a pointer is taken, filled
    or copied without the rest. A place whose size is that of a pointer, on a narrower target fewer than 8 bytes, is loaded and stored as one and no more."""
    followed = Followed(functions)
    pointers, taken, copied = followed.pointers, followed.taken, followed.copied
    kinds = collections.defaultdict(dict)  # of an object: the bytes that are known, and of which pointer each is part, by where that begins; None, of a number
    plain = {}  # objects that have no pointer: a line takes a byte of them as part of a number, and which byte that is isn't known here
    lent, small = {pointers.object(p) for p in followed.lent}, {pointers.object(p) for p, one in followed.places if one}
    begins = collections.defaultdict(set)  # of an object: how far from a multiple of 8 places on the stack begin in it
    for p, _ in followed.places:
        place, far = pointers.find(p)
        begins[place].add(None if far is None else far % 8)

    def mark(place, far, of, why):
        if of is not None and (place in lent or not begins[place]):
            refuse(f"{NO_PLACE}: line {why[0]}, {why[2]}")
        if of is not None and begins[place] != {of % 8}:
            refuse(f"{PART}: line {why[0]}, {why[2]}")
        if kinds[place].setdefault(far, of) != of or of is not None and place in plain:
            refuse(f"{MIXED}: line {why[0]}, {why[2]}")

    for p, on, n, is_pointer, why in taken:
        place, far = pointers.find(p)
        if is_pointer and (place in lent or not begins[place]):
            refuse(f"{NO_PLACE}: line {why[0]}, {why[2]}")
        if is_pointer and far is None:  # which byte of it some line takes isn't known
            refuse(f"{MIXED}: line {why[0]}, {why[2]}")
        if not is_pointer and place in small:
            refuse(f"{SMALL}: line {why[0]}, {why[2]}")
        if n == 0 or is_pointer is None and far is not None and begins[place] == {far % 8}:
            continue
        if far is None or n is None:
            plain.setdefault(place, why)
        else:
            for i in range(n):
                mark(place, far + on + i, far + on if is_pointer else None, why)
    known = None
    while known != (known := sum(map(len, kinds.values()))):
        for a, b, n, why in copied:
            (x, i), (y, j) = pointers.find(a), pointers.find(b)
            if n is None or i is None or j is None:
                plain.setdefault(x, why)
                plain.setdefault(y, why)
                continue
            for (x, i), (y, j) in (((x, i), (y, j)), ((y, j), (x, i))):
                for far, of in list(kinds[x].items()):
                    if i <= far < i + n:
                        mark(y, far - i + j, None if of is None else of - i + j, why)
    for place, why in plain.items():
        if any(of is not None for of in kinds[place].values()):
            refuse(f"{MIXED}: line {why[0]}, {why[2]}")
    check_whole(kinds, [(*pointers.find(p), n, why) for a, b, n, why in copied for p in (a, b)])


def check_whole(kinds, copied):
    """Each pointer has all its 8 bytes, and of a copy none or all, which are one of the steps by which `follow` joins what is copied."""
    stands = collections.defaultdict(set)  # of an object: where its pointers begin
    for place, bytes_of in kinds.items():
        stands[place] = {of for of in bytes_of.values() if of is not None}
        if not all(bytes_of.get(of + i, of + 8) == of for of in stands[place] for i in range(8)):
            refuse(f"{PART}: {place}")
    for place, far, n, why in copied:
        if None not in (far, n) and any(far - 8 < of < far + n and of not in range(far, far + n - 7, 8) for of in stands[place]):
            refuse(f"{PART}: line {why[0]}, {why[2]}")


def declared(path):
    """The functions that a header declares: of each, its parameters [(type in the module, name)]; a length is an i64 there."""
    found = {}
    for m in re.finditer(r"^int64_t (floatstore_\w+)\(([^;]*)\);", open(path).read(), re.M):
        found[m[1]] = []
        for p in ([] if m[2] == "void" else re.split(r",\s*", m[2])):
            kind = "ptr" if "*" in p else "i64" if re.fullmatch(r"size_t \w+", p) else p
            found[m[1]].append((kind, re.search(r"\w+$", p)[0]))
    return found


def check_headers(exported, header, driver):
    """Both headers declare what the module exports, the driver's without fuse and noise."""
    for name in sorted({*exported, *header, *driver}):
        kinds = [k for k, _ in exported[name].parameters] if name in exported else None
        if kinds != ([k for k, _ in header[name]] if name in header else None):
            refuse(f"floatstore.h and the module don't have the same {name}")
        if driver.get(name) != [p for p in header[name] if p[1] not in ("fuse", "noise")]:
            refuse(f"floatstore_driver.h and floatstore.h don't have the same {name}, but for fuse and noise")


def check_handed_on(functions, header):
    """The pointers chip and noise of the exported functions come to the three, and nothing else looks through them: see the top, 3."""
    by_name = {f.name: f for f in functions}
    followed = Followed(functions, SWAPPED)
    pointers, taken = followed.pointers, followed.taken
    lent = [(name, (f"@{f}", p[1])) for f in header for (_, name), p in zip(header[f], by_name[f"@{f}"].parameters)]
    for word in "chip", "noise":
        ours = [p for name, p in lent if name == word]
        for p in ours:
            pointers.same(p, ours[0])
        one = pointers.object(ours[0])
        for p, _, _, _, (number, name, line) in taken:
            if pointers.object(p) == one:
                refuse(f"line {number} of the module, in {name}, looks through the pointer {word}: {line}")
        if any(pointers.object(p) == one for name, p in lent if name != word):
            refuse(f"the pointer {word} and another one that is lent come to the same place in the module")
        for f, call in ((f, call) for f in SWAPPED for call in followed.calls[f]):
            for i, (kind, name) in enumerate(by_name[f].parameters):
                p = (call, name)
                holds = any(pointers.object(c) == one for c in pointers.contents(p))
                if kind == "ptr" and ((pointers.object(p) == one) != ((f, i) in PLACES[word]) or holds):
                    refuse(f"{f} isn't always given the {word}, or is given it as something else")


def swap(text, functions):
    """The module's text with the three as functions from outside; its exported functions are called floatstore_module_* there."""
    by_name = {f.name: f for f in functions}
    for name, kinds in SWAPPED.items():
        f = by_name.get(name)
        if not f or not f.internal or f.result != "void" or " ".join(k for k, _ in f.parameters) != kinds:
            refuse(f"the module has no {name} with the parameters that are known here")
        calls = sum(line.startswith(f"call void {name}(") for g in functions for _, line in g.lines)
        mentions = sum(name in line for line in text)
        if calls == 0 or mentions != calls + 1:
            refuse(f"{name} is mentioned {mentions} times in the module, and called {calls} times")
    out, skipping = [], False
    for line in text:
        m = re.fullmatch(DEFINE, line)
        if m and m[3] in SWAPPED:
            skipping = True
            out.append(f"declare void {m[3]}({m[4]}) #0")
        if not skipping:
            out.append(line)
        skipping = skipping and line != "}"
    out = "\n".join(out)
    for name in SWAPPED:
        out = out.replace(name, '@floatstore_swapped_' + name[8:-1])
    return re.sub(r"@floatstore_(?!swapped_)(\w+)", r"@floatstore_module_\1", out)


def narrow(text):
    """The module's text in which each pair with an i64 or a pointer behind is loaded as its two parts: how far apart they are LLVM would take from
    the target. And an address is widened."""
    parts = r"""  \1.a = load \3, ptr \5, align 8
  \1.at = getelementptr i8, ptr \5, i64 8
  \1.b = load \4, ptr \1.at, align 8
  \1.ab = insertvalue \2 poison, \3 \1.a, 0
  \1 = insertvalue \2 \1.ab, \4 \1.b, 1"""
    text = re.sub(rf"^  ({P}) = load (\{{ (i8|ptr), (i64|ptr) \}}), ptr ({P}), align 8$", parts, text, flags=re.M)
    return re.sub(rf"^  ({P}) = ptrtoaddr ptr ({P}) to i64$", r"  \1 = ptrtoint ptr \2 to i64", text, flags=re.M)


def widen(text, exported):
    """The module's text in which each exported function takes its lengths as an i32: it becomes internal, and one of its name calls it."""
    text = re.sub(r"^define noundef i64 @(\w+)\(", r'define internal noundef i64 @"\1: i64"(', text, flags=re.M)
    for name, f in exported.items():
        kinds = [k for k, _ in f.parameters]
        text += f"\ndefine noundef i64 @{name}(" + ", ".join(("ptr" if k == "ptr" else "i32") + f" noundef %a{i}" for i, k in enumerate(kinds)) + ") #0 {\n"
        text += "".join(f"  %n{i} = zext i32 %a{i} to i64\n" for i, k in enumerate(kinds) if k == "i64")
        text += f'  %r = call i64 @"{name}: i64"(' + ", ".join(f"ptr %a{i}" if k == "ptr" else f"i64 %n{i}" for i, k in enumerate(kinds)) + ")\n"
        text += "  ret i64 %r\n}\n"
    return text


def for_target(text):
    """The module's text without what names x86-64, and with optsize on each function, as a C compiler has it: of -Os itself the back end sees nothing."""
    text = re.sub(r"^target .*\n", "", text, flags=re.M)
    return re.sub(r"^attributes #0 = .*$", "attributes #0 = { nounwind optsize }", text, flags=re.M)


def main():
    path, include, bits, out = sys.argv[1:]
    text = open(path).read().split("\n")
    functions = read_module(text)
    check_places(functions)
    exported = {f.name[1:]: f for f in functions if not f.internal}
    if odd := [f.name for f in exported.values() if f.result != "i64"]:
        refuse(f"{odd[0]} is exported and answers no i64")
    header, driver = (declared(os.path.join(include, h)) for h in ("floatstore.h", "floatstore_driver.h"))
    check_headers(exported, header, driver)
    swapped = swap(text, functions)
    check_handed_on(functions, header)
    simulated = "\n".join(text)
    if bits == "32":
        simulated, swapped = widen(narrow(simulated), exported), narrow(swapped)
    with open(os.path.join(out, "floatstore.ll"), "w") as f:
        f.write(for_target(simulated))
    with open(os.path.join(out, "floatstore_driver.ll"), "w") as f:
        f.write(for_target(swapped))


main()
