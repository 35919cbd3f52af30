#!/usr/bin/env python3
"""One door (docs/DECISIONS.md): outside chip::read, chip::erase and chip::write the libraries hand the chip on, and do nothing else with it.

A contract sees a function's first state and its last. What happens between them is watched here, by text: in the libraries, but for the bodies of those three
functions and for PASSED, which stands word by word, and without comments, `ghost use` and contracts, every word `chip`, `fuse` and `noise` is one of these:

  chip   a parameter `&[u8]`, `&mut [u8]` or `&mut Chip`; a whole argument; `chip.len()`, `chip.bytes().len()`; `chip.erase(..)` or `chip.write(..)`; the
         crate, in `chip::name(`
  fuse   a parameter `&u64` or `&mut u64`; a whole argument; `*fuse == 0` as a whole condition, or in brackets of its own
  noise  a parameter `&[u8]` or `&[u8; 4096]`; a whole argument

A whole argument goes to a parameter of that name, of a function of the libraries; and such a parameter is given nothing else, but for a chip's bytes,
`chip.bytes()`, and what is made for it, `&mut Chip::new(chip, fuse, noise)`. `Chip` is named there, in `use chip::`, as the type of a parameter `chip`, and in
the crate chip at the head of its methods and as an answer: no other name stands for one, and its methods are called of a `chip` alone.

The methods of `Chip` are read like all other code: in the crate chip `self.bytes`, `self.fuse` and `self.noise` stand for the three words, `self.bytes()` for
`chip.bytes()`, and the fields are named in no other way. They are private: outside that crate the language watches over them. In it the methods `erase` and
`write` alone call the functions of these names.
"""
import pathlib
import re
import sys

ROOT = pathlib.Path(__file__).resolve().parent.parent
TYPES = {"chip": ("&[u8]", "&mut[u8]", "&mutChip"), "fuse": ("&u64", "&mutu64"), "noise": ("&[u8]", "&[u8;4096]")}
DOORS = ["erase", "read", "write"]
METHODS = ["bytes", "erase", "new", "write"]  # of the struct Chip, those that are public
LENT = [("&[u8]", "chip.bytes()"), ("&mutChip", "&mutChip::new(chip,fuse,noise)")]  # what a parameter `chip` may be given besides a `chip`
FIELDS = {"bytes": "chip", "fuse": "fuse", "noise": "noise"}  # of the struct Chip: what a method's `self.` with each is read as
# the struct, and the bodies of two of its methods, as they are read: they hold the three, and answer the bytes
PASSED = {"Chip": "{bytes:&mut[u8],fuse:&mutu64,noise:&[u8;4096],}", "new": "{Chip{bytes:chip,fuse,noise,}}", "bytes": "{chip}"}
SKIPPED = r"\s+|//[^\n]*|/\*.*?\*/|\bghost\s+use\b[^;]*;|'[a-z_]\w*(?!')"  # a lifetime says nothing here
EXPORTED = ["#", "[", "unsafe", "(", "no_mangle", ")", "]"]  # no code: what it marks has a name for C
TOKEN = re.compile(rf"(?P<skip>{SKIPPED})|\"(?:\\.|[^\"\\])*\"|'(?:\\.|[^'\\])'|\w+|<<=|>>=|::|->|=>|[=!<>]=|&&|\|\||\.\.=?|[-+*/%^&|]=|.", re.S)


def without_contracts(found):
    """The words and signs without each `requires` and `ensures`, its name if it has one, and what stands in its brackets."""
    out, i = [], 0
    while i < len(found):
        start = i + 1 + (i + 1 < len(found) and re.match(r"\w", found[i + 1][0]) is not None)
        if found[i][0] in ("requires", "ensures") and start < len(found) and found[start][0] == "{":
            depth, i = 1, start + 1
            while i < len(found) and depth:
                depth += {"{": 1, "}": -1}.get(found[i][0], 0)
                i += 1
        else:
            out.append(found[i])
            i += 1
    return out


class Source:
    """A file as a list of words and signs, with the brackets matched and the functions that it declares."""

    def __init__(self, file):
        self.name, self.crate = file.relative_to(ROOT), file.relative_to(ROOT).parts[1]
        text = file.read_text(encoding="utf8")
        if self.crate == "chip":
            text = re.sub(r"\bself\.(?=bytes\(\))", "chip.", text)
            text = re.sub(r"\bself\.(bytes|fuse|noise)\b", lambda m: FIELDS[m[1]], text)
        found = without_contracts([m for m in TOKEN.finditer(text) if not m["skip"]])
        self.t = [m[0] for m in found] + [""] * 6  # so that one may look ahead, and from the first word back
        self.lines = [text.count("\n", 0, m.start()) + 1 for m in found]
        self.close, self.around, stack = {}, {}, []  # the bracket that closes one; the innermost one that stands open
        for i, t in enumerate(self.t):
            if t in (")", "]", "}") and stack:
                self.close[stack.pop()] = i
            self.around[i] = stack[-1] if stack else None
            if t in ("(", "[", "{"):
                stack.append(i)
        # each function: its name, its parameters (name and type), whether it is public; where parameters of an allowed type stand; what is passed over, the
        # doors' bodies and PASSED; and the methods of the crate chip
        self.functions, self.parameters, self.doors, self.methods = [], set(), [], []
        impls = [self.body(i) for i, t in enumerate(self.t) if t == "impl" and self.crate == "chip"]
        for i, t in enumerate(self.t):
            method, name, public = any(a < i < b for a, b in impls), self.t[i + 1] if t in ("fn", "struct") else "", self.t[i - 1] == "pub"
            if t == "fn":
                params = self.parts(self.t.index("(", i))
                (self.methods if method else self.functions).append((name, [(self.t[a], self.type_of(a, b)) for a, b in params], public))
                self.parameters |= {a for a, b in params if self.type_of(a, b) in TYPES.get(self.t[a], ())}
            if self.crate == "chip" and name:
                a, b = self.body(i)
                door = t == "fn" and public and name in DOORS and not method
                if door or "".join(self.t[a : b + 1]) == PASSED.get(name) and method == (t == "fn"):
                    self.doors.append((a, b))

    def body(self, i):
        """Of the function, struct or `impl` at i the brackets round what it holds."""
        a = next((k for k in range(i, len(self.t)) if self.t[k] == "{" and self.around[k] == self.around[i]), len(self.t))
        return a, self.close.get(a, a)

    def type_of(self, a, b):
        """Of the parameter from a to b the type, without lifetimes."""
        return "".join(self.t[a + 2 : b]).replace("<>", "")

    def parts(self, o):
        """What the commas between the bracket o and its end divide: pairs of a start and an end."""
        ends = [i for i in range(o + 1, self.close[o] + 1) if self.t[i] == "," and self.around[i] == o or i == self.close[o]]
        return [(a, b) for a, b in zip([o + 1] + [e + 1 for e in ends], ends) if a < b]

    def called(self, o):
        """The parameters of each function that the call with the bracket o may mean; None where the libraries have none: a method, another crate's."""
        n = o - 1
        if self.t[n] == ">" and "<" in self.t[:n]:  # name::<N>(
            n = max(k for k in range(n) if self.t[k] == "<") - 2
        if self.t[n - 1] in (".", "fn") or self.t[n - 3] == "::" and self.t[n - 1] == "::":
            return None
        return functions.get((self.t[n - 2] if self.t[n - 1] == "::" else self.crate, self.t[n]))

    def is_argument(self, i, name):
        """A whole argument, given to a parameter of that name: the name itself, or one of LENT."""
        o = self.around[i]
        wholes = [(a, b) for a, b in self.parts(o) if a <= i < b] if o is not None and self.t[o] == "(" else []
        if not wholes or not self.called(o):
            return False
        place, said = self.parts(o).index(wholes[0]), "".join(self.t[wholes[0][0] : wholes[0][1]])
        return all(place < len(p) and p[place][0] == name and (said == name or (p[place][1], said) in LENT) for p in self.called(o))

    def allowed(self, i):
        t, word = self.t, self.t[i]
        if i in self.parameters or self.is_argument(i, word):
            return True
        if word == "fuse":
            return t[i - 1 : i + 3] == ["*", "fuse", "==", "0"] and (t[i - 2], t[i + 3]) in (("if", "{"), ("(", ")"))
        if word == "chip" and t[i + 1] == "::" and t[i - 1] != "::":
            return t[i - 1] == "use" or t[i + 3] == "("
        size = [".", "len", "(", ")"]
        if word == "chip" and t[i + 1 : i + 9] == [".", "bytes", "(", ")"] + size:
            return True
        return word == "chip" and (t[i + 1 : i + 5] == size or t[i + 1] == "." and t[i + 2] in ("erase", "write") and t[i + 3] == "(")

    def within(self, i):
        """The name of the function that i stands in."""
        return next((self.t[k + 1] for k in range(i, 0, -1) if self.t[k] == "fn"), "")

    def is_named(self, i):
        """`Chip`, where it may be named; `specs::Chip` is another thing."""
        t, o, use = self.t, self.around[i] or 0, ["use", "chip", "::"]
        if i - 4 in self.parameters or self.is_argument(i, "chip") or use in (t[i - 3 : i], t[o - 3 : o]) or t[i - 2 : i] == ["specs", "::"]:
            return True
        return self.crate == "chip" and (t[i - 1] in ("struct", "impl", "->") or t[i - 3 : i] == ["impl", "<", ">"])

    def findings(self):
        t = self.t
        for i, word in enumerate(t):
            if any(a < i < b for a, b in self.doors):
                continue
            here = f"{self.name}:{self.lines[i] if i < len(self.lines) else 0}"
            if word in TYPES and not self.allowed(i):
                yield f"{here}: `{' '.join(t[max(0, i - 3) : i + 5]).strip()}`: {word} is used in another way"
            called = "".join(t[i + 1 : i + 3]) in ("bytes(", "erase(", "write(")
            if word == "Chip" and not self.is_named(i) or word == "." and called and t[i - 1] != "chip":
                yield f"{here}: `{' '.join(t[max(0, i - 3) : i + 5]).strip()}`: a Chip under another name"
            if self.crate == "chip" and word == "." and t[i + 1] in FIELDS and t[i + 2] != "(":
                yield f"{here}: `.{t[i + 1]}`: a field of Chip is named in another way"
            if self.crate == "chip" and word in ("erase", "write") and t[i - 1] not in ("fn", ".") and word != self.within(i):
                yield f"{here}: `{word}`: it is the method of that name that calls it"
            unknown = word in ("unsafe", "static", "ref", "mod") and t[i - 2 : i + 5] != EXPORTED or word == "Self" and self.crate == "chip"
            if unknown or word == "*" and t[i + 1] in ("mut", "const") or word == "extern" and t[i + 2] != "fn":
                yield f"{here}: `{word} {t[i + 1]}`: this check can't follow it"
            if word == "use" and "as" in t[i : t.index(";", i)]:
                yield f"{here}: `use`: another name is given"
            if word == "(" and re.match(r"[a-z_>]", t[i - 1]):
                given = ["".join(t[a:b]) for a, b in self.parts(i)]
                for p in self.called(i) or []:
                    for name, kind, arg in [(n, k, given[j] if j < len(given) else "") for j, (n, k) in enumerate(p)]:
                        if name in TYPES and arg != name and (kind, arg) not in LENT:
                            yield f"{here}: `{t[i - 1]}`: its parameter {name} is given `{arg}`"


# the programs make up chips and fuses, and so may the crates that only they stand on: what crates.txt lists from this line on, and nothing above it uses
parts = (ROOT / "crates.txt").read_text().split("# what the programs share")
house, shared = ([line.split(":") for line in part.splitlines() if ":" in line.split("#")[0]] for part in parts)
outside = {name.split()[0] for name, _ in shared}
files = [f for f in sorted(ROOT.glob("crates/*/src/**/*.rt")) if f.relative_to(ROOT).parts[1] not in outside]
sources = [Source(f) for f in files]
functions = {}
for s in sources:
    for name, params, _ in s.functions:
        functions.setdefault((s.crate, name), []).append(params)
    for name, params, _ in s.methods:
        functions.setdefault(("Chip", name), []).append(params)
bad = [line for s in sources for line in s.findings()]
doors = sorted(n for s in sources if s.crate == "chip" for n, ps, public in s.functions if public and any("&mut" in t for _, t in ps))
methods = sorted(n for s in sources for n, _, public in s.methods if public)
if methods != METHODS:
    bad.append(f"crates/chip: the public methods of Chip are {methods}, not {METHODS}")
bad += [f"crates.txt: {name} stands on {dep}, which is the programs'" for name, deps in house for dep in deps.split() if dep in outside]
if doors != DOORS:
    bad.append(f"crates/chip: the public functions that change something are {doors}, not {DOORS}")
print("\n".join(bad) if bad else f"only chip::read looks at the chip, only chip::erase and chip::write change it and the fuse ({len(sources)} files read)")
sys.exit(bool(bad))
