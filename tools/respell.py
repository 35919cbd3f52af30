#!/usr/bin/env python3
"""Brings the names of this repository's own definitions and lemmas to the spelling of the kit: words in snake case. Run once, at the top of the
repository, after the kit's own script (docs/PORT.md). Names of types and of src/, strings, and what a proof file of a function declares stay.

A lemma that would have the name of a definition gets `_lem` after it. A name is respelled so: a capital inside it begins a word (keyAt, key_at), a dash
before a letter or a digit is an underscore (all-at, all_at); a dash before an operator stays (alter-<). Two names that fall together are refused.

With --crates, run after it: gives the crates in CRATES another name, since the kit has libraries of theirs."""
import glob
import os
import re
import sys

WORD = re.compile(r"[^\s(){}\[\];,.:\"`|]+")
DECLARED = re.compile(r"^\s*(?:unfoldable |abbrev |pub )*([^\s:(){}\[\],;.λ]+) (?:[({][^)}]*[)}] )*:(?!=)")
NOT_OURS = {"getD": "get_or"}  # a library's name within one of ours
LEMMAS = "blank-at first-test key-on later-test lent-on page-at ring-test sound-one table-at".split()  # each beside a definition of its name
# a lemma that the kit's script gave the name of a function of src/, in the files that cite it, where no path leads to it
VALUE_ON = ["crates/record/proofs/Fields.antt", "crates/record/proofs/value_on/Proof.antt"]
CRATES = {"log": "ring_log"}


def files(*patterns):
    return sorted(f for p in patterns for f in glob.glob(p, recursive=True))


def respelled(name):
    for theirs, now in NOT_OURS.items():
        name = name.replace(theirs, now)
    if name[:1].isupper():
        return name
    if name in LEMMAS:
        return name.replace("-", "_") + "_lem"
    name = re.sub(r"(?<=[a-z0-9])([A-Z])", lambda m: "_" + m.group(1).lower(), name)
    name = re.sub(r"-([A-Z])(?![A-Za-z])", lambda m: "_" + m.group(1).lower(), name)
    return re.sub(r"-(?=[A-Za-z0-9])", "_", name)


def declared():
    names = set()
    for f in files("crates/*/specs/*.antt", "crates/*/proofs/*.antt"):
        for line in open(f, encoding="utf-8"):
            m = DECLARED.match(line)
            if m:
                names.add(m.group(1))
    return names


def swap(text, new):
    # a name of Rattle's own in a path, as .page-at.ensures, is that of the function
    return WORD.sub(lambda m: m.group(0).replace("-", "_") if m.group(0) in LEMMAS and text[:m.start()].endswith(".") else new.get(m.group(0), m.group(0)), text)


def crates():
    text = open("crates.txt", encoding="utf-8").read().split("\n")
    for old, new in CRATES.items():
        if os.path.isdir(f"crates/{old}"):
            os.rename(f"crates/{old}", f"crates/{new}")
        text = [t if t.startswith("#") else re.sub(rf"\b{old}\b", new, t) for t in text]
        paths = [(rf"\bRattle\.{old}\b", f"Rattle.{new}"), (rf"(?<![\w./]){old}::", f"{new}::"), (rf"\bcrates/{old}/", f"crates/{new}/"),
                 (rf"^use {old};", f"use {new};"), (rf"^(- \*\*|\| )`{old}`", rf"\1`{new}`")]
        for f in files("crates/**/*.antt", "crates/*/src/*.rt", "crates/*/must-*/*.edit", "*.md", "docs/**/*.md", "tests/*", "tools/*", ".ci/run"):
            if not os.path.isfile(f) or f == "tools/respell.py":
                continue
            was = now = open(f, encoding="utf-8").read()
            for a, b in paths:
                now = re.sub(a, b, now, flags=re.M)
            if now != was:
                open(f, "w", encoding="utf-8").write(now)
    open("crates.txt", "w", encoding="utf-8").write("\n".join(text))


def main():
    if "--crates" in sys.argv:
        return crates()
    names = declared()
    new = {n: respelled(n) for n in names if respelled(n) != n}
    now = list(new.values())
    fall = [n for n, s in new.items() if (s in names and s != "value_on") or now.count(s) > 1]
    if fall and "--show" not in sys.argv:
        sys.exit("names that fall together: " + " ".join(sorted(fall)))
    if "--show" in sys.argv:
        print("\n".join(f"{n} {s}" for n, s in sorted(new.items())))
        print("fall together:", " ".join(sorted(fall)))
        return
    for f in files("crates/*/specs/**/*.antt", "crates/*/proofs/**/*.antt", "crates/*/src/*.rt", "crates/*/must-fail/*.edit", "crates/*/must-pass/*.edit"):
        old = open(f, encoding="utf-8").read()
        text = re.sub(r"(?<![.:\w])value_on(?![.\w])", "value_on_lem", old) if f in VALUE_ON else old
        text = swap(text, new)
        if text != old:
            open(f, "w", encoding="utf-8").write(text)
    # the pages name them between backticks; there too what the kit's script respelled
    known = set(now) | names
    told = lambda m: m.group(0) if respelled(m.group(0)) not in known else respelled(m.group(0))
    for f in files("*.md", "docs/**/*.md"):
        old = open(f, encoding="utf-8").read()
        text = re.sub(r"`[^`\n]+`", lambda m: WORD.sub(told, m.group(0)), old)
        if text != old:
            open(f, "w", encoding="utf-8").write(text)
    print(len(new), "names")


if __name__ == "__main__":
    main()
