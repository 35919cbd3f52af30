#!/bin/sh
# Each wrong program (crates/*/must-fail/*.edit) and each harmless sister (must-pass/) names texts that stand exactly once in their files; else it is no edit,
# and the gate finds that out only after many minutes. Read as rt reads them: lines 'file:', and pairs of 'old:' and 'new:', each over what the earlier made.
cd "$(dirname "$0")/.." || exit 1
exec python3 - <<'END'
import glob
import os
import sys

bad = 0


def complain(edit, why):
    global bad
    bad = 1
    print(f"{edit}: {why}")


edits = sorted(glob.glob("crates/*/must-fail/**", recursive=True) + glob.glob("crates/*/must-pass/**", recursive=True))
edits = [it for it in edits if os.path.isfile(it) and not it.endswith(".md")]
for edit in edits:
    folder = edit.split("/must-")[0]
    texts, was, file, old = {}, {}, None, None
    if os.path.dirname(edit) not in (folder + "/must-fail", folder + "/must-pass") or not edit.endswith(".edit"):
        complain(edit, "rt doesn't read it: it isn't right in its folder, or doesn't end in .edit")
    for line in open(edit, encoding="utf-8").read().splitlines():
        word, text = line.partition(": ")[0], line.partition(": ")[2]
        if word == "file":
            file = f"{folder}/{text.strip()}"
            if file not in texts:
                texts[file] = was[file] = open(file, encoding="utf-8").read() if os.path.isfile(file) else ""
        elif word == "old":
            old = text
            times = texts[file].count(old) if file else 0
            if times != 1:
                complain(edit, f"its text stands {times} times in {file}: {old}")
        elif line.startswith("new:"):
            if not file or not old:
                complain(edit, "a line 'new:' without one 'old:' before it")
            else:
                texts[file], old = texts[file].replace(old, text), None
        elif line and line[0] != "#":
            complain(edit, f"rt doesn't read the line: {line}")
    if texts == was:
        complain(edit, "it changes nothing")
if not any("/must-fail/" in it for it in edits) or not any("/must-pass/" in it for it in edits):
    complain("crates", "no wrong program, or no harmless sister")
sys.exit(bad)
END
