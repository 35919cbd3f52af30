#!/usr/bin/env python3
"""Draws docs/house.svg from crates.txt and the code: which crate knows which, and the ways of a put and of a start through them.

  tools/house.py            writes docs/house.svg
  tools/house.py --ways     prints both ways, function by function, with what each function ensures
  tools/house.py --check    prints what is no longer so: of the picture, and of what docs/HOUSE.md names

A crate is a room. It knows a crate that its code names (`name::`, `use name`) or whose definitions or laws it cites (`use Rattle.name.` in src/, specs/ and
proofs/), and stands above all that it knows. A line that others imply is left out, but none of those that a way takes. The ways are found by text: each
function that is called, from floatstore_put and from floatstore_start on. Lines to one room from far above share a shaft.
"""
import functools
import itertools
import pathlib
import random
import re
import sys

ROOT = pathlib.Path(__file__).resolve().parent.parent
WAYS = (("put", "floatstore_put", "#1d5fbf"), ("start", "floatstore_start", "#c4510a"))
COLOUR = {"put": WAYS[0][2], "start": WAYS[1][2], "knows": "#9a9a94"}
MONO = "ui-monospace,SFMono-Regular,Menlo,Consolas,'DejaVu Sans Mono',monospace"


# ---- reading

def crates():
    """The lines of crates.txt: a crate, and the crates that it stands on."""
    lines = (ROOT / "crates.txt").read_text(encoding="utf8").splitlines()
    pairs = [line.split("#")[0].split(":") for line in lines if ":" in line.split("#")[0]]
    return {name.split()[0]: below.split() for name, below in pairs}


def sources(crate, *parts):
    return [f.read_text(encoding="utf8") for part in parts for f in sorted((ROOT / "crates" / crate / part).rglob("*")) if f.suffix in (".rt", ".antt")]


def plain(text):
    """Code without comments, strings and `ghost use`."""
    text = re.sub(r"//[^\n]*|/\*.*?\*/|b?\"(?:\\.|[^\"\\])*\"|'(?:\\.|[^'\\])'", " ", text, flags=re.S)
    return re.sub(r"\bghost\s+use\b[^;]*;", " ", text)


def body(text, start):
    """Where the bracket that stands at start ends."""
    depth = 0
    for end in range(start, len(text)):
        depth += {"{": 1, "}": -1}.get(text[end], 0)
        if depth == 0:
            return end
    return len(text)


def bare(text):
    """Code that is plain without its contracts, and these: pairs of a place in it and a clause that stood there."""
    out, clauses, at = "", [], 0
    for m in re.finditer(r"\b(requires|ensures)\b(?:\s+\w+)?\s*\{", text):
        out += text[at : m.start()]
        at = body(text, m.end() - 1) + 1
        clauses.append((len(out), m[1], text[m.end() : at - 1]))
    return out + text[at:], clauses


def shared():
    """What only the programs stand on: the crates below that line of crates.txt."""
    lines = (ROOT / "crates.txt").read_text(encoding="utf8").partition("# what the programs share\n")[2].splitlines()
    return {line.split(":")[0].split()[0] for line in lines if ":" in line.split("#")[0]}


class Crate:
    def __init__(self, name, known):
        self.name = name
        written = "\n".join(sources(name, "src"))
        code, clauses = bare(plain(written))
        if not written:
            sys.exit(f"crates.txt names {name}, and crates/{name}/src is empty")
        # a program, or what only programs share: nothing of the store stands on it
        self.program = (ROOT / "crates" / name / "src" / "main.rt").exists() or name in shared()
        self.theory = "is theory" in "".join(re.findall(r"^//[^\n]*\n", written, re.M))
        cited = re.findall(r"\buse\s+Rattle\.(\w+)", "\n".join(sources(name, "src", "specs", "proofs")))
        named = re.findall(r"(?<![\w:])(\w+)\s*::", code) + re.findall(r"\buse\s+(\w+)", code)
        self.knows = {c for c in named + cited if c in known and c != name}
        # what a `use` brings in: a name, and the crate that it is of
        self.brought = {}
        for crate, names in re.findall(r"\buse\s+(\w+)\s*::\s*([^;]*);", code):
            self.brought.update({word: crate for word in re.findall(r"\w+", names)})
        # methods are called TYPE::NAME; those of a trait are left out, as `?` and the like call them
        impls = [(m[1], m.end() - 1, body(code, m.end() - 1)) for m in re.finditer(r"\bimpl\b(?:<[^>]*>)?\s*(\w+)(?:<[^>]*>)?[^{;]*\{", code)]
        self.bodies, self.ensures = {}, {}
        for m in re.finditer(r"\bfn\s+(\w+)\s*(?:<[^>]*>)?\s*\(", code):
            name = "".join(f"{of}::" for of, begin, end in impls if begin < m.start() < end) + m[1]
            start = code.find("{", m.end())
            self.bodies[name] = code[start : body(code, start)]
            ensured = " | ".join(text for at, word, text in clauses if word == "ensures" and m.end() <= at <= start)
            self.ensures[name] = " ".join(re.sub(r"\b(\w+)\.(?:old|now)\b", r"\1", re.sub(r"\b(\w+)\.new\b", r"\1′", ensured)).split())


def calls(house, crate, function):
    """The functions that this one calls, as pairs of crate and name, in the order of the text. A method is the one of that name in this crate, or in the only
    crate that has one and that this one knows."""
    for m in re.finditer(r"(?<![\w:.])(?:(\w+)\s*::\s*)?(\w+)\s*\(|\.\s*(\w+)\s*\(", house[crate].bodies[function]):
        if m[3] or m[1] and m[1][0].isupper():
            near = [c for c in house if c == crate or c in house[crate].knows]
            ours = [(c, f) for c in near for f in house[c].bodies if f.endswith(f"::{m[3]}") or f == f"{m[1]}::{m[2]}"]
            own = [(c, f) for c, f in ours if c == crate]
            yield from own if len(own) == 1 else ours if len(ours) == 1 else []
            continue
        of = m[1] or (crate if m[2] in house[crate].bodies else house[crate].brought.get(m[2]))
        if of in house and m[2] in house[of].bodies:
            yield of, m[2]


def way(house, first):
    """Every function on the way, in the order in which they are met; and the calls from one crate into another."""
    begin = next(((c, first) for c in house if first in house[c].bodies), None) or sys.exit(f"there is no function {first}")
    met, across = [], []

    def walk(at):
        met.append(at)
        for to in calls(house, *at):
            if to[0] != at[0]:
                across.append((at[0], to))
            if to not in met:
                walk(to)

    walk(begin)
    return met, across


# ---- the plan: floors, lines, shafts

class Item:
    """A room, or the shaft through a floor that leads to the room `to`."""

    def __init__(self, to, room=None):
        self.to, self.room = to, room
        self.width, self.height, self.x, self.y = 16, 0, 0.0, 0.0
        self.down, self.up = {}, []  # the items on the floor below that lines lead to, each with its lanes; those above that they come from


def total(numbers):
    """Their sum, from left to right: sum() rounds differently from one Python to the next, and the picture must be the same."""
    return functools.reduce(lambda a, b: a + b, numbers, 0.0)


def spread(wanted, gaps, weights):
    """The places nearest to those wanted, in their order and at least the gaps apart."""
    shift = [0.0] + list(itertools.accumulate(gaps))
    blocks = []
    for w, s, k in zip(wanted, shift, weights):
        blocks.append([(w - s) * k, k, 1])
        while len(blocks) > 1 and blocks[-2][0] / blocks[-2][1] > blocks[-1][0] / blocks[-1][1]:
            a = blocks.pop()
            blocks[-1] = [blocks[-1][0] + a[0], blocks[-1][1] + a[1], blocks[-1][2] + a[2]]
    flat = [s / k for s, k, n in blocks for _ in range(n)]
    return [f + s for f, s in zip(flat, shift)]


def plan(house, ways):
    libraries = [c for c in house if not house[c].program]

    @functools.lru_cache(None)
    def below(c):
        """All that a crate knows, and all that those know."""
        return set(house[c].knows).union(*[below(d) for d in house[c].knows])

    @functools.lru_cache(None)
    def floor(c):
        return 1 + max((floor(d) for d in house[c].knows), default=-1)

    lines = {}
    for c in libraries:
        for d in house[c].knows:
            if not any(d in below(e) for e in house[c].knows):
                lines.setdefault((c, d), set()).add("knows")
    for name, (met, across) in ways.items():
        for c, (d, _) in across:
            lines.setdefault((c, d), set()).add(name)
    for lanes in lines.values():
        if len(lanes) > 1:
            lanes.discard("knows")

    rooms = {c: Item(to=c, room=c) for c in libraries}
    floors = [[rooms[c] for c in libraries if floor(c) == n] for n in range(max(map(floor, libraries)) + 1)]
    shafts = {}
    for (c, d), lanes in sorted(lines.items()):
        at = rooms[c]
        for n in range(floor(c) - 1, floor(d) - 1, -1):
            if n == floor(d):
                under = rooms[d]
            elif (d, n) in shafts:
                under = shafts[d, n]
            else:
                under = shafts[d, n] = Item(to=d)
                floors[n].append(under)
            at.down.setdefault(under, set()).update(lanes)
            if at not in under.up:
                under.up.append(at)
            at = under
    return rooms, floors


def crossings(upper, lower):
    """How many lines cross between two floors; a line of a way counts twice."""
    place = {item: i for i, item in enumerate(lower)}
    ends = [[(place[b], sum(1 if n == "knows" else 2 for n in names)) for b, names in item.down.items()] for item in upper]
    return sum(k * l for i, left in enumerate(ends) for right in ends[i + 1 :] for a, k in left for b, l in right if a > b)


def arrange(floors):
    """The order on each floor: the fewest crossings that are found from thirty beginnings by moving one item at a time."""
    chance = random.Random(1)
    best = None
    for _ in range(30):
        rows = [sorted(row, key=lambda item: chance.random()) for row in floors]

        def cost(n, order):
            return (crossings(rows[n + 1], order) if n + 1 < len(rows) else 0) + (crossings(order, rows[n - 1]) if n else 0)

        better = True
        while better:
            better = False
            for n in itertools.chain(range(len(rows)), reversed(range(len(rows)))):
                least = cost(n, rows[n])
                for i, j in itertools.permutations(range(len(rows[n])), 2):
                    order = rows[n][:i] + rows[n][i + 1 :]
                    order.insert(j, rows[n][i])
                    c = cost(n, order)
                    if c < least:
                        least, rows[n], better = c, order, True
        all_in_all = sum(crossings(a, b) for a, b in zip(rows[1:], rows))
        if best is None or all_in_all < best:
            best, floors[:] = all_in_all, rows


def settle(floors, gap):
    """The places from left to right: each item near those that it has lines with, shafts straight."""
    for row in floors:
        x = 0.0
        for item in row:
            item.x = x + item.width / 2
            x += item.width + gap
        for item in row:
            item.x -= x / 2
    for turn in range(60):
        for row in floors if turn % 2 else reversed(floors):
            wanted, weights = [], []
            for item in row:
                near = [(o.x, 4 if not item.room and not o.room else 1) for o in list(item.down) + item.up]
                near.append((item.x, 1))
                near += [(0.0, 0.6)] if item.room else []
                wanted.append(total(x * k for x, k in near) / total(k for _, k in near))
                weights.append(1 if item.room else 3)
            gaps = [(a.width + b.width) / 2 + (gap if a.room and b.room else gap * 0.55) for a, b in zip(row, row[1:])]
            for item, x in zip(row, spread(wanted, gaps, weights)):
                item.x = x


# ---- drawing

def doors(house, ways, room):
    """For each way, by which functions it comes into a room."""
    for name, first, _ in WAYS:
        met, across = ways[name]
        into = [f for c, f in met if c == room and (f == first or any(to == (c, f) for _, to in across))]
        if into:
            yield name, into


def wrap(words, most):
    rows = [""]
    for w in words:
        if rows[-1] and len(rows[-1]) + len(w) + 2 > most:
            rows.append("")
        rows[-1] += ("  " if rows[-1] else "") + w
    return rows


def ports(item, others):
    """Where on the room's edge the lines to the others end."""
    if not item.room:
        return {o: item.x for o in others}
    left, right = item.x - item.width / 2 + 16, item.x + item.width / 2 - 16
    order = sorted(others, key=lambda o: o.x)
    wanted = []
    for o in order:
        a, b = (max(left, o.x - o.width / 2 + 16), min(right, o.x + o.width / 2 - 16)) if o.room else (o.x, o.x)
        wanted.append(min(max((a + b) / 2, left), right))
    room = min(20.0, (right - left) / max(1, len(order) - 1))
    places = spread(wanted, [room] * (len(order) - 1), [1] * len(order))
    places = [max(p, left + room * i) for i, p in enumerate(places)]
    return {o: min(p, right - room * (len(order) - 1 - i)) for i, (o, p) in enumerate(zip(order, places))}


def draw(house, ways):
    rooms, floors = plan(house, ways)
    gap, storey, margin = 26, 46, 24
    for item in rooms.values():
        item.text = [(name, row) for name, into in doors(house, ways, item.room) for row in wrap(into, 34)]
        item.width = max(96, 9.2 * len(item.room) + (56 if house[item.room].theory else 0) + 28, *[6.75 * len(row) + 34 for _, row in item.text] or [0])
        item.height = 32 + 15 * len(item.text) + (4 if item.text else 0)
    arrange(floors)
    settle(floors, gap)

    everything = [item for row in floors for item in row]
    shift = margin + 16 - min(i.x - i.width / 2 for i in everything)
    width = max(760.0, max(i.x + i.width / 2 for i in everything) + shift + margin + 16)
    shift += (width - margin - 16 - (max(i.x + i.width / 2 for i in everything) + shift)) / 2
    for item in everything:
        item.x += shift

    out = []
    say = out.append
    y = 100.0
    programs = [c for c in house if house[c].program]
    if programs:
        x = margin + 96.0
        say(f'<text x="{margin}" y="{y + 17:.0f}" class="n">programs</text>')
        for c in programs:
            w = 7.4 * len(c) + 20
            if x + w > width - margin:
                x, y = margin + 96.0, y + 32
            say(f'<rect x="{x:.1f}" y="{y:.1f}" width="{w:.1f}" height="25" rx="12" class="p"/><text x="{x + w / 2:.1f}" y="{y + 17:.1f}" class="q">{c}</text>')
            x += w + 10
        y += 58
    bands = []
    for row in reversed(floors):
        tall = max(i.height for i in row)
        bands.append((y - 10, tall + 20))
        for item in row:
            item.y = y + (tall - item.height) / 2 if item.room else y - 10
            item.height = item.height if item.room else tall + 20
        y += tall + storey
    height = y - storey + margin + 10

    back = [f'<rect x="{margin - 8}" y="{a:.1f}" width="{width - 2 * margin + 16:.1f}" height="{h:.1f}" rx="6" class="f"/>' for a, h in bands]
    lanes = {}  # of each room: the lanes that lead to it
    for item in everything:
        for below, names in item.down.items():
            lanes.setdefault(below.to, set()).update(names)

    # side by side, the way that has more of its own rooms on the left runs on the left
    mean = {name: total(x) / len(x) for name in ways for x in [[i.x for i in rooms.values() if {n for n, _ in i.text} == {name}] or [width / 2]]}
    side = sorted(ways, key=mean.get)
    side.insert(1, "knows")

    def offset(to, name):
        order = [n for n in side if n in lanes[to]]
        return (order.index(name) - (len(order) - 1) / 2) * 5

    bottom = {item: ports(item, list(item.down)) for item in everything}
    top = {item: ports(item, item.up) for item in everything}
    paths = {"knows": [], "put": [], "start": []}
    heads = {"knows": [], "put": [], "start": []}
    for item in everything:
        if not item.room:
            for name in sorted({n for up in item.up for n in up.down[item]}):
                x = item.x + offset(item.to, name)
                paths[name].append(f"M{x:.1f} {item.y:.1f}V{item.y + item.height:.1f}")
        for below, names in sorted(item.down.items(), key=lambda p: (p[0].x, p[0].to)):
            for name in sorted(names):
                d = offset(below.to, name)
                x1, y1 = bottom[item][below] + d, item.y + item.height
                x2, y2 = top[below][item] + d, below.y - (6 if below.room else 0)
                half = (y1 + y2) / 2
                curve = f"C{x1:.1f} {half:.1f} {x2:.1f} {half:.1f} {x2:.1f} {y2:.1f}"
                paths[name].append(f"M{x1:.1f} {y1:.1f}" + (f"V{y2:.1f}" if abs(x1 - x2) < 0.5 else curve))
                if below.room:
                    heads[name].append(f"M{x2 - 3.5:.1f} {y2 - 1:.1f}h7l-3.5 7z")
    for name in ("knows", "put", "start"):
        say(f'<path class="l" stroke="{COLOUR[name]}" stroke-width="{1.4 if name == "knows" else 2}" d="{"".join(paths[name])}"/>')
        say(f'<path fill="{COLOUR[name]}" d="{"".join(heads[name])}"/>')
    for item in rooms.values():
        theory = house[item.room].theory
        x, y = item.x - item.width / 2, item.y
        say(f'<rect x="{x:.1f}" y="{y:.1f}" width="{item.width:.1f}" height="{item.height:.1f}" rx="5" class="{"t" if theory else "r"}"/>')
        note = '<tspan class="n" dx="8">theory</tspan>' if theory else ""
        say(f'<text x="{x + 12:.1f}" y="{y + 21:.1f}" class="c">{item.room}{note}</text>')
        for i, (name, row) in enumerate(item.text):
            first = i == 0 or item.text[i - 1][0] != name
            if first:
                say(f'<circle cx="{x + 15:.1f}" cy="{y + 34 + 15 * i:.1f}" r="3" fill="{COLOUR[name]}"/>')
            say(f'<text x="{x + 24:.1f}" y="{y + 38 + 15 * i:.1f}" class="d" fill="{COLOUR[name]}">{row.replace("  ", "&#160; ")}</text>')

    w, h = round(width), round(height)
    lead = [
        f'<svg xmlns="http://www.w3.org/2000/svg" viewBox="0 0 {w} {h}" width="{w}" height="{h}" role="img" font-family="{MONO}">',
        "<title>The house: which crate knows which, and the ways of a put and of a start</title>",
        "<!-- drawn by tools/house.py from crates.txt and the code -->",
        "<style>.l{fill:none}.f{fill:#f3f1ea}.r,.t{fill:#fff;stroke:#55534c;stroke-width:1.3}.t{stroke-dasharray:5 3}.p{fill:#fff;stroke:#9a9a94}"
        ".c{font-size:15px;font-weight:bold;fill:#222}.d{font-size:11px}.n{font-size:11px;font-weight:normal;fill:#66645c}"
        ".q{font-size:12px;fill:#222;text-anchor:middle}.k{font-size:12px;fill:#222}.h{font-size:18px;font-weight:bold;fill:#222}</style>",
        f'<rect width="{w}" height="{h}" rx="10" fill="#fdfcf8" stroke="#d8d5ca"/>',
        f'<text x="{margin}" y="36" class="h">The house</text>',
    ]
    x = margin
    for name, words in (("put", "the way of a put"), ("start", "the way of a start"), ("knows", "knows (what others imply is left out)")):
        lead.append(f'<path class="l" stroke="{COLOUR[name]}" stroke-width="{1.4 if name == "knows" else 2}" d="M{x} 60h24"/>')
        lead.append(f'<path fill="{COLOUR[name]}" d="M{x + 23} 56.5v7l7-3.5z"/>')
        lead.append(f'<text x="{x + 38}" y="64" class="k">{words}</text>')
        x += 38 + round(7.3 * len(words)) + 30
    lead.append(f'<text x="{margin}" y="84" class="n">In a room: the functions by which the way comes in from another room.</text>')
    return "\n".join(lead + back + out + ["</svg>"]) + "\n"


def astray(house, picture):
    """What is wrong with the picture and the page as they stand in docs/."""
    drawn, page = ROOT / "docs" / "house.svg", (ROOT / "docs" / "HOUSE.md").read_text(encoding="utf8")
    if not drawn.exists() or drawn.read_text(encoding="utf8") != picture:
        yield "docs/house.svg is not what tools/house.py draws: run it"
    rows = re.findall(r"^\| `(\w+)` \|", page, re.M)
    yield from (f"docs/HOUSE.md has no line for {c}" for c in house if c not in rows)
    yield from (f"docs/HOUSE.md has a line for {c}, which is no crate" for c in rows if c not in house)
    functions = {f"{c}::{f}" for c in house for f in house[c].bodies}
    words = set(re.findall(r"[^\W\d][\w-]*", "\n".join(t for c in house for t in sources(c, "src", "specs", "proofs")))) | set(house)
    for name in sorted(set(re.findall(r"`([^` ]+)`", page))):
        if re.fullmatch(r"\w+(?:::\w+)+", name) and name not in functions:
            yield f"docs/HOUSE.md names {name}, which is no function"
        elif re.fullmatch(r"[\w-]+", name) and name not in words:
            yield f"docs/HOUSE.md names {name}, which stands nowhere in crates/"
    for name in sorted(set(re.findall(r"[\w./-]+\.(?:antt|md|sh|py|c|h|svg)\b|\bcrates/\w+/\w+/", page))):
        # a name without a folder is that of a file of some crate, or of this folder
        if not (ROOT / name).exists() and ("/" in name or not ((ROOT / "docs" / name).exists() or any((ROOT / "crates").glob(f"*/[!o]*/**/{name}")))):
            yield f"docs/HOUSE.md names the file {name}, which isn't there"


def main():
    listed = crates()
    house = {c: Crate(c, listed) for c in listed}
    ways = {name: way(house, first) for name, first, _ in WAYS}
    if sys.argv[1:] == ["--ways"]:
        for name, first, _ in WAYS:
            print(f"the way of a {name}")
            for c, f in ways[name][0]:
                print(f"  {c}::{f}", house[c].ensures.get(f, ""), sep="\t")
    elif sys.argv[1:] == ["--check"]:
        wrong = list(astray(house, draw(house, ways)))
        print(*wrong, sep="\n", end="\n" if wrong else "")
        sys.exit(bool(wrong))
    elif sys.argv[1:]:
        sys.exit(__doc__)
    else:
        (ROOT / "docs" / "house.svg").write_text(draw(house, ways), encoding="utf8")


main()
