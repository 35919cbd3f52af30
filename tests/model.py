#!/usr/bin/env python3
"""model.py try_faults | try_history | try_limits | try_one_byte | try_pages | try_wild: what that program must write, computed from documents 01 and 03,
requests 7 and 9 and docs/FORMAT.md alone. The scripts of try_history and try_limits are read from their files stdin.

An independent model of the page form, the payload's layout, the fault script and the calls.
"""
import itertools
import os
import sys


FLIPPED = bytes(255 - x for x in range(256))
OLD, NEW = 1, 2  # byte 0 of a page: its form


def zero_bits(payload):
    return 8 * len(payload) - int.from_bytes(payload, "big").bit_count()


def form_of(form, payload):
    """The page of a payload: an old page has a flipped copy, and any other has the number of the 0 bits."""
    if form == OLD:
        return payload[:128] + payload[:128].translate(FLIPPED)
    return payload[:254] + zero_bits(payload[:254]).to_bytes(2, "big")


def payload_of(form, kind, key, value, key_len=None, value_len=None):
    heading = bytes([form, kind, len(key) if key_len is None else key_len, len(value) if value_len is None else value_len])
    return (heading.ljust(16, b"\0") + key.ljust(16, b"\0") + value).ljust(254, b"\0")


def record_page(kind, key, value, form=NEW):
    return form_of(form, payload_of(form, kind, key, value))


def value_page(key, value):
    return record_page(1, key, value)


def sound(page):
    return page[0] in (OLD, NEW) and page == form_of(page[0], page)


def ors(old, noise):
    return bytes(a | b for a, b in zip(old, noise))


def write(chip, p, new, script, noise):
    old = chip[256 * p : 256 * p + 256]
    assert old == b"\xff" * 256
    left = {0: old, 1: ors(new, noise)}.get(script, bytes(a & b for a, b in zip(old, new)))
    return chip[: 256 * p] + left + chip[256 * p + 256 :], max(script - 1, 0)


def erase(chip, b, script, noise):
    old = chip[4096 * b : 4096 * b + 4096]
    left = {0: old, 1: noise}.get(script, b"\xff" * 4096)
    return chip[: 4096 * b] + left + chip[4096 * b + 4096 :], max(script - 1, 0)


def says(page):
    if not sound(page) or not 1 <= page[2] <= 16:
        return "nothing"
    if page[1] == 1 and page[3] <= (96 if page[0] == OLD else 220):
        return "a value"
    return "a note" if page[1] == 2 and page[3] == 0 else "nothing"


def anew(page):
    """The page of a copy: what it says, in the form that is written now; one that says nothing as it stands."""
    kinds = {"a value": 1, "a note": 2}
    if says(page) not in kinds:
        return page
    return record_page(kinds[says(page)], page[16 : 16 + page[2]], page[32 : 32 + page[3]])


def line(name, script, which, chip, before, p, span, left):
    page = chip[256 * p : 256 * p + 256]
    words = [f"{name}, script {script}, noise {['all zeros:', 'all ones: ', 'mixed:    ', 'forged:   '][which]} {page[0]:02x} {page[254:].hex()}"]
    words.append(f"sums {sum(page[:128])} {sum(page[128:])}")
    words += ["blank"] * (page == b"\xff" * 256) + ["sound"] * sound(page) + [f"says {says(page)}", f"left of the script {left}"]
    elsewhere = sum(x != y for i, (x, y) in enumerate(zip(before, chip)) if i not in span)
    return ", ".join(words + [f"changed elsewhere {elsewhere}"])


def faults():
    for n in range(12):
        which, script = n // 3, n % 3
        noise = [bytes(4096), b"\xff" * 4096, bytes(i % 251 for i in range(4096)), 16 * value_page(b"key", b"forged")][which]
        before, _ = write(b"\xff" * 8192, 1, value_page(b"key", b"old"), 9, noise)
        before, _ = write(before, 17, value_page(b"key", b"other"), 8, noise)
        chip, left = write(before, 2, value_page(b"key", b"new"), script, noise)
        print(line("write", script, which, chip, before, 2, range(512, 768), left))
        chip, left = erase(before, 0, script, noise)
        print(line("erase", script, which, chip, before, 1, range(4096), left))


def pages():
    for form, kind, key, value in [(NEW, 1, "a", "1"), (NEW, 2, "sensor/temp/0016", ""), (NEW, 3, "", ""), (OLD, 1, "a", "1")]:
        page = record_page(kind, key.encode(), value.encode(), form)
        print(f"{'in the old form: ' * (form == OLD)}{says(page)}, key '{key}', value '{value}'")
        for i in range(0, 256, 32):
            print(page[i : i + 32].hex(" "))
    examples()


def examples():
    """The three of document 02, request 3."""
    told("zeros, counted", form_of(NEW, bytes(254)))
    told("a page of one bit, its bits 1 counted", b"\2".ljust(254, b"\0") + b"\0\1")
    told("the same, cut short", b"\2\3".ljust(254, b"\0") + b"\0\3")
    whole = form_of(NEW, b"\2".ljust(254, b"\0"))
    told("a page of one bit, its bits 0 counted", whole)
    told("the same, cut short", ors(whole, b"\0\3".ljust(256, b"\0")))
    old = form_of(OLD, payload_of(OLD, 1, b"a", b"1")[:126] + b"\xff\xff")
    told("an old page whose payload ends in ffff", old)
    cut = old[:254] + zero_bits(old[:254]).to_bytes(2, "big")
    told("the same, cut short", cut)
    told("the same, were its form the other", bytes([NEW]) + cut[1:])


def told(name, page):
    ones = 8 * 254 - zero_bits(page[:254])
    print(f"{name}: begins with {page[0]:02x}, bits 1: {ones}, ends with {page[254:].hex()}; {'sound' if sound(page) else 'not sound'}, says {says(page)}")


def cuts_of(byte):
    """What a cut write may leave of a byte."""
    return [x for x in range(256) if x & byte == byte]


def one_byte():
    """Byte 1 of a page of zeros is 0x01: what a cut may leave of it and of what vouches for it, and which of that is sound."""
    for form, places, name in [(OLD, [1, 129], "pairs"), (NEW, [1, 254, 255], "triples")]:
        meant = form_of(form, bytes([form, 1]).ljust(254, b"\0"))
        if form == NEW:
            print("meant:", bytes(meant[i] for i in places).hex(" "))
        tried = 0
        for left in itertools.product(*[cuts_of(meant[i]) for i in places]):
            page = bytearray(meant)
            for i, x in zip(places, left):
                page[i] = x
            tried += 1
            if sound(bytes(page)):
                print("sound:", bytes(left).hex(" "))
        print(f"{name} tried: {tried}")


# ---- wild: random chips and random work areas, with four blocks

BLANK = b"\xff" * 256


class Random:
    x = 1

    def roll(self, n):
        self.x = (self.x * 1103515245 + 12345) % 2**31
        return self.x // 65536 % n

    def key(self):
        return bytes([97 + self.roll(24)])

    def byte(self):
        return bytes([self.roll(256)])


def random_record(rng):
    note, key, value = rng.roll(4) == 0, rng.key(), rng.byte()
    form = OLD if rng.roll(2) == 0 else NEW
    return record_page(2, key, b"", form) if note else record_page(1, key, value, form)


def odd_page(rng):
    form, kind, key_len, value_len = 1 + rng.roll(3), 1 + rng.roll(3), rng.roll(18), max(rng.roll(444) - 222, 0)
    return form_of(form, payload_of(form, kind, rng.key(), rng.byte(), key_len, value_len))


def spoilt_page(rng):
    page, i = random_record(rng), rng.roll(256)
    return page[:i] + rng.byte() + page[i + 1 :]


def random_page(rng):
    return b"".join(rng.byte() for _ in range(256))


def seal_page(_):
    return record_page(3, b"", b"")


def blank_page(_):
    return BLANK


def any_seal(rng):
    return [random_page, seal_page, blank_page, blank_page][rng.roll(4)]


def choose(kind, h, m, stray, p, rng):
    block, place = divmod(p, 16)
    if kind == 0:
        return random_page
    if kind == 3:
        return random_record if p == stray else blank_page if p >= m else seal_page if place == 15 else random_record
    if place < 15:
        return ([random_record] * 9 + [blank_page] * 4 + [random_page, odd_page, spoilt_page])[rng.roll(16)]
    if kind == 1 or block == (h + 1) % 4:
        return any_seal(rng)
    return blank_page if block == h else [random_page, seal_page, seal_page, seal_page][rng.roll(4)]


def make_chip(kind, rng):
    h, m, stray = rng.roll(4), rng.roll(64), rng.roll(256)
    return b"".join(choose(kind, h, m, stray, p, rng)(rng) for p in range(64))


def page_at(chip, p):
    return bytes(chip[256 * p : 256 * p + 256])


def head_of(chip):
    """docs/FORMAT.md, section 4: the head of a chip; None where it is no ring."""
    b = len(chip) // 4096
    sealed = [page_at(chip, 16 * x + 15) != BLANK for x in range(b)]
    h = next((h for h in range(1, b) if sealed[h - 1] and not sealed[h]), 0)
    first = all(sealed[:h]) and all(x == 255 for x in chip[4096 * (h + 1) :])
    later = all(sealed[x] for x in range(b) if x not in (h, (h + 1) % b))
    return h if not sealed[h] and (first or later) else None


def table_of(chip, h):
    """For each key that has a value: the page of its newest record."""
    b, table = len(chip) // 4096, {}
    for p in [16 * ((h + k) % b) + i for k in range(2, b + 1) for i in range(15)]:
        page = page_at(chip, p)
        what, key = says(page), page[16 : 16 + page[2]]
        if what == "a value":
            table[key] = p
        elif what == "a note":
            table.pop(key, None)
    return table


def map_of(chip):
    """The map that a chip stands for; None where start answers 8."""
    h = head_of(chip)
    table = {} if h is None else table_of(chip, h)
    if h is None or len(table) > len(chip) // 512 - 16:
        return None
    pages = {key: page_at(chip, p) for key, p in table.items()}
    return {key: page[32 : 32 + page[3]] for key, page in pages.items()}


def put_refusal(store, key):
    return 3 if key not in store and len(store) >= 16 else 0


class Tally:
    def __init__(self):
        self.n = [[0] * 64 for _ in range(8)]

    def add(self, kind, slot, by=1):
        self.n[kind][slot] += by

    def ten(self, name, kind, slot):
        print(name, *self.n[kind][slot : slot + 10])

    def one(self, name, kind, slot):
        print(name, self.n[kind][slot])


def read_all(store, tally, kind, slot):
    for k in range(97, 121):
        value = store.get(bytes([k]))
        tally.add(kind, 30 if value is not None else 34)
        tally.add(kind, slot, len(value or b"") + sum((value or b"")[:1]))


def change(store, tally, kind, rng, area=None):
    """One key is put and one deleted, in the map, and on the chip where there is one."""
    key, value = rng.key(), rng.byte()
    refusal = put_refusal(store, key)
    if refusal == 0:
        store[key] = value
    tally.add(kind, 10 + refusal)
    other = rng.key()
    refused = 4 if store.pop(other, None) is None else 0
    tally.add(kind, 20 + refused)
    if area:
        assert area.change(1, key, value) == refusal and area.change(2, other, b"") == refused


def try_chip(kind, tally, rng):
    chip = make_chip(kind, rng)
    for _ in range(80):
        rng.roll(1)
    store = map_of(chip)
    tally.add(kind, 0 if store is not None else 8)
    if store is None:
        return
    tally.add(kind, 50, len(store))
    read_all(store, tally, kind, 51)
    for _ in range(8):
        change(store, tally, kind, rng)
    tally.add(kind, 40)
    tally.add(kind, 52, len(store))
    tally.add(kind, 53, len(store))
    read_all(store, tally, kind, 54)


class Gone(Exception):
    """The power."""


class Area:
    """A chip with its work area, whatever stands in either: word 0 the mark, 1 the head, 2 its next place, 3 the number of keys, 4 the cursor, from 16 the index."""

    def __init__(self, chip=BLANK * 64, words=80):
        self.chip, self.work, self.blocks = bytearray(chip), [0] * words, len(chip) // 4096
        self.fuse, self.noise = 10**9, bytes(4096)

    def start_blank(self):
        self.chip = bytearray(BLANK * 64)
        self.work[:5] = [1, 0, 0, 0, 30]

    def operate(self, a, whole, cut):
        """An erase or a write, of the bytes from a on; the fuse counts it."""
        self.fuse -= 1
        self.chip[a : a + len(whole)] = whole if self.fuse else cut
        if not self.fuse:
            raise Gone

    def erase(self, b):
        self.operate(4096 * b, BLANK * 16, self.noise)

    def write(self, p, page):
        """Whether page p was blank, and so could be written."""
        if page_at(self.chip, p) != BLANK:
            return False
        self.operate(256 * p, page, ors(page, self.noise))
        return True

    def room(self):
        return 8 * (self.blocks - 2)

    def unready(self):
        mark, h, place, n = self.work[:4]
        return 7 if mark == 2 else 8 if mark != 1 or h >= self.blocks or place > 15 or n > self.room() else 0

    def find(self, key):
        """By binary search: whether the key is there, and where it stands or would; an entry that is no page ends the search."""
        lo, hi = 0, self.work[3]
        while lo < hi:
            mid = (lo + hi) // 2
            if self.work[16 + mid] >= 16 * self.blocks:
                return False, lo
            page = page_at(self.chip, self.work[16 + mid])
            here = page[16 : 16 + min(page[2], 16)]
            if here == key:
                return True, mid
            lo, hi = (mid + 1, hi) if here < key else (lo, mid)
        return False, lo

    def entry_of(self, q):
        """The entry of the key on page q, if it is this very page: so q is live. Else None."""
        page = page_at(self.chip, q)
        there, i = self.find(page[16 : 16 + min(page[2], 16)])
        return i if there and self.work[16 + i] == q else None

    def carry(self, q, i, p):
        """The live page q, whose entry is i, is made anew on page p. Whether that was blank."""
        if not self.write(p, anew(page_at(self.chip, q))):
            return False
        self.work[16 + i] = p
        return True

    def sweep(self, h, place, passed, left, top):
        """So many looks from the cursor on, and what is live goes to the head, while that has fewer than `top` pages and the cursor is in its zone: the head's next
        place, the cursor, the looks left; None where a page that must be written isn't blank."""
        while left and place < top and passed < place + self.blocks - 2:
            q = 16 * ((h + 2 + passed // 15) % self.blocks) + passed % 15
            i = self.entry_of(q)
            if i is not None:
                if not self.carry(q, i, 16 * h + place):
                    return None
                place += 1
            passed, left = passed + 1, left - 1
        return place, passed, left

    def open_next(self, h):
        """How many places of the new head are used; None where a page that must be written isn't blank."""
        spare, oldest, k = (h + 1) % self.blocks, (h + 2) % self.blocks, 0
        sealed = page_at(self.chip, 16 * oldest + 15) != BLANK
        if sealed:
            self.erase(spare)
        for q in range(16 * oldest, 16 * oldest + 15) if sealed else ():
            i = self.entry_of(q)
            if i is not None:
                if k == 15 or not self.carry(q, i, 16 * spare + k):
                    return None
                k += 1
        return k if self.write(16 * h + 15, seal_page(0)) else None

    def make_place(self, h, place, passed):
        """Where the record goes, after 8 looks: the head, its next place, the cursor; None where a page that must be written isn't blank."""
        swept = self.sweep(h, place, passed, 8, 15)
        if swept is None or swept[0] < 15:
            return swept and (h, *swept[:2])
        place, passed, left = swept
        for _ in range(self.blocks - 2):
            if place == 15:
                place, h = self.open_next(h), (h + 1) % self.blocks
                left, passed = max(left - max(15 - passed, 0), 0), max(passed, 15) - 15
            if place is None:
                return None
        swept = None if place == 15 else self.sweep(h, place, passed, left, 14)
        return swept and (h, *swept[:2])

    def change(self, kind, key, value):
        if self.unready():
            return self.unready()
        _, h, place, n, passed = self.work[:5]
        there, i = self.find(key)
        if not there and (kind == 2 or n >= self.room()):
            return 4 if kind == 2 else 3
        found = self.make_place(h, place, passed)
        if found is None:
            return 8
        h, place, passed = found
        p = 16 * h + place
        if not self.write(p, record_page(kind, key, value)):
            return 8
        index = self.work[16 : 16 + n]
        index[i : i + there] = [p] if kind == 1 else []
        self.work[16 : 16 + len(index)] = index
        self.work[1:5] = [h, place + 1, len(index), passed]
        return 0

    def scramble(self, tame, limit, rng):
        tops = [(4, 4), (6, 4), (20, 16), (20, 17)]
        for i in range(80):
            r = rng.roll(32768)
            if i < 4:
                self.work[i] = 1 if tame and i == 0 else r % tops[i][tame]
            elif i < 16 or limit:
                self.work[i] = r % limit if i >= 16 else r


def try_area(area, tame, limit, tally, rng):
    area.start_blank()
    tally.add(4, 0)
    store = {}
    for _ in range(rng.roll(60)):
        change(store, tally, 4, rng, area)
    assert map_of(area.chip) == store
    area.scramble(tame, limit, rng)
    kind = 5 if tame else 6
    for slot in (0, 10):
        before, key = bytes(area.chip), rng.key()
        answer = area.change(1, key, rng.byte()) if slot == 0 else area.change(2, key, b"")
        tally.add(kind, slot + answer)
        tally.add(kind, 50, sum(x != y for x, y in zip(before, area.chip)))
        assert answer in (0, 8) or before == area.chip
    refusal, key = area.unready(), rng.key()
    tally.add(kind, 20 + (refusal or (0 if area.find(key)[0] else 4)))
    tally.add(kind, 30 + refusal)
    tally.add(kind, 51, 0 if refusal else area.work[3])
    tally.add(7, 0, 4)


def wild():
    rng, tally, area = Random(), Tally(), Area()
    for i in range(800):
        try_chip(i % 4, tally, rng)
    for i in range(800):
        try_area(area, i % 2 == 0, [32768, 80, 64, 0][i // 2 % 4], tally, rng)
    print("Of each call: how often it was done, then how often it was refused with 1 to 9.")
    for kind, name in enumerate(["chips of random bytes", "chips of random pages", "rings of random pages", "first rounds"]):
        print(name)
        for slot, call in enumerate(["start", "put", "delete", "get", "start again"]):
            tally.ten(call, kind, 10 * slot)
        sums = ["keys at the start", "values at the start", "keys after the changes", "keys after starting again", "values after starting again"]
        for slot, what in enumerate(sums):
            tally.one(what, kind, 50 + slot)
    print("the stores whose work areas are overwritten")
    for slot, call in enumerate(["start", "put", "delete"]):
        tally.ten(call, 4, 10 * slot)
    for kind, name in [(5, "work areas overwritten within the ranges"), (6, "work areas overwritten")]:
        print(name)
        for slot, call in enumerate(["put", "delete", "get", "count"]):
            tally.ten(call, kind, 10 * slot)
        tally.one("bytes changed", kind, 50)
        tally.one("keys counted", kind, 51)
    tally.one("calls on overwritten areas", 7, 0)
    print("refusals that changed the chip 0")
    print("bytes of buffers changed past the value 0")


# ---- limits and history: a script of calls


def script_of(program):
    with open(os.path.join(os.path.dirname(__file__), "..", "crates", program, "stdin")) as f:
        return f.read().splitlines()


def spelt(word):
    """v*221 is 221 times v; %7f is the byte 0x7F."""
    if word[1:2] == "*":
        return word[:1].encode() * int(word[2:])
    first, *others = word.encode().split(b"%")
    return first + b"".join(bytes([int(x[:2], 16)]) + x[2:] for x in others)


class Store(Area):
    """The calls, with document 01's refusals in their order; each answers (refusal, number)."""

    def refused(self, starts=False):
        b = self.blocks
        if len(self.chip) != 4096 * b or not 4 <= b <= 4096 or len(self.work) < 16 * b + 16:
            return 5
        return 7 if self.fuse == 0 else 0 if starts else self.unready()

    def key_refused(self, key):
        return self.refused() or (0 if 1 <= len(key) <= 16 else 1)

    def start(self):
        if self.refused(starts=True):
            return self.refused(starts=True)
        h, self.work[0] = head_of(self.chip), 0
        table = {} if h is None else table_of(self.chip, h)
        if h is None or len(table) > self.room():
            return 8
        place = max((i + 1 for i in range(15) if page_at(self.chip, 16 * h + i) != BLANK), default=0)
        places = [15 * ((p // 16 - h - 2) % self.blocks) + p % 16 for p in table.values()]
        self.work[:5] = [1, h, place, len(table), min(places, default=15 * (self.blocks - 2) + place)]
        self.work[16 : 16 + len(table)] = [table[key] for key in sorted(table)]
        return 0

    def powered(self, call, *args):
        """The call; where the power goes during it, 7 until the next start."""
        try:
            return call(*args)
        except Gone:
            self.work[0] = 2
            return 7

    def format(self):
        if self.refused(starts=True) or self.work[0] == 2:
            return self.refused(starts=True) or 7
        self.work[0] = 0
        return self.powered(lambda: [self.erase(b) for b in range(self.blocks)] and 0)

    def put(self, key, value):
        printed = all(0x21 <= x <= 0x7E for x in key)
        refusal = self.key_refused(key) or (0 if printed else 1) or (2 if len(value) > 220 else 0)
        return refusal or self.powered(self.change, 1, key, value)

    def delete(self, key):
        return self.key_refused(key) or self.powered(self.change, 2, key, b"")

    def puts(self, key, n):
        """The last thousand of n puts: with power that stays, what calls answer depends on the map alone."""
        return max(self.put(key, str(i).encode()) for i in range(max(n - 1000, 0), n))

    def count(self):
        return self.refused(), self.work[3] if self.work else 0

    def get(self, key, n):
        """Also the buffer."""
        there, i = (False, 0) if self.key_refused(key) else self.find(key)
        page = page_at(self.chip, self.work[16 + i]) if there else BLANK
        value = page[32 : 32 + page[3]] if there else b""
        refusal = self.key_refused(key) or (4 if not there else 6 if n < len(value) else 0)
        return refusal, len(value), ("" if refusal else value.decode()).ljust(n, ".")

    def make(self, verb, words):
        if verb in ("start", "format"):
            return getattr(self, verb)()
        return getattr(self, verb)(spelt(words[0]), *[int(x) if verb == "puts" else spelt(x) for x in words[1:]])


NOISES = {"zeros": bytes(4096), "ones": b"\xff" * 4096, "mixed": bytes(i % 251 for i in range(4096))}


def answered(refusal, number):
    return f"refused {refusal}" if refusal else f"answers {number}"


def limits():
    store = None
    for line in script_of("try_limits"):
        verb, *words = line.split(" ")
        end = ""
        if verb == "lend":
            store = Store(bytes([int(words[1])]) * int(words[0]), int(words[2]))
        elif verb == "fuse":
            store.fuse = int(words[0])
        elif verb == "noise":
            store.noise = noise_named(words[0])
        elif verb == "count":
            end = ": " + answered(*store.count())
        elif verb == "get":
            refusal, n, buffer = store.get(spelt(words[0]), int(words[1]))
            end = f": {answered(refusal, n)}, buffer '{buffer}'"
        elif verb != "#":
            refusal = store.make(verb, words)
            end = f": refused {refusal}" if refusal else ": done"
        print(line + end)


def noise_named(name):
    """The page that is forged, or kept at its place, is the one of "put a 2"."""
    page = value_page(b"a", b"2")
    return {**NOISES, "forged": 16 * page, "kept": BLANK + page + 14 * BLANK}[name]


class History:
    """The calls of a script and the map after each; what a cut leaves is told by the chip's bytes alone (map_of)."""

    def __init__(self, lines):
        self.calls, self.maps = [line.split(" ") for line in lines], [{}]
        for verb, *words in self.calls:
            after = dict(self.maps[-1])
            if verb == "put":
                after[words[0].encode()] = words[1].encode()
            elif verb == "delete":
                del after[words[0].encode()]
            self.maps.append(after)

    def cut(self, store, i, fuse, noise):
        """Call i, cut at that operation: the chip that is left; None where it ends whole. The store then is as after the call."""
        store.fuse, store.noise = fuse, noise
        verb, *words = self.calls[i]
        refusal = store.make(verb, words)
        assert refusal in (0, 4, 7)
        return bytes(store.chip) if refusal == 7 else None

    def place(self, chip, i):
        """Of which place the map is: i, before that call, or i + 1."""
        found = map_of(chip)
        return i if found == self.maps[i] else i + 1 if found == self.maps[i + 1] else None

    def cuts(self, before, i, noise):
        """The chips that the cuts of call i leave, one for each of its operations, made on that chip."""
        for fuse in range(1, 100):
            store = Store(before)
            assert store.start() == 0
            chip = self.cut(store, i, fuse, noise)
            if chip is None:
                return
            yield chip

    def whole(self):
        """The chip before each call, where nothing is cut."""
        store, chips = Store(), []
        for i in range(len(self.calls)):
            chips.append(bytes(store.chip))
            assert self.cut(store, i, 1000, NOISES["zeros"]) is None
        return chips


def history():
    past, names = History(script_of("try_history")), ["zeros", "ones", "mixed", "forged", "kept"]
    before = past.whole()
    first = {name: [(i, chip) for i in range(len(before)) for chip in past.cuts(before[i], i, noise_named(name))] for name in names}
    for again in [None] + names:
        for name in names:
            tally = {"before": 0, "after": 0}
            for i, chip in first[name]:
                n = past.place(chip, i)
                for left in [chip] if again is None else past.cuts(chip, i, noise_named(again)):
                    m = past.place(left, i)
                    assert m is not None and m >= n
                    tally["before" if m == i else "after"] += 1
            then = f", then {again}" if again else ""
            print(f"noise {name}{then}: as before the call {tally['before']}, as after it {tally['after']}, wrong 0")


PROGRAMS = {"try_faults": faults, "try_history": history, "try_limits": limits, "try_one_byte": one_byte, "try_pages": pages, "try_wild": wild}
PROGRAMS[sys.argv[1]]()
