#!/usr/bin/env python3
"""kills.py BOARD FIRMWARE FOLDER KILLS SEED: the firmware of changes.c on an emulated board, killed at KILLS random moments and begun again on the same chip.

After each start, the emulator's or one in it, the map that the firmware says must be the one after all acknowledged changes, with or without the one that had
begun. Each answer and each get must be that of a plain map; a change does at most the operations that include/floatstore.h states, a refused one none; after a
failure of the driver all calls answer -7 and ask the chip nothing. By its trace the device programs blank bytes only, erases blocks of 4,096 and nothing
outside the store, and sees the erases that the firmware counts; and qemu has nothing else to say. At the end FOLDER/map.json is the map, FOLDER/store.img the
store's part of the chip. Exit status 0: no violation.

A kill may come within a page program. qemu has that page in its memory only, so it is written to the image here, byte by byte as the device's trace says: what
a real chip may have at that moment. All other bytes of the image must be what the trace says."""
import collections
import json
import os
import random
import re
import sys
import time

from emulator import BASE, BLOCKS, BOUND, NO_FAILURES, USUAL, Emulator

ROOM = 8 * (BLOCKS - 2)
counts = collections.Counter()
failures = collections.Counter()


def changed(plain, change):
    """The map after a change, and what that answers."""
    key = change[1]
    if change[0] == "put" and (key in plain or len(plain) < ROOM):
        return {**plain, key: change[2]}, 0
    if change[0] == "delete" and key in plain:
        return {k: v for k, v in plain.items() if k != key}, 0
    return plain, -3 if change[0] == "put" else -4


class Judge:
    """Hears what the firmware says. The map may be one of self.maps: one, or two where a change had begun."""

    def __init__(self):
        self.maps, self.begun, self.heard = [{}], None, None
        self.run = self.erases = 0

    def wrong(self, *what):
        counts["violations"] += 1
        if counts["violations"] <= 10:
            print("VIOLATION after", self.run, "kills:", *what, flush=True)

    def cut(self):
        """The power went, or the driver failed: the change that had begun may be done or not."""
        if self.begun:
            after, answer = changed(self.maps[0], self.begun)
            if answer == 0:
                self.maps = [self.maps[0], after]
            counts["changes cut short"] += 1
        self.begun = None

    def boot(self, words):
        self.cut()
        counts["boots"] += 1

    def start(self, words):
        self.cut()
        self.heard = {}
        counts["starts"] += 1
        counts["starts that met spoilt pages"] += int(words[3]) > 0
        if words[0] != "0":
            self.wrong("a start answers", words[0])

    def key(self, words):
        if words[0] in self.heard:
            self.wrong("key", words[0], "is said twice")
        self.heard[words[0]] = words[1]

    def keys(self, words):
        if int(words[0]) != len(self.heard) or self.heard not in self.maps:
            self.wrong("the map is none of", len(self.maps), "but differs in", *[sorted(set(self.heard.items()) ^ set(m.items()))[:3] for m in self.maps])
        if len(self.maps) == 2:
            counts["found as after the change" if self.heard == self.maps[1] else "found as before the change"] += 1
        self.maps, self.heard = [self.heard], None
        counts["maps compared"] += 1

    def get(self, words):
        has = self.maps[0].get(words[0])
        if words[1:] != (["-4", ""] if has is None else [str(len(has)), has]):
            self.wrong("a get says", words)
        counts["gets"] += 1

    def begin(self, words):
        self.begun = words[1:]

    def done(self, words):
        after, answer = changed(self.maps[0], self.begun)
        programs, erases = int(words[2]), int(words[3])
        if int(words[1]) != answer:
            self.wrong("change", words[0], "answers", words[1], "and should answer", answer)
        if answer and programs + erases or programs > BOUND["programs"] or erases > BOUND["erases"]:
            self.wrong("change", words[0], "does", programs, "programs and", erases, "erases")
        self.maps, self.begun = [after], None
        self.erases += erases
        counts["changes"] += answer == 0
        counts["changes refused"] += answer != 0
        counts["programs"] += programs

    def failure(self, words):
        failures[words[0]] += 1
        self.erases += words[0][:5] == "erase" and words[0] != "erase0"

    def after(self, words):
        counts["failures that the driver answered"] += 1
        if words != ["-7", "-7", "-7", "0"]:
            self.wrong("after a failure the calls answer and do", words)

    def hear(self, lines, killed):
        """The lines of one emulator."""
        self.erases, self.heard = 0, None
        for line in lines:
            word, *words = line.split(" ")
            if word in ("boot", "start", "key", "keys", "get", "begin", "done", "failure", "after"):
                getattr(self, word)(words)
            elif word not in ("all", "end"):
                self.wrong("the firmware says", line)
        if killed:
            counts["kills in a change" if self.begun else "kills in a start" if self.heard is not None else "kills between changes"] += 1
        self.cut()



class Device:
    """The chip's bytes, by what the device says of each byte that it programs and each block that it erases."""

    LINE = re.compile(r"m25p80_page_program \S+ page program cur_addr=(\w+) data=(\w+)|m25p80_flash_erase \S+ offset = (\w+), len = (\d+)|(.*)")

    def __init__(self, judge):
        self.judge, self.bytes, self.last = judge, None, 0

    def program(self, at, byte):
        if self.bytes[at] != 0xFF or not BASE <= at < BASE + 4096 * BLOCKS:
            self.judge.wrong("byte", hex(at), "is programmed, and isn't blank or not in the store")
        self.bytes[at] &= byte
        self.last = at
        self.touch([at // 256])

    def erase(self, at, size):
        if size != 4096 or at % 4096 or not BASE <= at < BASE + 4096 * BLOCKS:
            self.judge.wrong(size, "bytes are erased at", hex(at))
        self.bytes[at:at + size] = b"\xff" * size
        self.last = 255
        self.touch(list(range(at // 256, (at + size) // 256)))

    def touch(self, pages):
        """The pages of the last operations: the emulator writes its image beside its work, and a kill may come before they are in it. A put programs ten at most"""
        if self.recent[-1:] != [pages]:
            self.recent = self.recent[-9:] + [pages]

    def follow(self, log, image, killed):
        """One run of the emulator, by its log. The image is brought up to it."""
        if self.bytes is None:
            self.bytes = bytearray(b"\xff" * os.path.getsize(image))
        seen, self.last, self.recent = 0, 255, []
        with open(log, errors="replace") as lines:
            for line in lines:
                programmed, byte, erased, size, other = self.LINE.fullmatch(line.rstrip("\n")).groups()
                if programmed:
                    self.program(int(programmed, 16), int(byte, 16))
                elif erased:
                    self.erase(int(erased, 16), int(size))
                    seen += 1
                elif not USUAL.fullmatch(other):
                    self.judge.wrong("qemu says", other)
        told = self.judge.erases
        if not told <= seen <= told + (BOUND["erases"] if killed else 0):
            self.judge.wrong("the firmware counts", told, "erases, the device", seen)
        counts["erases that the device saw"] += seen
        self.write(image)

    def write(self, image):
        page = self.last // 256 if self.last % 256 != 255 else None  # the one that was being programmed
        counts["kills within a page program"] += page is not None
        with open(image, "r+b") as f:
            held = f.read()
            behind = [p for p in range(len(held) // 256) if held[256 * p:256 * p + 256] != self.bytes[256 * p:256 * p + 256]] if held != self.bytes else []
            if not set(behind) <= set(sum(self.recent, [])):
                self.judge.wrong("the image lacks pages that the device has:", behind[:5])
            f.seek(0)
            f.write(self.bytes)


def main(board, elf, folder, kills, seed):
    chance = random.Random(seed)
    judge = Judge()
    device = Device(judge)
    began = time.time()
    for judge.run in range(kills + 1):
        killed = judge.run < kills
        limit = 0 if killed else NO_FAILURES | 40
        emulator = Emulator(board, elf, folder, chance.getrandbits(31), limit, ["flash_erase", "page_program", "programming_zero_to_one"])
        if killed:
            time.sleep(chance.uniform(0.12, 0.7))
            emulator.kill()
        elif not emulator.end():
            judge.wrong("the firmware doesn't come to its end")
        judge.hear(emulator.lines(), killed)
        device.follow(emulator.log, emulator.image, killed)
        if counts["violations"] > 10:
            break
    with open(os.path.join(folder, "map.json"), "w") as f:
        json.dump(judge.maps[0], f, indent=0, sort_keys=True)
    with open(emulator.image, "rb") as chip, open(os.path.join(folder, "store.img"), "wb") as store:
        chip.seek(BASE)
        store.write(chip.read(4096 * BLOCKS))
    print(f"{board}: {judge.run} kills in {time.time() - began:.0f} s;", ", ".join(f"{v} {k}" for k, v in sorted(counts.items())))
    print("failures played:", ", ".join(f"{k} {v}" for k, v in sorted(failures.items())))
    print("violations:", counts["violations"])
    return counts["violations"] > 0


if __name__ == "__main__":
    if len(sys.argv) != 6:
        sys.exit("usage: kills.py BOARD FIRMWARE FOLDER KILLS SEED")
    sys.exit(main(*sys.argv[1:4], int(sys.argv[4]), int(sys.argv[5])))
