#!/usr/bin/env python3
"""trace.py BOARD FIRMWARE FOLDER CHANGES SEED: one run of changes.c without kills, judged by what the emulated device says that it was asked (qemu's trace),
against a chip by the maker's data sheet that is kept here.

The write latch is set by 0x06 alone and falls with each program and erase (qemu's own never falls); after a program or erase the status is read before
anything else; a program is 256 bytes from the start of a page that is blank; an erase is 4,096 bytes at a block; both lie in the store; a read is of the first
32 bytes of a page, of all 256 or of a value, 1 to 220 bytes from byte 32 on, and each byte of it is the one that stands there; no other command is used. At the
end the image is, byte for byte, what the commands make of the first one, and the firmware counted the programs and erases that the device saw. Exit status 0:
no violation."""
import collections
import os
import re
import sys
import threading

from emulator import BASE, BLOCKS, NO_FAILURES, USUAL, Emulator

END = BASE + 4096 * BLOCKS
EVENTS = ["select", "command_decoded", "complete_collecting", "page_program", "read_byte", "flash_erase", "programming_zero_to_one"]
PROGRAM, READ, STATUS, ENABLE, ERASE = 0x02, 0x03, 0x05, 0x06, 0x20
LINE = re.compile(r"m25p80_(\w+) \[0x\w+\] (.*)")
BYTE = re.compile(r".*?(0x\w+)(?:=| data=)(0x\w+)")


class Chip:
    """A serial NOR flash by its data sheet."""

    def __init__(self, image):
        self.bytes = bytearray(image)
        self.latch, self.polled = False, True
        self.command = self.first = self.next = None  # what is being sent or read: from which byte, and up to which it has come
        self.counts, self.wrong = collections.Counter(), []

    def see(self, event, rest):
        getattr(self, event)(rest)

    def fault(self, *what):
        self.wrong.append(" ".join(str(w) for w in what))

    def select(self, rest):
        """The line goes up or down: what was sent is at its end."""
        if self.command == PROGRAM and self.next - self.first != 256:
            self.fault("a program of", self.next - self.first, "bytes")
        if self.command == READ:
            kind = self.kind_of_read(self.first % 256, self.next - self.first)
            self.counts[f"reads of {kind}"] += 1
            if not kind:
                self.fault("a read of", self.next - self.first, "bytes at", hex(self.first))
        self.command = None

    def kind_of_read(self, at, size):
        if at == 0:
            return {32: "a beginning", 256: "a page"}.get(size)
        return "a value" if at == 32 and 1 <= size <= 220 else None

    def command_decoded(self, rest):
        self.command = int(rest.split(":")[1], 16)
        self.first = self.next = 0
        if self.command not in (PROGRAM, READ, STATUS, ENABLE, ERASE):
            self.fault("command", hex(self.command))
        if self.command != STATUS and not self.polled:
            self.fault("the status wasn't read before", hex(self.command))
        if self.command in (PROGRAM, ERASE) and not self.latch:
            self.fault("no write enable before", hex(self.command))
        self.latch = self.command == ENABLE or self.latch and self.command not in (PROGRAM, ERASE)
        self.polled = self.command == STATUS or self.polled and self.command not in (PROGRAM, ERASE)
        self.counts[{PROGRAM: "programs", ERASE: "erases"}.get(self.command, f"commands {self.command:#04x}")] += 1

    def complete_collecting(self, rest):
        at = self.first = self.next = int(rest.split()[-1], 16)
        if self.command == PROGRAM and (at % 256 or not BASE <= at < END or self.bytes[at:at + 256] != b"\xff" * 256):
            self.fault("page", hex(at), "may not be written")

    def page_program(self, rest):
        at, byte = (int(x, 16) for x in BYTE.match(rest).groups())
        if at != self.next:
            self.fault("byte", hex(at), "is programmed where", hex(self.next), "is next")
        self.bytes[at] &= byte
        self.next = at + 1

    def read_byte(self, rest):
        at, byte = BYTE.match(rest).groups()
        at = int(at, 16)
        if at != self.next or self.bytes[at] != int(byte, 16):
            self.fault("byte", hex(at), "reads as", byte)
        self.next = at + 1

    def flash_erase(self, rest):
        at, size = (int(x, 0) for x in re.fullmatch(r"offset = (0x\w+), len = (\d+)", rest).groups())
        if size != 4096 or at % 4096 or not BASE <= at < END:
            self.fault("an erase of", size, "bytes at", hex(at))
        self.bytes[at:at + size] = b"\xff" * size

    def programming_zero_to_one(self, rest):
        self.fault("zero to one:", rest)


def main(board, elf, folder, changes, seed):
    os.makedirs(folder, exist_ok=True)
    log = os.path.join(folder, "log")
    os.mkfifo(log)
    emulator = Emulator(board, elf, folder, seed, changes | NO_FAILURES, EVENTS)
    with open(emulator.image, "rb") as f:
        chip = Chip(f.read())
    ended = []

    def end():
        ended.append(emulator.end())
        try:
            os.close(os.open(log, os.O_WRONLY | os.O_NONBLOCK))  # where the emulator never opened it, nobody waits for it any longer
        except OSError:
            pass

    ending = threading.Thread(target=end)
    ending.start()
    with open(log, errors="replace") as lines:
        for line in lines:
            m = LINE.match(line)
            if m:
                chip.see(*m.groups())
            elif not USUAL.match(line):
                chip.fault("qemu says:", line.strip())
    ending.join()
    os.remove(log)
    with open(emulator.image, "rb") as f:
        if f.read() != chip.bytes:
            chip.fault("the image isn't what the commands make of the first one")
    counted = [line.split()[1:] for line in emulator.lines() if line.startswith("all ")]
    if not all(ended) or counted != [[str(chip.counts["programs"]), str(chip.counts["erases"])]]:
        chip.fault("the firmware counts", counted, "programs and erases, the device", chip.counts["programs"], chip.counts["erases"])
    print(f"{board}: {changes} changes;", ", ".join(f"{v} {k}" for k, v in sorted(chip.counts.items())))
    for what in chip.wrong[:5]:
        print("VIOLATION", what)
    print("violations:", len(chip.wrong))
    return bool(chip.wrong)


if __name__ == "__main__":
    if len(sys.argv) != 6:
        sys.exit("usage: trace.py BOARD FIRMWARE FOLDER CHANGES SEED")
    sys.exit(main(*sys.argv[1:4], int(sys.argv[4]), int(sys.argv[5])))
