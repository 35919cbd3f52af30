"""What kills.py and trace.py share: an emulated board with a serial NOR flash. The flash's image is FOLDER/chip.img, what the board says on its serial line
goes to FOLDER/said."""
import atexit
import json
import os
import re
import socket
import subprocess
import sys
import time

BASE, BLOCKS = 0x100000, 16  # where the store lies on the chip
BOUND = {"erases": 8 * (BLOCKS - 2) // 15 + 1, "programs": 8 * (BLOCKS - 2) + BLOCKS}  # of a put or delete: include/floatstore.h
NO_FAILURES = 1 << 31  # in the limit: changes.c
BOARDS = {  # the machine, a chip that it takes (its maker's part has the five commands of nor.h), the bytes of that chip
    "ast1030": ("ast1030-evb,fmc-model=w25q32", 4 << 20),
    "ast1030-gd": ("ast1030-evb,fmc-model=gd25q32", 4 << 20),
    "ast1030-n25q": ("ast1030-evb,fmc-model=n25q032a13", 4 << 20),
    "ast1030-w25q64": ("ast1030-evb,fmc-model=w25q64", 8 << 20),
    "npcm750": ("npcm750-evb", 32 << 20),
}
# what qemu says of every firmware on these boards
USUAL = re.compile(r"Invalid read at addr 0x[04], size 4, region '\(null\)', reason: rejected"
                   r"|aspeed_timer_ctrl_pulse_enable: Timer does not support pulse mode")


class Emulator:
    """One run of the firmware. Of the device's own trace the EVENTS are written to FOLDER/log, with what qemu has to say of the firmware."""

    def __init__(self, board, elf, folder, seed, limit, events):
        if board not in BOARDS:
            sys.exit(f"there is no board {board}; there are: {' '.join(BOARDS)}")
        os.makedirs(folder, exist_ok=True)
        self.image, self.said, self.log, self.qmp = (os.path.join(folder, name) for name in ("chip.img", "said", "log", "qmp"))
        machine, size = BOARDS[board]
        if not os.path.exists(self.image):
            with open(self.image, "wb") as f:
                f.write(b"\xff" * size)
        for name in (self.said, self.qmp):
            if os.path.exists(name):
                os.remove(name)
        words = ["qemu-system-arm", "-M", machine, "-display", "none", "-monitor", "none", "-serial", "file:" + self.said]
        words += ["-drive", f"file={self.image},if=mtd,format=raw", "-kernel", elf, "-d", "guest_errors", "-D", self.log]
        words += ["-qmp", f"unix:{self.qmp},server=on,wait=off"]
        for place, word in ((0x40000, seed), (0x40004, limit)):
            words += ["-device", f"loader,addr={place},data={word},data-len=4"]
        for event in events:
            words += ["-trace", "m25p80_" + event]
        self.process = subprocess.Popen(words, stdin=subprocess.DEVNULL)
        atexit.register(lambda: self.process.poll() is None and self.process.kill())

    def ask(self, command):
        """A command of QMP, once the emulator listens; it may end with it."""
        line = socket.socket(socket.AF_UNIX)
        for _ in range(200):
            try:
                line.connect(self.qmp)
                break
            except OSError:
                time.sleep(0.01)
        else:
            sys.exit("VIOLATION the emulator doesn't listen")
        f = line.makefile("rw")
        f.readline()
        for c in ("qmp_capabilities", command):
            f.write(json.dumps({"execute": c}) + "\n")
            f.flush()
            while (answer := f.readline()) and "return" not in json.loads(answer):
                pass

    def lines(self):
        """What the firmware has said, whole lines."""
        if not os.path.exists(self.said):
            return []
        with open(self.said, encoding="latin-1", newline="\n") as f:
            return f.read().split("\n")[:-1]

    def kill(self):
        """As the power goes. First the processor is stopped, and what the device has done is written to its image: qemu writes behind, and would lose it."""
        self.ask("stop")
        self.process.kill()
        self.process.wait()

    def end(self, seconds=60):
        """Waits until the firmware has come to its end; answers whether it has."""
        until = time.time() + seconds
        while time.time() < until and self.process.poll() is None and not any(line.startswith("end ") for line in self.lines()[-1:]):
            time.sleep(0.02)
        if self.process.poll() is None:
            self.ask("quit")
        self.process.wait()
        return self.lines()[-1:] == ["end 0"]


if __name__ == "__main__":  # emulator.py BOARD FIRMWARE FOLDER: what the firmware says, from its begin to its end
    run = Emulator(*sys.argv[1:4], 0, 0, [])
    well = run.end()
    print("\n".join(run.lines()))
    with open(run.log, errors="replace") as f:
        print("".join(line for line in f if not USUAL.match(line)), end="")
    sys.exit(not well)
