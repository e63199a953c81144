#!/usr/bin/env python3
"""A computer on the bus of `drive1541 reply`: it writes a file to a drive, and reads the directory back.

Usage: reply_host.py DRIVE1541 IMAGE=OUT .. [--drive DEVICE:REACTION:PACE ..]: the path of the program, and its words after `reply`.
The file NOTE goes to each drive in its turn. Times are those of the bus profile, docs/bus.md; all are in microseconds.
"""
import subprocess
import sys

LISTEN, TALK, OPEN, DATA, CLOSE = 0x20, 0x40, 0xF0, 0x60, 0xE0
UNLISTEN, UNTALK = 0x3F, 0x5F


class Bus:
    """The three lines: who pulls each of them, and how far time has come."""

    def __init__(self, words):
        self.program = subprocess.Popen(words, stdin=subprocess.PIPE, stdout=subprocess.PIPE, text=True)
        self.pulls = {"atn": set(), "clock": set(), "data": set()}
        self.now = 0
        self.due = None

    def say(self, line):
        """Sends a line, and reads its answer."""
        self.program.stdin.write(line + "\n")
        self.program.stdin.flush()
        for answer in self.program.stdout:
            first, *words = answer.split()
            if first == "ready":
                self.now, self.due = int(words[0]), int(words[1]) if len(words) > 1 else None
                return
            if first == "error":
                raise SystemExit(answer)
            who, line, way = words
            if way == "pull":
                self.pulls[line].add(who)
            else:
                self.pulls[line].discard(who)
        raise SystemExit("the drives are gone")

    def change(self, moment, *changes):
        """Pulls or frees lines at a moment, as "clock pull", where they aren't so already."""
        for change in changes:
            line, way = change.split()
            if ("host" in self.pulls[line]) != (way == "pull"):
                self.say(f"{moment} {change}")

    def is_low(self, line):
        return bool(self.pulls[line])

    def wait(self, line, low, limit=1000):
        """Waits until a line is pulled, or free; returns whether it was within a limit."""
        limit += self.now
        while self.is_low(line) != low:
            if self.due is None or self.due > limit:
                self.say(f"until {limit}")
                return False
            self.say(f"until {self.due}")
        return True

    def end(self):
        """Ends the talk; the images are saved when the program has ended."""
        self.say(f"end {self.now + 1000}")
        self.program.stdin.close()
        return self.program.wait()


class Computer:
    """What a computer does with the lines."""

    def __init__(self, bus):
        self.bus = bus

    def send(self, byte, is_last=False):
        """A byte to all who hear."""
        bus = self.bus
        bus.change(bus.now + 100, "clock free")
        bus.wait("data", False)
        if is_last:
            bus.wait("data", True)
            bus.wait("data", False)
        moment = bus.now + 60
        for bit in range(8):
            bus.change(moment, "clock pull", "data free" if byte >> bit & 1 else "data pull")
            bus.change(moment + 30, "clock free")
            moment += 60
        bus.change(moment, "clock pull", "data free")
        if not bus.wait("data", True):
            raise SystemExit("no drive accepted the byte")

    def attention(self, *data):
        """Bytes in attention."""
        bus = self.bus
        bus.change(bus.now + 200, "atn pull", "clock pull", "data free")
        if not bus.wait("data", True):
            raise SystemExit("no drive is there")
        for byte in data:
            self.send(byte)

    def release(self, *last):
        """Ends attention, and any listening."""
        moment = self.bus.now + 60
        self.bus.change(moment, "atn free", *last)
        self.bus.say(f"until {moment + 100}")

    def write(self, device, secondary, text):
        """LISTEN, bytes of which the last one comes with EOI, UNLISTEN."""
        self.attention(LISTEN + device, secondary)
        self.release()
        for place, byte in enumerate(text):
            self.send(byte, place + 1 == len(text))
        self.stop(UNLISTEN)

    def stop(self, byte):
        self.attention(byte)
        self.release("clock free")

    def close(self, device, channel):
        self.attention(LISTEN + device, CLOSE + channel)
        self.release()
        self.stop(UNLISTEN)

    def take(self):
        """A byte of the talker, and whether it is the last; None if a drive of the pace `kernal` has nothing to send."""
        bus = self.bus
        bus.wait("clock", False)
        moment = bus.now + 10
        bus.change(moment, "data free")
        is_last = not bus.wait("clock", True, 256)
        if is_last:
            bus.change(bus.now + 1, "data pull")
            bus.change(bus.now + 60, "data free")
            if not bus.wait("clock", True):
                return None, False
        byte = 0
        for bit in range(8):
            bus.wait("clock", False)
            byte |= (not bus.is_low("data")) << bit
            bus.wait("clock", True)
        bus.change(bus.now + 50, "data pull")
        return byte, is_last

    def read(self, device, channel, most=200_000):
        """TALK, bytes up to EOI or a number of them, UNTALK. Returns the bytes, and whether the last one came with EOI."""
        bus = self.bus
        self.attention(TALK + device, DATA + channel)
        moment = bus.now + 60
        bus.change(moment, "data pull", "atn free")
        bus.change(moment + 20, "clock free")
        text, is_last = bytearray(), False
        if bus.wait("clock", True, 200):
            while not is_last and len(text) < most:
                byte, is_last = self.take()
                if byte is None:
                    break
                text.append(byte)
        self.stop(UNTALK)
        return bytes(text), is_last


def listing(program):
    """The lines of a directory: a number, and text, as BASIC links them."""
    lines, place = [], 2
    while len(program) >= place + 4 and program[place : place + 2] != b"\0\0":
        number = program[place + 2] + 256 * program[place + 3]
        end = program.index(0, place + 4)
        text = program[place + 4 : end].replace(b"\x12", b"").decode("latin-1")
        lines.append(f"{number} {text.rstrip()}")
        place = end + 1
    return lines


def devices(words):
    """The numbers of the drives: those that --drive names, and the others by their places."""
    named = [int(words[at + 1].split(":")[0]) for at, word in enumerate(words) if word == "--drive"]
    count = sum("=" in word for word in words)
    return named + list(range(8 + len(named), 8 + count))


def main():
    drive1541, *words = sys.argv[1:]
    bus = Bus([drive1541, "reply", *words])
    computer = Computer(bus)
    for device in devices(words):
        computer.write(device, OPEN + 2, b"NOTE,S,W")
        computer.write(device, DATA + 2, b"HELLO %d\r" % device)
        computer.close(device, 2)
        computer.write(device, OPEN, b"$")
        print(*listing(computer.read(device, 0)[0]), sep="\n")
        computer.close(device, 0)
        print(computer.read(device, 15)[0].decode("latin-1").rstrip("\r"))
    return bus.end()


if __name__ == "__main__":
    sys.exit(main())
