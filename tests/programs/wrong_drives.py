#!/usr/bin/env python3
"""wrong_drives.py NAME COMMAND..: a drive that is wrong in one point. COMMAND, a drive1541 that reads a script from standard input, is the right one; this
program stands between the computer and it, and changes lines of the script or answers. check_suite.py plays the suite over each of them."""
import os
import re
import subprocess
import sys

sys.path.insert(0, os.path.join(os.path.dirname(os.path.realpath(__file__)), "../../tools/lib"))
from suite import build, transcripts

# Wrong drives: a name, what is done with a line (None drops it) or with an answer of a channel but 15, and a case that tells it.
WRONG = {
    "EOI comes with every byte": ("bytes", lambda values, end: (values, True), "reads: a program is read"),
    "a return comes as a line feed": ("bytes", lambda values, end: ([10 if it == 13 else it for it in values], end), "rows: a file without a byte gets a return"),
    "SCRATCH does nothing": ("line", lambda line: drop(line, "put 15 S"), "commands: files are scratched but for a locked one"),
    "SCRATCH takes the first pattern only": ("line", lambda line: re.sub(r"^(put 15 S[^,]*),.*", r"\1", line), "commands: several patterns and none that matches"),
    "RENAME does nothing": ("line", lambda line: drop(line, "put 15 R"), "commands: a file gets another name"),
    "VALIDATE does nothing": ("line", lambda line: drop(line, "put 15 V"), "validate: blocks of a file that was never closed come back"),
    "a short NEW does nothing": ("line", lambda line: None if re.match(r"put 15 N[^,]*$", line) else line, "formats: without an id the old one stays"),
    "COPY takes the first file only": ("line", lambda line: re.sub(r"^(put 15 C[^,]*),.*", r"\1", line), "copies: files are joined"),
    "P goes one record too far": ("line", lambda line: changed(line, "put 15 ", rb"^(P.)(.)", one_more), "reads: records by their number"),
    "records are one byte longer": ("line", lambda line: changed(line, "open ", rb"(,L,)(.)$", one_more), "relative: more than a record holds"),
    "an append writes anew": ("line", lambda line: re.sub(r"^(open \d+ )([^,]*(?:,[SPU])?),A", r"\1@0:\2,W", line), "appends: bytes are appended"),
    "@ is ignored": ("line", lambda line: re.sub(r"^(open \d+ )@", r"\1", line), "appends: a file of two bytes is replaced"),
    "a file that is written is never closed": ("line", lambda line: drop(line, "close 1", "close 2", "close 3"), "rows: a program is written and listed"),
    "CLOSE of 15 does nothing": ("line", lambda line: drop(line, "close 15"), "channels: channels are closed by others"),
    "a long text loses its last byte": ("line", lambda line: re.sub(r"^(fill \d+ )(\d{3,})", one_less, line), "new_files: full blocks and one byte more"),
    "the lowest bit of a byte is lost": ("line", lambda line: changed(line, "put 2 ", rb"(.)", even), "new_files: each byte of a file is where it was put"),
    "? matches nothing": ("line", lambda line: re.sub(r"^(open .*)\?", r"\1!", line), "reads: names and patterns"),
    "the type after a name is ignored": ("line", lambda line: re.sub(r"^(open \d+ [^,$@]*),[SPU]$", r"\1", line), "reads: names and patterns"),
    "drive 1 is taken as drive 0": ("line", lambda line: re.sub(r"^(open \d+ \$?)1", r"\g<1>0", line), "rows: texts that are refused"),
    "U1 reads the next sector": ("line", lambda line: re.sub(r"^(put 15 U1 2 0 \d+ )(\d+)", next_sector, line), "direct: a block viewer: U1 and 256 bytes, EOI with the last"),
    "U2 does nothing": ("line", lambda line: drop(line, "put 15 U2"), "direct_raw: a disk editor changes a file's block, and so the file"),
    "B-P does nothing": ("line", lambda line: drop(line, "put 15 B-P"), "direct: B-P: the next byte is the one of this place"),
    "B-A does nothing": ("line", lambda line: drop(line, "put 15 B-A"), "direct_writes: B-A takes one of the blocks that are free, B-F gives it back"),
}
# Drives that differ where the manuals are silent: a name, what is done, and a case that shows it.
OTHER = {
    "a status has other words": ("status", lambda status: status.replace(b"FILE NOT FOUND", b"NO SUCH FILE"), "commands: a file gets another name"),
    "its memory is unknown": ("line", lambda line: re.sub(r"^(put 15 M-R).*", r"\1\\00\\00\\12", line), "direct: what drive it is: M-R"),
    "71 has no track and sector": ("status", lambda status: re.sub(rb"^71,DIR ERROR,\d+,\d+", b"71,DIR ERROR,00,00", status), "damaged: damaged disk 2"),
}


def drop(line, *beginnings):
    return None if any(line == it or line.startswith(f"{it} ") or it.startswith("put 15") and line.startswith(it) for it in beginnings) else line


def changed(line, beginning, pattern, change):
    """Changes bytes of the TEXT of a line that begins so."""
    if not line.startswith(beginning):
        return line
    words = line.split(" ", 2)
    text = re.sub(pattern, change, transcripts.text_bytes(words[2]), flags=re.S)
    return " ".join([*words[:2], build.escaped(text)])


def one_more(match):
    return match[1] + bytes([(match[2][0] + 1) % 256])


def one_less(match):
    return match[1] + str(int(match[2]) - (int(match[2]) > 254))


def even(match):
    return bytes([match[1][0] & 254])


def next_sector(match):
    return match[1] + str(int(match[2]) + 1)


class Drive:
    """The right drive, and what is changed."""

    def __init__(self, command, kind, change):
        self.kind, self.change, self.rest = kind, change, b""
        self.process = subprocess.Popen(command, stdin=subprocess.PIPE, stdout=subprocess.PIPE, text=True)

    def send(self, line):
        self.process.stdin.write(f"{line}\n")

    def answer(self, line):
        """The bytes that a get brings, and whether the last one has EOI."""
        self.send(line)
        self.process.stdin.flush()
        words = self.process.stdout.readline().split()
        return b"" if words[2] == "none" else bytes.fromhex(words[2]), len(words) > 3

    def status_byte(self):
        """A byte of the status as it was changed."""
        if not self.rest:
            whole, end = self.answer("get 15 100")
            if not end:
                return whole, end
            self.rest = self.change(whole)
        first, self.rest = self.rest[:1], self.rest[1:]
        return first, not self.rest

    def get(self, line):
        """The answer of a get."""
        channel = line.split()[1]
        if self.kind == "status" and channel == "15":
            return self.status_byte()
        values, end = self.answer(line)
        if self.kind == "bytes" and channel != "15" and values:
            values, end = self.change(list(values), end)
        return bytes(values), end

    def play(self, line):
        """A line of the script. Returns what is printed for it, or None."""
        if line.startswith("get "):
            values, end = self.get(line)
            return f"get {line.split()[1]} {values.hex() or 'none'}{' eoi' if end else ''}"
        self.rest = b""
        line = self.change(line) if self.kind == "line" else line
        if line is not None:
            self.send(line)
        return None


def main():
    kind, change, _ = {**WRONG, **OTHER}[sys.argv[1]]
    drive = Drive(sys.argv[2:], kind, change)
    for line in sys.stdin:
        said = drive.play(line.rstrip("\n"))
        if said is not None:
            print(said, flush=True)
    drive.process.stdin.close()
    return drive.process.wait()


if __name__ == "__main__":
    sys.exit(main())
