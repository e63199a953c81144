#!/usr/bin/env python3
"""generated_names.py DISK1541: names of any bytes on disks made here, in the current folder.

By the rule of docs/disk1541/names.md, in both character sets: each is printed by `list` and in JSON as the rule has it, and the
printed name is accepted by `get`, `rename`, `copy`, `delete` and `put --name`. Ends with 1 if one isn't.
"""

import json
import os
import random
import subprocess
import sys

import generated_disks as disks

# What no name on the drive's command line can have.
DIVIDES = b'*?,=:"'


def any_name(r):
    return bytes(r.choice([code for code in range(256) if code != 0xA0 and code not in DIVIDES]) for _ in range(r.randint(1, 16)))


def disk_of_names(seed):
    """Twelve closed files on a disk, whose names are any bytes."""
    r = random.Random(seed)
    disk = disks.Disk(seed)
    disk.files = [disks.File(r, name) for name in sorted({any_name(r) for _ in range(12)})]
    for file in disk.files:
        file.bytes, file.is_closed, file.is_locked = file.name * 20, True, False
    disk.taken = {(18, 0)}
    disk.image[disks.place(18, 0) : disks.place(19, 0)] = bytes(19 * 256)
    disk.put_directory()
    disk.put_map()
    return disk


def require_shown(tool, disk):
    said = tool.run("list", "any.d64")
    disks.require("list", said == disk.listing(), f"says\n{said}and not\n{disk.listing()}")
    for charset in disks.KEYS:
        files = json.loads(tool.run("list", "any.d64", "--json", "--charset", charset))["files"]
        disks.require("JSON", [it["name"] for it in files] == [disks.text(file.name, charset) for file in disk.files])
        disks.require("bytes", [it["petscii"] for it in files] == [file.name.hex() for file in disk.files])


def require_taken_back(program, tool, file, charset):
    shown = disks.text(file.name, charset)
    get = lambda: subprocess.run([program, "get", "any.d64", "--charset", charset, "--", shown], capture_output=True).stdout
    disks.require(f"get {shown}", get() == file.bytes)
    tool.run("rename", "any.d64", "--charset", charset, "--", shown, "MOVED")
    tool.run("copy", "any.d64", "--charset", charset, "--", "MOVED", shown)
    tool.run("delete", "any.d64", "--charset", charset, "--", "MOVED")
    tool.run("delete", "any.d64", "--charset", charset, "--", shown)
    with open("file.bin", "wb") as out:
        out.write(file.bytes)
    tool.run("put", "any.d64", "file.bin", "--charset", charset, f"--name={shown}")
    disks.require(f"get {shown} again", get() == file.bytes)


def main():
    if len(sys.argv) != 2:
        sys.exit(__doc__)
    program = os.path.realpath(sys.argv[1])
    tool = disks.Tool(program, ".")
    for seed in range(20):
        disk = disk_of_names(seed)
        with open("any.d64", "wb") as image:
            image.write(disk.image)
        require_shown(tool, disk)
        for n, file in enumerate(disk.files):
            require_taken_back(program, tool, file, ["upper", "lower"][n % 2])


if __name__ == "__main__":
    main()
