#!/usr/bin/env python3
"""json_model.py map D64, json_model.py sector D64 TRACK SECTOR: the expected output of `disk1541 map` and `sector` with --json for a D64 of 35 tracks, with error
bytes or without, read from its bytes. json_model.py track JSON: the expected output of `disk1541 track` without --json, from that with it. Names are
capital letters and digits here, and no file is relative or GEOS's."""
import json, sys

from generated_disks import place, sectors_of

KINDS = ["del", "seq", "prg", "usr"]


class Disk:
    """A D64: its sectors, which of them can be read, and what its directory and its BAM say."""

    def __init__(self, name):
        self.image = open(name, "rb").read()
        self.errors = self.image[174_848:] or bytes([1]) * 683
        self.entries = []
        at = (18, 1)
        while at[0]:
            block = self.bytes_of(at)
            self.entries += [block[n + 2 : n + 32] for n in range(0, 256, 32)]
            at = block[0], block[1]

    def bytes_of(self, at):
        return self.image[place(*at) : place(*at) + 256]

    def reads(self, at):
        return self.errors[place(*at) // 256] in (0, 1)

    def is_free(self, at):
        row = self.image[place(18, 0) + 4 * at[0] :]
        return bool(row[1 + at[1] // 8] >> at[1] % 8 & 1)

    def chain(self, first, by_errors):
        """The sectors of a chain up to where it breaks off, if sectors with errors aren't read; and whether it comes to its end."""
        at, found = first, []
        while at[0]:
            if not (1 <= at[0] <= 35 and at[1] < sectors_of(at[0])) or by_errors and not self.reads(at) or at in found:
                return found, False
            found.append(at)
            at = self.bytes_of(at)[0], self.bytes_of(at)[1]
        return found, True

    def files(self):
        """The slots of the closed files, and their entries."""
        return [(slot, entry) for slot, entry in enumerate(self.entries) if entry[0] & 0x80 and entry[1]]


def shown(slot, entry):
    name = entry[3:19].split(b"\xa0")[0]
    return {"slot": slot, "name": name.decode("ascii"), "petscii": name.hex()}


def map_of(name):
    disk = Disk(name)
    files = disk.files()
    used = set(disk.chain((18, 0), True)[0])
    claimed, broken = set(used), []
    for slot, entry in files:
        found, is_whole = disk.chain((entry[1], entry[2]), True)
        if not is_whole or claimed & set(found):
            broken.append(shown(slot, entry))
        claimed |= set(found)
        used |= set(found)
    whole = {slot: set(disk.chain((entry[1], entry[2]), False)[0]) for slot, entry in files}

    def state(at):
        if not disk.reads(at):
            return "unreadable"
        return {(True, True): "unmarked", (True, False): "used", (False, True): "free", (False, False): "lost"}[at in used, disk.is_free(at)]

    tracks = [{"track": t, "sectors": [{"sector": s, "state": state((t, s)), "slots": [slot for slot in whole if (t, s) in whole[slot]]} for s in range(sectors_of(t))]} for t in range(1, 36)]
    has_lost = any(it["state"] == "lost" for row in tracks for it in row["sectors"])
    free = sum(disk.image[place(18, 0) + 4 * t] for t in range(1, 36) if t != 18)
    named = [{"slot": slot, "name": shown(slot, entry)["name"], "type": KINDS[entry[0] & 7]} for slot, entry in files]
    return {"image": name, "free": free, "files": named, "rests": broken if has_lost else [], "tracks": tracks}


def sector_of(name, track, sector):
    disk, at = Disk(name), (int(track), int(sector))
    if not disk.reads(at):
        # (the number of an error byte n is n and 18)
        return {"image": name, "track": at[0], "sector": at[1], "error": disk.errors[place(*at) // 256] + 18, "link": None, "bytes": None}
    data = disk.bytes_of(at)
    link = {"track": data[0], "sector": data[1]} if data[0] else None
    return {"image": name, "track": at[0], "sector": at[1], "error": None, "link": link, "bytes": data.hex()}


def block_text(mark):
    good = {True: "good", False: "bad", None: None}[mark["good"]]
    if mark["block"] == "header":
        header = mark["header"]
        return f"header {header['track']}/{header['sector']}, id {header['id'][:2]} {header['id'][2:]}, checksum {good}"
    if mark["block"] == "data":
        return f"data block, checksum {good}" if good else "data block with bytes that are no group code"
    return "block that is no group code" if mark["first"] is None else f"block that begins with {mark['first']:02x}"


def track_text(name):
    said = json.load(open(name, encoding="utf-8"))
    lines = [f"track {said['track']}: {said['bits']} bits", "   bit"]
    lines += [f"{mark['bit']:>6}  sync {mark['ones']}, {block_text(mark)}, gap {mark['gap']}" for mark in said["marks"]]
    lines.append(f"{said['headers']} headers, {said['data']} data blocks, {said['others']} other blocks" if said["marks"] else "no sync mark")
    return "\n".join(lines)


if __name__ == "__main__":
    what, *words = sys.argv[1:] or [""]
    if what == "track":
        print(track_text(*words))
    elif what in ("map", "sector"):
        print(json.dumps({"map": map_of, "sector": sector_of}[what](*words), separators=(",", ":")))
    else:
        sys.exit(__doc__)
