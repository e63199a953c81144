"""The suite's player for a PC: plays the operations of code.py on a host, which has the calls of a serial bus (hosts.py)."""
from . import code, images, plan, reports

COMMANDS, BUFFER = 15, 2
OPEN, CLOSE, DATA = 0xF0, 0xE0, 0x60
LONGEST = 200_000
LONGEST_STATUS = 64  # bytes; the status of a drive that never ends it is cut here


def text_of(data):
    """The bytes of a text that these bytes are."""
    found, at = b"", 0
    while data[at]:
        part = data[at]
        if part == 255:
            found += data[at + 3 : at + 4] * int.from_bytes(data[at + 1 : at + 3], "little")
            at += 4
        else:
            found += data[at + 1 : at + 1 + part]
            at += part + 1
    return found


def parts_of(data):
    """The parts of a sector: each a position and bytes."""
    found, at = [], 0
    while data[at]:
        rest = data[at + 2 :]
        found.append((data[at + 1], text_of(rest)))
        at += 2 + text_size(rest)
    return found


def text_size(data):
    """How many bytes a text takes."""
    at = 0
    while data[at]:
        at += 4 if data[at] == 255 else data[at] + 1
    return at + 1


class Player:
    """Plays cases. `result` and `place` are those of the case: a letter of reports.py, and the first difference."""

    def __init__(self, host):
        self.host, self.disk, self.has_buffer = host, None, False
        self.result, self.place, self.request = reports.SAME, None, 0

    def differ(self, kind, byte, wanted, came):
        """Keeps a difference, if it is the first."""
        if self.result == reports.DIFFERENT or self.result == kind:
            return
        self.result, self.place = kind, (self.request, byte, wanted, came)

    def compare(self, wanted, came):
        """Compares bytes."""
        for n, byte in enumerate(wanted, 1):
            value = came[n - 1] if n <= len(came) else 0
            if n > len(came) or value != byte:
                return self.differ(reports.DIFFERENT, n, byte, value)

    def status(self):
        """Reads channel 15 to its end, or as far as any status goes."""
        return self.host.receive(COMMANDS, LONGEST_STATUS)[0]

    def command(self, data):
        self.host.send(DATA | COMMANDS, data)

    def calm(self):
        self.host.send(CLOSE | COMMANDS, b"")
        self.command(b"I0")
        self.status()

    def open_buffer(self):
        if not self.has_buffer:
            self.host.send(OPEN | BUFFER, b"#")
        self.has_buffer = True

    def close_buffer(self):
        if self.has_buffer:
            self.host.send(CLOSE | BUFFER, b"")
            self.status()
        self.has_buffer = False

    # --- operations that are no requests

    def new(self, _):
        self.close_buffer()
        self.command(b"N0:TEST")
        self.status()

    def format(self, _):
        self.close_buffer()
        self.command(b"N0:TEST,AB")
        self.status()

    def changed(self, _):
        self.disk = None

    def calm_down(self, _):
        self.close_buffer()
        self.calm()

    def restart(self, _):
        self.close_buffer()
        self.command(b"UJ")
        self.host.wait()

    def write_sector(self, track, sector):
        self.command(b"U2 2 0 %d %d" % (track, sector))
        status = self.status()
        if status[:1] != b"0":
            self.differ(reports.DIFFERENT, 0, ord("0"), status[0] if status else 0)

    def zeros(self, op):
        """Writes a sector of zeros but for these parts."""
        sector = bytearray(256)
        for start, values in parts_of(op[2:]):
            sector[start : start + len(values)] = values
        self.open_buffer()
        self.command(b"B-P 2 0")
        self.host.send(DATA | BUFFER, bytes(sector))
        self.write_sector(op[0], op[1])

    def patch(self, op):
        """Changes parts of a sector."""
        self.open_buffer()
        self.command(b"U1 2 0 %d %d" % (op[0], op[1]))
        for start, values in parts_of(op[2:]):
            self.command(b"B-P 2 %d" % start)
            self.host.send(DATA | BUFFER, values)
        self.write_sector(op[0], op[1])

    # --- requests

    def open(self, op):
        self.host.send(OPEN | op[0], text_of(op[1:]))

    def put(self, op):
        self.host.send(DATA | op[0], text_of(op[1:]))

    def close(self, op):
        self.host.send(CLOSE | op[0], b"")

    def get(self, op):
        """Bytes of a channel, and whether the last one has EOI."""
        wanted = text_of(op[2:])
        came, has_end = self.host.receive(op[0], len(wanted))
        self.compare(wanted, came)
        if bool(op[1]) != has_end:
            self.differ(reports.DIFFERENT, len(wanted) + 1, op[1], int(has_end))

    def get_beginning(self, op):
        came, _ = self.host.receive(op[0], int.from_bytes(op[1:3], "little"))
        self.compare(text_of(op[3:]), came)

    def get_nothing(self, op):
        came, _ = self.host.receive(op[0], 1)
        if came:
            self.differ(reports.DIFFERENT, 1, 0, came[0])

    def check_status(self, op):
        """A status, whose words can differ."""
        wanted, came = text_of(op), self.status()
        at = 1
        for n, part in enumerate(wanted.split(b",")):
            parts = came.split(b",")
            if n >= len(parts) or parts[n] != part:
                self.differ(reports.WORDS if n == 1 else reports.DIFFERENT, at, part[0], parts[n][0] if n < len(parts) and parts[n] else 0)
            at += len(part) + 1

    def sector(self, op):
        wanted = text_of(op[3:])
        self.open_buffer()
        self.command(b"U1 2 0 %d %d" % (op[0], op[1]))
        self.command(b"B-P 2 %d" % op[2])
        self.compare(wanted, self.host.receive(BUFFER, len(wanted))[0])

    def listing(self):
        """The lines of the directory below its head, each with its number."""
        self.host.send(OPEN, b"$")
        data, at, found = self.host.receive(0, LONGEST)[0], 2, []
        while len(data) > at + 4 and data[at + 1]:
            end = data.find(b"\0", at + 4)
            number = int.from_bytes(data[at + 2 : at + 4], "little")
            found.append((number, b" ".join([b"%d" % number, *data[at + 4 : end].split()])))
            at = end + 1
        self.host.send(CLOSE, b"")
        self.status()
        return found[1:]

    def directory(self, op):
        self.compare(text_of(op), b"".join(line + b"\r" for _, line in self.listing()))

    def free(self, op):
        lines, wanted = self.listing(), int.from_bytes(op[:2], "little")
        number = lines[-1][0] if lines else 0
        if number != wanted:
            self.differ(reports.DIFFERENT, 1, wanted & 255, number & 255)

    STEPS = {"NEW": new, "FORMAT": format, "CHANGED": changed, "CALM": calm_down, "RESTART": restart, "ZEROS": zeros, "PATCH": patch}
    OF_BUFFER = {"STATUS": check_status, "SECTOR": sector}
    REQUESTS = {"OPEN": open, "PUT": put, "CLOSE": close, "GET": get, "GET_BEGINNING": get_beginning, "GET_NOTHING": get_nothing, "DIRECTORY": directory, "FREE": free}

    def play(self, op):
        """One operation."""
        name, rest = code.NAMES[op[0]], op[1:]
        if name in self.STEPS:
            return self.STEPS[name](self, rest)
        self.request += 1
        if name in self.OF_BUFFER:
            return self.OF_BUFFER[name](self, rest)
        self.close_buffer()
        return self.REQUESTS[name](self, rest)

    def prepare(self, ops):
        """Makes the disk of a case, if it isn't in the drive."""
        if self.disk == ops:
            return
        request, self.request = self.request, 0
        self.calm()
        for op in [code.op("NEW"), *ops]:
            self.play(op)
        self.close_buffer()
        self.calm()
        self.request, self.disk = request, ops

    def case(self, played):
        """Plays a case. Returns its letter and its first difference."""
        self.result, self.place, self.request = reports.SAME, None, 0
        for it in played.ops:
            if isinstance(it, plan.Prepared):
                self.prepare(it.ops)
            elif isinstance(it, images.Insert):
                self.host.insert(it)
                self.disk = None
                self.calm()
            else:
                self.play(it)
        self.close_buffer()
        return self.result, self.place


def report(host, plans, suite):
    """Plays cases on a host. Returns the lines of the report, as they are made."""
    player = Player(host)
    player.restart(b"")
    yield f"YELLOWADZE SUITE {suite.upper()}"
    yield player.status().decode("ascii", "replace").rstrip("\r")
    player.format(b"")
    for it in plans:
        letter, place = player.case(it)
        yield f"{it.number} {letter}" + (" {} {} {} {}".format(*place) if place else "")
