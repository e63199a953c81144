#!/usr/bin/env python3
"""definitions.py [--check]: makes docs/proved/definitions/ from the comments in specs/: README.md below its mark (the part above is written by hand), and a
page for each part of PARTS. A page lists, promise by promise, the definitions that the contracts reach (tools/lib/reached.py), each once, under the first
promise that reaches it. A definition has the comment above it as its sentence, or none; an earlier sentence is cited by the name that has it.
--check changes nothing, and ends with 1 if a page isn't what this makes. In the crates of COMPLETE each definition must have a sentence of its own."""
import dataclasses, pathlib, re, sys

sys.path.insert(0, str(pathlib.Path(__file__).resolve().parents[1] / "lib"))
from reached import Specs, contract, definitions

ROOT = pathlib.Path(__file__).resolve().parents[2]
FOLDER = ROOT / "docs/proved/definitions"
MARK = "<!-- What follows is made by tools/docs/definitions.py, and isn't changed by hand. -->\n"


@dataclasses.dataclass(frozen=True)
class Promise:
    """A promise, and the functions with its contracts: NAME, or NAME:LABEL for one clause of it."""

    text: str
    crate: str
    names: tuple[str, ...]


# From the lowest layer up: each part is a page, with its promises.
PARTS = {
    "Sectors and images": [
        ("four bytes as five in group code", "cbm_gcr", "encode4 decode5"),
        ("a track's sync marks, the bytes at a bit, and a write of them", "cbm_track", "next_sync bytes_at overwrite is_clear"),
        ("a sector's answer, a write to it", "cbm_sector", "read_sector write_sector"),
        ("following links, and what a write elsewhere leaves of them", "cbm_medium", "chains_are_followed writes_elsewhere_change_no_chain"),
        ("a D64 image is read, and given back", "cbm_d64", "from_bytes to_bytes"),
        ("a G64 image is read, and made from sectors", "cbm_g64", "from_bytes from_sectors"),
    ],
    "The disk's content": [
        ("what is free, and which block is claimed next", "cbm_bam", "free_blocks geometry claim_first claim_next claim_directory anew"),
        ("the bytes of a chain, read and written", "cbm_chain", "peek put finish free_chain chains_hold_what_was_put"),
        ("the entries of a directory, and changes of one", "cbm_directory", "find empty_slot put_slot clear_slot grow"),
        ("what an entry's bytes become", "cbm_directory", "fresh closed relative reopened renamed cleared"),
        ("a record by its side sectors, and how a relative file grows", "cbm_relfile", "read_record rewrite lengthen begin_side claim_two"),
        ("`check` says yes exactly on sound disks", "cbm_volume", "check"),
        (
            "a sound content means one disk, and is the plain list of its sectors",
            "cbm_volume",
            "sound_contents_mean_disks contents_mean_one_disk blocks_bound_bytes is_sound_by_its_sectors",
        ),
        ("closed files that stay in place over each of two calls stay in place over both", "cbm_volume", "files_stay_over_two_calls"),
        (
            "OPEN of a new file and for appending, a byte put, and CLOSE of a replacement, with a stop at any sector write",
            "cbm_volume",
            "begin_write begin_append store finish_replacement",
        ),
        ("COPY, with a stop at any sector write", "cbm_volume", "copy"),
        ("a new relative file, a record written in place, and growth, with a stop at any sector write", "cbm_volume", "make_records write_record grow_records"),
        ("RENAME, SCRATCH, NEW and VALIDATE, with a stop at any sector write", "cbm_volume", "rename scratch new_disk validate"),
    ],
    "The drive's DOS": [
        ("a text of OPEN, of a command", "cbm_command", "parse_open parse_command"),
        ("a pattern and a name", "cbm_command", "matches"),
        ("the lines of a directory", "cbm_listing", "begin line finish"),
        ("the numbers and texts of the status", "cbm_machine", "line taken"),
        ("an OPEN is the machine's", "cbm_channel", "open"),
        ("a byte put to a file, and CLOSE, with a stop at any sector write", "cbm_channel", "put close"),
        ("the end of a text, the next byte, and LISTEN and TALK are the machine's", "cbm_channel", "end_put peek taken listen talk"),
        ("direct access: the text of a command, what it does, and what is shown", "cbm_direct", "asked_by carry_out open close put end_put peek taken"),
        ("direct access: the disk stays sound", "cbm_direct", "new insert into_medium"),
    ],
    "The bus": [
        ("a trace has one reading", "cbm_session", "one_reading"),
        ("a session's host keeps the timing", "cbm_session", "keeps_timing"),
        ("worked sessions, by numbers", "cbm_session", "rows"),
        ("a frame goes in parts, its pulses are one pulse, and all accept", "cbm_session", "is_joined is_one_pulse has_accepted goes_in_parts goes_on"),
        ("a drive alone with the host follows every session", "cbm_session", "follows_pieces follows_fronts follows_sessions"),
        ("each drive of a bus follows every session", "cbm_session", "follows_buses"),
        ("drives under a host that keeps the timing keep to a session", "cbm_session", "keeps_sessions"),
        ("drives under a host that keeps it loosely keep to a session beside it", "cbm_session", "keeps_loosely"),
        ("drives under any host run what the wires hand them", "cbm_session", "hears_one hands_each"),
        ("a list of changes played, of any machines: a host that keeps the timing gets a session", "cbm_drive", "play:kept"),
        ("a list of changes played: all that is promised of it", "cbm_drive", "play"),
        ("the same event by event", "cbm_drive", "next half keeps"),
        ("a drive with direct access: its disk is sound after any list of changes", "cbm_direct_desk", "play_alone play_out play"),
        ("several on one bus: so is each disk", "cbm_direct_bus", "play play_two"),
        ("the headline: drives with disks, the machine of named files and sound disks in it", "cbm_bus", "play:headline"),
        ("the same under a host that keeps the timing loosely", "cbm_bus", "play:loosely"),
        ("drives with disks: all that is promised of a list of changes", "cbm_bus", "play at_rest"),
    ],
    "A computer's requests": [
        ("each request of a host is a session", "cbm_host", "plays_requests"),
        ("a request is carried out, from rest to rest; the bytes of one under way", "cbm_host", "carries_out begins"),
        ("requests to a drive with its DOS, one after another", "cbm_host", "ask take carry_out"),
        ("a request on a bus, whatever the disk", "cbm_host", "perform"),
        ("bytes to a channel and from it, by calls", "cbm_talk", "hear said"),
    ],
    "Scripts": [
        ("a script of requests: what it prints on a disk, and the image given back", "cbm_program", "run:requests"),
        ("a script of line changes: its trace, and the image given back", "cbm_program", "run:changes"),
        ("that trace under a host that keeps the timing", "cbm_program", "run:kept"),
        ("and under one that keeps it loosely", "cbm_program", "run:loosely"),
        ("what comes of a run, whatever the script and the image are", "cbm_program", "run:outcome"),
        ("the program's exit status", "drive1541", "exit_status of_run"),
    ],
    "The tool": [
        ("an image is opened, its directory listed, files taken out", "cbm_shell", "open_disk list directory get file read_file raw_directory"),
        ("names as text, and files that are no image", "cbm_shell", "name_text foreign_of unwrapped"),
        ("the sentences of `check`", "cbm_shell", "check_text unsound_text words"),
        ("an image is changed by the drive's commands", "cbm_shell", "change changed changes put_records"),
        ("a new image, and one of the other format", "cbm_shell", "new_image convert"),
        ("an image is checked, put in order, and looked at", "cbm_shell", "check validate info picture geos_blocks sector file_blocks"),
        ("entries locked, dressed, swapped; titles and art", "cbm_shell", "lock retitle add_art dress swap_entries"),
        ("one file by its slot: another name, a lock, another type, a copy, its end", "cbm_slots", "rename lock retype copy delete"),
        ("a file moved to blocks that are named, and where it may go", "cbm_place", "place room_of blocks_of"),
        ("a disk with odd entries: they are put away, a change is made, they are put back", "cbm_odd", "put_away put_back change map_around"),
        ("disks and archives of other kinds", "cbm_sources", "of entries file"),
        ("a BASIC program on the screen", "cbm_basic", "listing is_program after_program programs_are_listed"),
        ("damaged disks: all flaws, what is salvaged, forgotten and given back", "cbm_shell", "flaws_of users_of lost_of salvage forget undelete"),
    ],
    "The C library": [
        ("a drive on lines, with the disk of an image", "cbm_device", "open lines next_due due image insert eject reset status"),
        ("its channels by calls", "cbm_device", "open_channel write_channel read_channel close_channel"),
        ("images by calls, and a bus played", "cbm_device", "check blank list file entry title sector play"),
        ("a drive with direct access on lines", "cbm_direct_device", "open lines next_due due image insert eject reset status"),
        ("its channels by calls, with direct access", "cbm_direct_device", "open_channel write_channel read_channel close_channel"),
        ("what C may pass, and the numbers of refusals", "yellowadze1541", "y1541_open y1541_open_direct y1541_open_raw y1541_lines y1541_due y1541_image y1541_play y1541_image_list"),
        ("all entries and flaws of an image, and files by their slot", "yellowadze1541", "y1541_image_entries y1541_image_flaws y1541_image_rename y1541_image_delete y1541_image_copy y1541_image_read"),
        ("disks with odd entries: what is left without them, and the whole again", "yellowadze1541", "y1541_image_put_away y1541_image_put_back y1541_image_put"),
        ("several files in one call, and a command with the drive's status", "yellowadze1541", "y1541_image_put_all y1541_image_command_status"),
    ],
}

# The page of each part, without its ending.
PAGES = dict(zip(PARTS, "images content dos bus requests scripts tool library".split()))

# The crates in which each definition has a sentence of its own.
COMPLETE = (
    "cbm_direct cbm_direct_desk cbm_direct_bus cbm_iec cbm_session cbm_drive cbm_bus cbm_host cbm_command cbm_listing cbm_machine cbm_talk cbm_image cbm_program drive1541 cbm_shell disk_basics "
    "cbm_basic cbm_device cbm_direct_device cbm_odd cbm_place cbm_slots yellowadze1541"
).split()


def sentences(path):
    """The sentence of each definition of a file, which is the comment above it, or is empty; and the definitions that have none."""
    names, found, comment = definitions(path), {}, []
    for line in path.read_text("utf-8").split("\n"):
        text = line.strip()
        start = re.match(r"(?:(?:abbrev|unfoldable|pub|record|data) )+([A-Za-z_][\w'-]*)", text)
        if text.startswith("-- ") and not text.startswith("-- ----"):
            comment.append(text[3:])
            continue
        if start and start[1] in names and start[1] not in found and not text.startswith("pub use"):
            found[start[1]] = " ".join(comment)
        comment = []
    return found, [it for it, sentence in found.items() if not sentence]


def numbers_of(name, lines):
    """The number that a definition is, or its numbers case by case."""
    cases = [re.fullmatch(rf"\s*{re.escape(name)}((?: \w+)?) = (\d+)", it) for it in lines[1:]]
    if not all(cases) or not 0 < len(cases) < 5:
        return ""
    return ", ".join(f"{it[1].strip().replace('_', 'else')} {int(it[2]):,}".strip() for it in cases)


class Book:
    """All definitions, in the order of the crates and of the files in them."""

    def __init__(self):
        self.specs = Specs(ROOT)
        crates = [it.split()[0].rstrip(":") for it in (ROOT / "crates.txt").read_text("utf-8").split("\n") if it and it[0] != "#"]
        self.order, self.sentences, self.bare, self.first, self.seen = {}, {}, [], {}, set()
        for module, (found, _, _) in self.specs.files.items():
            _, crate, _, file = module.split(".", 3)
            path = ROOT / "crates" / crate / "specs" / (file.replace(".", "/") + ".antt")
            lines = (ROOT / "crates" / crate / "specs/Lib.antt").read_text("utf-8").split("\n")
            place = [it.split()[-1] for it in lines if it.startswith("pub mod")]
            self.sentences[module], bare = sentences(path)
            self.bare += [f"{path.relative_to(ROOT)}: {it}" for it in bare if crate in COMPLETE]
            first = file.split(".")[0]
            for number, name in enumerate(found):
                self.order[module, name] = (crates.index(crate), place.index(first) if first in place else len(place), module, number)

    def reached(self, crate, name):
        """What one contract, or a clause of it, reaches."""
        function, *labels = name.split(":")
        text, (names, files) = contract(ROOT, crate, function, *labels)
        return self.specs.reached(self.specs.named(text, None, names, files))

    def lines(self, found):
        return sum(len(self.specs.files[module][0][name]) for module, name in found)

    def said(self, module, name):
        """The entry of a definition in a list: its sentence, the name that had the same one before, or that it has none."""
        sentence = self.sentences[module].get(name, "").rstrip(".")
        before = self.first.setdefault(sentence, (module, name))
        if not sentence:
            sentence = "(no sentence)"
        elif before != (module, name):
            sentence = f"as `{before[1]}`" + ("" if before[0] == module else f" ({place_of(before[0])})")
        numbers = numbers_of(name, self.specs.files[module][0][name])
        return f"{sentence}: {numbers}" if numbers else sentence

    def items(self, found):
        """A list, file by file."""
        before = None
        for module, name in sorted(found, key=self.order.get):
            if module != before:
                yield from ("", f"*{place_of(module)}*", "")
            before = module
            yield f"- `{name}`: {self.said(module, name)}"


def place_of(module):
    """The crate and the file of a module of definitions."""
    _, crate, _, file = module.split(".", 3)
    return f"{crate} {file.replace('.', '/')}"


def counted(numbers):
    return ", ".join(f"{it:,}" for it in numbers)


def spelled(name):
    function, *labels = name.split(":")
    return f"`{function}`" + "".join(f", its clause `{it}`" for it in labels)


def made(book):
    """The pages, by name; of README.md the part below the mark."""
    every = {part: [Promise(text, crate, tuple(names.split())) for text, crate, names in rows] for part, rows in PARTS.items()}
    reached = {(it, name): book.reached(it.crate, name) for rows in every.values() for it in rows for name in it.names}
    return {"README.md": MARK + index(book, every, reached), **{f"{PAGES[it]}.md": part_page(book, it, every[it], reached) for it in every}}


def index(book, every, reached):
    """How much each promise rests on, with links to the pages."""
    out = ["", "## How much a promise rests on", "", "Of each contract: how many definitions it reaches, and how many lines they have."]
    for part, rows in every.items():
        out += ["", f"### [{part}]({PAGES[part]}.md)", ""]
        for it in rows:
            sizes = (f"{spelled(name)} {len(reached[it, name]):,} ({book.lines(reached[it, name]):,} lines)" for name in it.names)
            out.append(f"- {it.text} (in {it.crate}): {', '.join(sizes)}")
    return "\n".join(out) + "\n"


def part_page(book, part, rows, reached):
    """The page of a part; what an earlier page lists isn't listed again."""
    out = [f"# Definitions: {part[0].lower() + part[1:]}", "", MARK.rstrip("\n"), "", "A part of [the definitions, in plain words](README.md). Each is listed once, under the first promise that reaches it."]
    for it in rows:
        found = set().union(*(reached[it, name] for name in it.names))
        new = found - book.seen
        book.seen |= found
        out += ["", f"## {it.text[0].upper() + it.text[1:]}", "", f"{it.crate} {', '.join(map(spelled, it.names))}: {counts(len(found), len(new))}", *book.items(new)]
    return "\n".join(out) + "\n"


def counts(found, new):
    """How many definitions a promise rests on, and how many of them are listed earlier."""
    if not new:
        return f"{found} definitions, all listed before."
    return f"{found} definitions" + (f", {found - new} of them listed before." if found > new else ".")


def main():
    if sys.argv[1:] not in ([], ["--check"]):
        sys.exit(__doc__)
    above, mark, _ = (FOLDER / "README.md").read_text("utf-8").partition(MARK)
    if not mark:
        sys.exit(f"docs/proved/definitions/README.md: the mark must stand in it once: {MARK}")
    book = Book()
    pages = made(book)
    pages["README.md"] = above + pages["README.md"]
    if sys.argv[1:] == []:
        for name, text in pages.items():
            (FOLDER / name).write_text(text, "utf-8")
    there = {it.name: it.read_text("utf-8") for it in FOLDER.glob("*.md")}
    wrong = [it for it in sorted({*pages, *there}) if pages.get(it) != there.get(it)]
    if wrong:
        sys.exit("not what tools/docs/definitions.py makes of the sources: " + ", ".join(f"docs/proved/definitions/{it}" for it in wrong))
    if book.bare:
        sys.exit("definitions without a sentence:\n" + "\n".join(book.bare))
    if sys.argv[1:]:
        print("the definitions: the pages are what the sources say")


if __name__ == "__main__":
    main()
