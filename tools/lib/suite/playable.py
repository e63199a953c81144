"""Which steps a computer can play on a drive by its KERNAL, and why it can't play the others."""
import re

REQUESTS = ("open", "put", "fill", "get", "close", "status")
# Words after a head that change nothing for a drive at a computer.
HARMLESS = ("g64 too", "by calls too", "no last line feed", "pace kernal", "error bytes", "as g64", "refusing each write", "direct", "direct raw")
HEADS = {
    "protected": "the disk is write-protected",
    "40 tracks": "the disk has 40 tracks",
    "device 9": "the drive has another number",
}
POKE = re.compile(r"(\d+)/(\d+)(?:\+\$([0-9a-f]+))? = (.*)$")
ERROR = re.compile(r"(\d+)/(\d+) error (\d+)$")
# The error bytes that make a sector unreadable.
FAULTS = (2, 3, 4, 5, 6, 9, 11)
# Commands that only a drive with direct access has.
OF_BLOCKS = re.compile(r"(put|open) 15 (U|B|M-)|open \d+ #")

# Commands that only guarded direct access refuses, and their status then: of a block that is in use, and of V on a disk of GEOS.
REFUSED = (
    (re.compile(r"put 15 (U2|UB|B-[WAF]|BLOCK-[WAF])"), re.compile(r"status 26,WRITE PROTECT ON,(?!00,00)")),
    (re.compile(r"(put|open) 15 V"), re.compile(r"status 26,WRITE PROTECT ON,00,00")),
)


def is_refused(request, after):
    """Whether the answer to the next request shows that this one was refused."""
    return any(command.match(request.line) and status.match(after.answer or "") for command, status in REFUSED)


def of_head(step):
    """Why its head can't be played."""
    if step.disk() == "of zeros":
        return "the disk was never formatted"
    for word in step.words:
        if word in HEADS:
            return HEADS[word]
        if word.startswith("refusing write"):
            return "the disk refuses a write"
        if word not in HARMLESS:
            return "the image has another size"
    return None


def of_pokes(step):
    """Why its pokes can't be made by a drive."""
    for poke in step.pokes:
        error = ERROR.match(poke)
        if error and int(error[3]) in FAULTS:
            return "a sector can't be read"
        if not error and not POKE.match(poke):
            return "bytes of a G64 are changed"
    return None


def of_requests(step):
    """Why its requests can't be played."""
    words = [it.line.split(" ")[0] for it in step.requests]
    if "lines" in words:
        return "changes of the bus's lines"
    if not step.pair() or any(it not in REQUESTS for it in words):
        return "a script or an image that the program refuses"
    is_direct = any(it.startswith("direct") for it in step.words)
    if not is_direct and any(OF_BLOCKS.match(it.line) for it in step.requests):
        return "commands on blocks that are turned off"
    if "direct" in step.words and any(is_refused(it, after) for it, after in zip(step.requests, step.requests[1:])):
        return "a write that only guarded direct access refuses"
    return None


def why_not(step):
    """Why this step can't be played, or None."""
    return of_head(step) or of_pokes(step) or of_requests(step)
