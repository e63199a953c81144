"""How long a case takes on a 1541, estimated from the bytes that are moved and from the commands. Nothing was measured on a drive."""
from . import code, plan

# Seconds a byte on the serial bus, by a KERNAL; seconds a block that is written.
BYTE, BLOCK = 0.0025, 0.35
# Seconds that operations take, apart from their bytes.
OPERATIONS = {"IMAGE": 20, "NEW": 4, "FORMAT": 80, "CALM": 1.5, "RESTART": 4, "ZEROS": 1.5, "PATCH": 1.5, "SECTOR": 1, "DIRECTORY": 2, "FREE": 2, "OPEN": 0.7, "CLOSE": 1}
# Seconds that commands take, by their first letter.
COMMANDS = {"N": 10, "V": 15, "S": 3, "C": 5, "R": 2, "U": 0.5, "B": 1, "I": 0.5}
# How many bytes stand between an operation's code and its text.
BEFORE_TEXT = {"OPEN": 1, "PUT": 1, "GET": 2, "GET_BEGINNING": 3, "STATUS": 0, "DIRECTORY": 0, "SECTOR": 3}
BYTES_OF_BLOCK = 254


def of_put(op, length):
    """Seconds of a text that is sent: a command, or bytes of a file."""
    if op[1] == 15 and length:
        return COMMANDS.get(chr(op[3]), 0)
    return BLOCK * (length // BYTES_OF_BLOCK)


def of_operation(op):
    """Seconds of an operation."""
    name = code.NAMES[op[0]]
    seconds = OPERATIONS.get(name, 0)
    if name in BEFORE_TEXT:
        length = code.length(op[1 + BEFORE_TEXT[name] :])
        seconds += BYTE * length + (of_put(op, length) if name == "PUT" else 0)
    return seconds


def of_case(played):
    """Seconds of a transcript, with its disks."""
    seconds = 0
    for it in played.ops:
        ops = [code.op("NEW"), *it.ops] if isinstance(it, plan.Prepared) else [it] if isinstance(it, bytes) else [it.op()]
        seconds += sum(map(of_operation, ops))
    return seconds
