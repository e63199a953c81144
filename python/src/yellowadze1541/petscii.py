"""Names as text: the characters of a C64's keys, as disk1541 shows and takes them.

A code with a key of its own is that key's character. Any other is its number, as in `{c1}`.
"""
import codecs
import enum
import re
from typing import Any, Dict, Union

__all__ = ["Charset", "Name", "codes", "name_codes", "text"]

# A name: its codes, or text in the character set of power up.
Name = Union[bytes, str]

# Codes 161 to 191 and 192 to 223, as a C64 shows them at power up (Unicode, "Symbols for Legacy Computing").
_BLOCKS = "▌▄▔▁▏▒▕🮏◤🮇├▗└┐▂┌┴┬┤▎▍🮈🮂🮃▃🭿▖▝┘▘▚"
_LINES = "─♠🭲🭸🭷🭶🭺🭱🭴╮╰╯🭼╲╱🭽🭾●🭻♥🭰╭╳○♣🭵♦┼🮌│π◥"
_PUNCTUATION = "".join(map(chr, range(32, 64)))
_LETTERS = "@ABCDEFGHIJKLMNOPQRSTUVWXYZ[£]↑←"
# What the set with small letters has otherwise beside letters.
_LOWER_BLOCKS = {169: "\U0001fb99", 186: "\u2713", 222: "\U0001fb96", 223: "\U0001fb98"}
_NUMBER = re.compile(r"\{([0-9A-Fa-f]{2})\}|(.)", re.DOTALL)


class Charset(enum.Enum):
    """A character set of a C64."""

    UPPER = "upper"  # that of power up: capital letters and graphics
    LOWER = "lower"  # small letters, and capital letters by SHIFT


def _rows(letters: str, shifted: str, others: Dict[int, str]) -> Dict[int, str]:
    """What each code is shown as, with these letters at 64 and these from 192 on."""
    table = {code: f"{{{code:02x}}}" for code in range(256)}
    for first, row in ((32, _PUNCTUATION), (64, letters), (161, _BLOCKS), (192, shifted)):
        table.update(enumerate(row, first))
    return {**table, **others}


_SHOWN = {
    Charset.UPPER: _rows(_LETTERS, _LINES, {}),
    Charset.LOWER: _rows(_LETTERS.lower(), _LINES[0] + _LETTERS[1:27] + _LINES[27:], _LOWER_BLOCKS),
}
_TYPED = {charset: {shown: code for code, shown in table.items() if len(shown) == 1} for charset, table in _SHOWN.items()}
for _keys in _TYPED.values():
    _keys["_"] = _keys["▁"]
for _small, _large in zip(_LETTERS[1:27].lower(), _LETTERS[1:27]):
    _TYPED[Charset.UPPER][_small] = _TYPED[Charset.UPPER][_large]


# A character for each code, also for those without a key, which have one of their own for the time being.
_OWN = 0xF000
_KEYS: Dict[Charset, Any] = {charset: "".join(shown if len(shown) == 1 else chr(_OWN + code) for code, shown in sorted(table.items())) for charset, table in _SHOWN.items()}
_KEYLESS = re.compile(f"[{chr(_OWN)}-{chr(_OWN + 255)}]")


def keys(name: bytes, charset: Charset) -> str:
    """A character for each code of a name; `spelled` then makes text of them."""
    shown: str = codecs.charmap_decode(name, "strict", _KEYS[charset])[0]
    return shown


def spelled(shown: str) -> str:
    """Text in which a code without a key is its number."""
    return _KEYLESS.sub(lambda it: f"{{{ord(it[0]) - _OWN:02x}}}", shown)


def text(name: bytes, charset: Charset = Charset.UPPER) -> str:
    """A name as text: `codes` takes it back as the same bytes."""
    return spelled(keys(name, charset))


def codes(text: str, charset: Charset = Charset.UPPER) -> bytes:
    """The codes of a name that is typed. In the set of power up small letters mean the capital ones. ValueError: no key has one of the characters."""
    out = bytearray()
    for number, key in _NUMBER.findall(text):
        code = int(number, 16) if number else _TYPED[charset].get(key)
        if code is None:
            raise ValueError(f"no key of a C64 has {key!r}: write its code as {{c1}}")
        out.append(code)
    return bytes(out)


def name_codes(name: Name) -> bytes:
    """The codes of a name that is bytes already, or text in the set of power up. TypeError: it is neither."""
    if isinstance(name, str):
        return codes(name)
    try:
        return name if isinstance(name, bytes) else memoryview(name).tobytes()
    except TypeError:
        raise TypeError(f"a name is bytes or text, not {type(name).__name__}") from None
