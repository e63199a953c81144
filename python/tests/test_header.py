"""The declarations of the package against capi/yellowadze1541.h, and its words against where they come from."""
import ctypes
import re
import unittest

from support import ROOT
from yellowadze1541 import Form, Pace, _library, refusals

HEADER = (ROOT / "capi" / "yellowadze1541.h").read_text(encoding="utf-8")
CODE = re.sub(r"/\*.*?\*/", "", HEADER, flags=re.DOTALL)
# C's types, and what they are for ctypes.
NUMBERS = {"uint8_t": ctypes.c_uint8, "uint16_t": ctypes.c_uint16, "uint32_t": ctypes.c_uint32, "uint64_t": ctypes.c_uint64, "size_t": ctypes.c_size_t, "int32_t": ctypes.c_int32}
STRUCTS = {
    "y1541": _library.Handle,
    "y1541_pulls": _library.Pulls,
    "y1541_reacted": _library.Reacted,
    "y1541_place": _library.Place,
    "y1541_title": _library.Title,
    "y1541_entry": _library.EntryStruct,
    "y1541_flaw": _library.FlawStruct,
    "y1541_lost": _library.LostStruct,
    "y1541_file": _library.FileStruct,
    "y1541_said": _library.SaidStruct,
}


def enum_of(name):
    """The members of an enum of the header."""
    body = re.search(rf"enum {name} \{{(.*?)\}};", CODE, re.DOTALL)[1]
    return {key: int(value) for key, value in re.findall(r"(\w+) = (-?\d+)", body)}


def fields_of(name):
    """The fields of a struct of the header: names and C types, with the count of an array."""
    body = re.search(rf"typedef struct {name} \{{(.*?)\}} {name};", CODE, re.DOTALL)[1]
    fields = []
    for kind, names in re.findall(r"(?:const )?(\w+) ([^;]+);", body):
        for one in names.split(","):
            field, count = re.fullmatch(r"\s*\**(\w+)(?:\[(\d+)\])?", one).groups()
            pointer = ctypes.c_char_p if kind == "uint8_t" else ctypes.c_void_p
            fields.append((field, pointer if "*" in one else NUMBERS[kind] * int(count) if count else NUMBERS[kind]))
    return fields


def is_as(argument, declared):
    """Whether a type of ctypes may stand for an argument of C."""
    kind, pointer = re.fullmatch(r"(?:const )?(\w+) (\*?)\w+", declared.strip()).groups()
    if not pointer:
        return argument is NUMBERS[kind]
    if kind == "uint8_t":
        return argument in (ctypes.c_char_p, ctypes.c_void_p, ctypes.POINTER(ctypes.c_uint8))
    return argument is ctypes.c_void_p or argument is ctypes.POINTER({**NUMBERS, **STRUCTS}[kind])


class Header(unittest.TestCase):
    def test_the_version_is_the_headers(self):
        self.assertEqual(_library.VERSION, int(re.search(r"Y1541_VERSION 0x(\w+)u", HEADER)[1], 16))

    def test_the_structs_have_the_headers_fields(self):
        for name, struct in STRUCTS.items():
            with self.subTest(name=name):
                self.assertEqual(list(struct._fields_), fields_of(name))

    def test_the_bytes_of_structs_lie_as_they_are_unpacked(self):
        for struct, form in ((_library.EntryStruct, _library.ENTRY), (_library.FlawStruct, _library.FLAW)):
            self.assertEqual(ctypes.sizeof(struct), form.size)
            values = struct.from_buffer_copy(bytes(range(1, form.size + 1)))
            there = [getattr(values, name) for name, _ in struct._fields_]
            self.assertEqual([bytes(it) if isinstance(it, ctypes.Array) else it for it in there], list(form.unpack(bytes(values))))

    def test_the_calls_take_the_headers_arguments(self):
        for name, arguments in _library.CALLS.items():
            with self.subTest(name=name):
                answer, declared = re.search(rf"(\w+) {name}\(([^)]*)\);", CODE).groups()
                parts = declared.split(",")
                self.assertEqual(len(arguments), len(parts))
                self.assertTrue(all(map(is_as, arguments, parts)), f"{arguments} for {declared}")
                self.assertIs(_library.ANSWERS.get(name, ctypes.c_int32), None if answer == "void" else NUMBERS[answer])

    def test_the_numbers_are_the_headers(self):
        self.assertEqual([int(it) for it in Form], list(enum_of("y1541_form").values()))
        self.assertEqual({f"Y1541_{it.name}": int(it) for it in Pace}, enum_of("y1541_pace"))
        results = {key[6:]: value for key, value in enum_of("y1541_result").items() if value}
        self.assertEqual({name: getattr(refusals, name) for name in results}, results)

    def test_the_words_are_the_headers(self):
        body = re.search(r"y1541_text\(int32_t number\) \{(.*?)default:", CODE, re.DOTALL)[1]
        names = enum_of("y1541_result")
        words = {}
        for cases, said in re.findall(r"((?:case \w+: )+)return \"([^\"]*)\";", body):
            words.update({names.get(it) if it in names else int(it): said for it in re.findall(r"case (\w+):", cases)})
        self.assertEqual(refusals.WORDS, words)

    def test_the_words_of_flaws_are_the_tools(self):
        source = (ROOT / "crates" / "cbm_shell" / "src" / "texts" / "checking.rt").read_text(encoding="utf-8")
        self.assertEqual(refusals.FLAWS, {int(number): said for number, said in re.findall(r"(\d) => b\"([^\"]*)\"", source)})



if __name__ == "__main__":
    unittest.main()
