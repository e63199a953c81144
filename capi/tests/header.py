#!/usr/bin/env python3
"""header.py HEADER SOURCES: that the C header declares just the functions that the library exports, each with the same parameters and result, that its structs
have the fields of the library's, that its words for a status are the drive's, and that both have one version, for which CHANGELOG.md has a heading."""
import pathlib, re, sys

TYPES = {"u8": "uint8_t", "u16": "uint16_t", "u32": "uint32_t", "u64": "uint64_t", "i32": "int32_t", "usize": "size_t"}
NAMES = {"Handle": "y1541"}


def c_name(name):
    return TYPES.get(name) or NAMES.get(name) or "y1541_" + name.lower()


def c_parameters(words):
    """The types of C's parameters for those of an export; a slice is a pointer and a length, and a Global is nothing."""
    found = []
    for it in re.split(r",(?![^\[]*\])", words):
        kind = it.partition(":")[2].strip()
        if not kind or kind == "Global":
            continue
        mutable, inner = kind.startswith("&mut "), kind.removeprefix("&mut ").removeprefix("&").replace("<'_>", "")
        if inner.startswith("["):
            found += [("" if mutable else "const ") + c_name(inner[1:-1]) + " *", "size_t"]
        elif kind.startswith("&"):
            found.append(("" if mutable else "const ") + c_name(inner) + " *")
        else:
            found.append(c_name(kind))
    return found


def exports(sources):
    text = "\n".join(it.read_text("utf-8") for it in sorted(pathlib.Path(sources).rglob("*.rt")))
    rows = re.findall(r'#\[unsafe\(no_mangle\)\]\s*pub extern "C" fn (\w+)\(([^)]*)\)(?: -> (\w+))?', text)
    structs = re.findall(r"#\[repr\(C\)\][^{]*pub struct (\w+)(?:<'a>)? \{(.*?)\n\}", text, re.S)
    functions = {name: (c_name(result) if result else "void", c_parameters(words)) for name, words, result in rows}
    return functions, {c_name(name): fields_of(body) for name, body in structs}


def length_of(name):
    """In place of the name that a slice's length has in C, and nowhere else."""
    return f"the length of {name}"


def fields_of(body):
    found = []
    for name, kind in re.findall(r"^\s*pub(?:\(crate\))? (\w+): ([^\n]*),$", body, re.M):
        array, slice_of = re.fullmatch(r"\[(\w+); (\d+)\]", kind), re.fullmatch(r"&'a \[(\w+)\]", kind)
        if slice_of:
            found += [(name, f"const {c_name(slice_of[1])} *"), (length_of(name), "size_t")]
            continue
        found.append((name, f"{c_name(array[1])}[{array[2]}]" if array else "void *" if kind.startswith("*mut") else c_name(kind)))
    return found


def declared(header):
    text = re.sub(r"/\*.*?\*/", "", pathlib.Path(header).read_text("utf-8"), flags=re.S)
    functions, structs = {}, {}
    for result, name, words in re.findall(r"^(\w+) (y1541_\w+)\(([^)]*)\);", text, re.M):
        kinds = [re.sub(r"\s*\w+$", "", it.strip()) if "*" not in it else it.strip()[: it.strip().index("*") + 1] for it in words.split(",")]
        functions[name] = (result, [] if words == "void" else kinds)
    for name, body in re.findall(r"typedef struct (\w+) \{(.*?)\}", text, re.S):
        structs[name] = []
        for row in filter(None, map(str.strip, body.split(";"))):
            kind, names = re.fullmatch(r"((?:const )?\w+) (.*)", row).groups()
            for it in names.split(","):
                array = re.fullmatch(r"\s*(\w+)\[(\d+)\]\s*", it)
                bare = it.strip()
                if structs[name] and structs[name][-1][1].startswith("const "):
                    bare = length_of(structs[name][-1][0])
                structs[name].append((array[1], f"{kind}[{array[2]}]") if array else (bare.lstrip("*"), f"{kind} *" if bare.startswith("*") else kind))
    return functions, structs


def versions(header, sources):
    """The version of the header, of the library, and of the newest changes."""
    numbers = []
    for it, pattern in ((pathlib.Path(header), r"define Y1541_VERSION 0x(\w+)u"), (pathlib.Path(sources) / "images.rt", r"const VERSION: u32 = 0x(\w+);")):
        number = int(re.search(pattern, it.read_text("utf-8"))[1].replace("_", ""), 16)
        numbers.append(f"{number >> 16}.{number >> 8 & 255}.{number & 255}")
    changes = pathlib.Path(sources).parents[2] / "CHANGELOG.md"
    return [*numbers, re.search(r"^## (\d+\.\d+\.\d+)", changes.read_text("utf-8"), re.M)[1]]


def words_of_header(header):
    """The header's words for each status."""
    text = pathlib.Path(header).read_text("utf-8")
    rows = re.findall(r'((?:case \d+: ?)+)return "([^"]*)";', text)
    return {int(number): words for numbers, words in rows for number in re.findall(r"\d+", numbers)}


def words_of_drive(sources):
    """The drive's words for each status, but for 0, as cbm_machine has them."""
    text = (pathlib.Path(sources).parents[1] / "cbm_machine/src/code.rt").read_text("utf-8")
    numbers = {name: int(number) for name, number in reversed(re.findall(r"Code::(\w+) => (\d+),", text))}
    rows = re.findall(r'((?:Code::\w+\s*\|?\s*)+)=>\s*b"([^"]*)"', text)
    words = {numbers[name]: words.strip() for names, words in rows for name in re.findall(r"Code::(\w+)", names)}
    return {number: it for number, it in words.items() if number}


def main():
    have, want = declared(sys.argv[1]), exports(sys.argv[2])
    wrong = 0
    for ours, theirs in zip(want, have):
        for name in sorted({*ours, *theirs}):
            if ours.get(name) != theirs.get(name):
                wrong += 1
                print(f"{name}: the library has {ours.get(name)}, the header {theirs.get(name)}")
    ours, theirs = words_of_drive(sys.argv[2]), words_of_header(sys.argv[1])
    for number in sorted({*ours, *theirs}):
        if ours.get(number) != theirs.get(number):
            wrong += 1
            print(f"status {number}: the drive says {ours.get(number)}, the header {theirs.get(number)}")
    numbers = versions(sys.argv[1], sys.argv[2])
    if len(set(numbers)) > 1:
        wrong += 1
        print(f"the header has version {numbers[0]}, the library {numbers[1]}, CHANGELOG.md {numbers[2]}")
    print(f"header: version {numbers[0]}, {len(have[0])} functions and {len(have[1])} structs, {wrong} wrong")
    return 1 if wrong else 0


if __name__ == "__main__":
    sys.exit(main())
