"""The kit's libraries that are linked into programs of this repository, and their licences."""
import os, re

from kit import gate, rtlib


def linked(root, names):
    """The kit's libraries that are linked into these crates."""
    every = {it.name: it for it in rtlib.crates_below(root)}
    found = sorted({library for name in names for it in [every[name], *every[name].below()] for library in it.of_kit})
    for library in found:
        with open(f"{gate.KIT}/rlibs/{library}.rlib/format", encoding="utf-8") as it:
            found += [more for more in re.findall(r"^dep (\w+)$", it.read(), re.M) if more not in found]
    return found


def licences(root, names):
    """The licences of these libraries: where each is, and LIBRARY/NAME."""
    for library in linked(root, names):
        folder = f"{gate.KIT}/rattle/{library}"
        for name in sorted(os.listdir(folder)) if os.path.isdir(folder) else []:
            if name.startswith("LICENSE"):
                yield f"{folder}/{name}", f"{library}/{name}"
