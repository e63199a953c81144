#!/usr/bin/env python3
"""reached.py CRATE FUNCTION [LABEL ..] [-v]: which definitions a contract reaches, and so must be believed by who relies on it.

Run at the top of the repository. Prints how many definitions of specs/ the contract of a public function of a crate
reaches, or those of its clauses that have these labels, and how many lines they have, crate by crate; with -v each by
name. A method may be named TYPE::METHOD or METHOD.
Types of the code (declared structs and enums) aren't counted, nor is the standard library."""
import os
import re
import sys

WORD = re.compile(r"[\w'◌⊎×≡≢≤<>=+\-*/%^|&!]+|\S")
START = re.compile(r"^(?:abbrev |unfoldable )?(?:pub )?(?:record |data )?([A-Za-z_][\w'-]*)\b")


def definitions(path):
    """The definitions of a file: each name with its text, without comments. Those of a `module _ .. where`
    and of a `mutual` stand deeper."""
    found, name, depths = {}, None, [0]
    for line in open(path, encoding="utf-8"):
        text = line.rstrip()
        if not text or text.lstrip().startswith("--"):
            continue
        depth = len(text) - len(text.lstrip())
        while depth < depths[-1]:
            depths.pop()
        if text.lstrip().startswith("module _") or re.match(r"\s*(abbrev |unfoldable )?mutual$", text):
            depths.append(depth + 2)
            continue
        start = START.match(text.lstrip())
        if depth == depths[-1] and not text.startswith("use ") and start:
            name = start.group(1)
            if re.match(r"^(abbrev|unfoldable|pub|record|data)\b", text.lstrip()):
                found.setdefault(name, [])
        if name in found and not text.startswith("use "):
            found[name].append(text)
    return found


def names_used(text):
    """The names that a text brings in by `use`, each with where it stands; files brought in whole by another name."""
    names, files = {}, {}
    for module, tail in re.findall(r"use (Rattle\.[\w.]+?)(\.\{[^}]*\}| as \w+)", text):
        if tail.startswith(" as "):
            files[tail[4:]] = module
            continue
        for item in tail[2:-1].split(","):
            parts = item.strip().split(" as ")
            names[parts[-1].strip()] = (module, parts[0].strip())
    return names, files


class Specs:
    def __init__(self, top):
        self.files, self.passed = {}, {}
        for crate in sorted(os.listdir(os.path.join(top, "crates"))):
            specs = os.path.join(top, "crates", crate, "specs")
            if not os.path.isdir(specs):
                continue
            paths = (os.path.join(at, file) for at, _, names in os.walk(specs) for file in names)
            for path in sorted(paths):
                file = os.path.relpath(path, specs)
                module = f"Rattle.{crate}.specs.{file[:-5].replace(os.sep, '.')}"
                if file == "Lib.antt":
                    for other in re.findall(r"pub use (Rattle\.[\w.]+)", open(path, encoding="utf-8").read()):
                        self.passed[f"Rattle.{crate}.specs.{other.rsplit('.', 1)[1]}"] = other
                else:
                    text = open(path, encoding="utf-8").read()
                    self.files[module] = (definitions(path), *names_used(text))

    def at(self, module):
        while module not in self.files and module in self.passed:
            module = self.passed[module]
        return module

    def named(self, text, own, names, files):
        """The definitions that a text names, by what stands in its file and what that brings in."""
        for word in set(re.findall(r"[A-Za-z_][\w'-]*(?:\.[A-Za-z_][\w'-]*)?", text)):
            front, _, back = word.partition(".")
            if back and front in files:
                module, name = self.at(files[front]), back
            elif front in names:
                module, name = self.at(names[front][0]), names[front][1]
            elif own and front in self.files[own][0]:
                module, name = own, front
            else:
                continue
            if module in self.files and name in self.files[module][0]:
                yield module, name

    def reached(self, first):
        todo, seen = list(first), set()
        while todo:
            at = todo.pop()
            if at in seen:
                continue
            seen.add(at)
            found, names, files = self.files[at[0]]
            todo += self.named("\n".join(found[at[1]]), at[0], names, files)
        return seen


def clauses(text, labels):
    """The clauses of a contract that have these labels."""
    parts = re.split(r"\n(?=\s*(?:requires|ensures)\b)", text)
    found = [it for it in parts for label in [re.match(r"\s*(?:requires|ensures)\s+(\w+)\s*\{", it)] if label and label[1] in labels]
    return "\n".join(found) if len(found) >= len({*labels}) else sys.exit(f"no such clause among: {', '.join(labels)}")


def head(text):
    """A function up to its body: signature and clauses. The body's brace stands where the function does, or ends the signature where there is no clause."""
    lines = text.split("\n")
    place = lines[0][: len(lines[0]) - len(lines[0].lstrip())]
    found = []
    for line in lines:
        if line.startswith(f"{place}{{"):
            break
        found.append(line)
        if re.search(r"\S\s*\{$", line) and not re.search(r"^\s*(requires|ensures)\b", "\n".join(found), re.M):
            break
    return "\n".join(found)


def contract(top, crate, wanted, *labels):
    """The clauses of a function, all or those of these labels, and the names that its file brings in for them."""
    wanted = wanted.split("::")[-1]
    for folder, folders, files in os.walk(os.path.join(top, "crates", crate, "src")):
        folders.sort()
        for file in sorted(files):
            text = open(os.path.join(folder, file), encoding="utf-8").read()
            start = re.search(rf"^ *pub (?:unsafe )?(?:extern \"C\" )?fn {wanted}\b", text, re.M)
            if start:
                found = head(text[start.start():])
                return clauses(found, labels) if labels else found, names_used(text.replace("ghost use", "use"))
    sys.exit(f"no public function {wanted} in {crate}")


def main():
    words = [word for word in sys.argv[1:] if word != "-v"]
    if len(words) < 2:
        sys.exit(__doc__)
    specs = Specs(".")
    text, (names, files) = contract(".", *words)
    seen = sorted(specs.reached(specs.named(text, None, names, files)))
    lines = {at: len(specs.files[at[0]][0][at[1]]) for at in seen}
    print(f"{' '.join(words)}: {len(seen)} definitions, {sum(lines.values())} lines")
    for crate in sorted({at[0].split(".")[1] for at in seen}):
        here = [at for at in seen if at[0].split(".")[1] == crate]
        print(f"  {crate}: {len(here)} definitions, {sum(lines[at] for at in here)} lines")
        if "-v" in sys.argv:
            for module, name in here:
                print(f"    {module.rsplit('.', 1)[1]}: {name} ({lines[module, name]})")


if __name__ == "__main__":
    main()
