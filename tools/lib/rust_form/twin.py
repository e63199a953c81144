"""What the kit's own compiler says of the stripping: it compiles a program of the sources, and of the same text with spaces in place of what is left out,
without a proof, and the LLVM modules that it hands to clang are compared, function by function. It needs the kit."""
import hashlib
import os
import re
import shutil
import subprocess

import kept
import tried
from kit import gate

from rust_form.ghosts import blanked

# A clang that keeps the program's module, and goes no further. (the first module that comes is a small one of the runtime's options)
CLANG = """#!/bin/sh
if [ "$(stat -c %s module.bc)" -gt 100000 ]; then cp module.bc "KEPT"; exit 1; fi
exec "{kit}/bin/clang" "$@"
"""
FUNCTION = re.compile(r"^define [^\n]*?@(\"[^\"\n]*\"|[\w.$]+)\([^\n]*\{\n.*?^\}", re.M | re.S)
STATIC = re.compile(r"^(@static\.\d+) = (.*)$", re.M)


def blank_copy(root, folder):
    """A copy of the crates with spaces in place of what is left out."""
    for name in ("crates.txt", "HANDLES"):
        shutil.copy(f"{root}/{name}", folder)
    shutil.copytree(f"{root}/crates", f"{folder}/crates", ignore=shutil.ignore_patterns("out"))
    for where, _, files in os.walk(f"{folder}/crates"):
        for file in files:
            if file.endswith(".rt"):
                path = os.path.join(where, file)
                with open(path, encoding="utf-8") as it:
                    text = it.read()
                with open(path, "w", encoding="utf-8") as out:
                    out.write(blanked(text))


def module_of(root, name, room):
    """The LLVM module of a crate's program, or of its tests if it has none, as text."""
    kept_at = f"{room}/module.bc"
    tried.CLANG = CLANG.replace("KEPT", kept_at)
    crate = {it.name: it for it in kept.crates_of(root)}[name]
    ran = tried.run(crate, f"{room}/program", tests=not crate.is_program)
    if not os.path.exists(kept_at):
        raise RuntimeError(ran.stdout + ran.stderr)
    clang = f"{gate.KIT}/toolchain/bin/clang"
    subprocess.run([clang, "-x", "ir", kept_at, "-S", "-emit-llvm", "-Xclang", "-disable-llvm-passes", "-o", f"{room}/module.ll"], check=True)
    os.remove(kept_at)
    with open(f"{room}/module.ll", encoding="utf-8", errors="surrogateescape") as text:
        return text.read()


def functions_of(module):
    """Each function of a module by its name. A constant is named by what it holds, since their order says nothing."""
    sums = {name: hashlib.sha256(value.encode("utf-8", "surrogateescape")).hexdigest()[:16] for name, value in STATIC.findall(module)}
    module = re.sub(r"@static\.\d+\b", lambda it: f"@constant.{sums.get(it[0], it[0])}", module)
    return {it[1].strip('"'): it[0] for it in FUNCTION.finditer(module)}


def differing(first, second):
    """The names of the functions that differ, or that one of them lacks."""
    return sorted(it for it in first.keys() | second.keys() if first.get(it) != second.get(it))
