"""The crates of crates.txt, and what cargo is told of each."""
import os
import re
from typing import NamedTuple

from rust_form.c_calls import with_c_calls
from rust_form.dialect import File, as_rust
from rust_form.ghosts import without_ghosts

# Where Rust's std is needed: the shim's feature.
NEEDS_OS = re.compile(r"std::(io|fs|rt|env|path|time|process::ExitCode)\b|std::\{|e?println!|std::program!")
# What stands for the kit's crates; None: nothing does. PATH is the folder of this repository's Rust crates.
OF_KIT = {
    "arrayvec": '{ version = "0.7", default-features = false }',
    "byteorder": '{ version = "1", default-features = false }',
    "clap": '{ package = "rattle_clap", path = "PATH/rattle_clap" }',
    "csv": '{ package = "rattle_csv", path = "PATH/rattle_csv" }',
    "either": '{ version = "1", default-features = false, features = ["use_std"] }',
    "itoa": '"1"',
    "memchr": '{ version = "2", default-features = false }',
    "serde": '{ version = "1", features = ["derive"] }',
    "serde_json": '{ package = "rattle_serde_json", path = "PATH/rattle_serde_json" }',
    "sha2": '{ version = "0.10", default-features = false }',
    "std_alloc": None,
    "thiserror": None,
    "toml": '{ package = "rattle_toml", path = "PATH/rattle_toml" }',
}
# What a program says where memory runs out in code that isn't these crates'.
NO_MEMORY = {"disk1541": "disk1541: no memory"}


class Crate(NamedTuple):
    name: str
    is_for_c: bool
    names: tuple


def crates_of(root):
    """All crates, by name."""
    crates = {}
    with open(f"{root}/crates.txt", encoding="utf-8") as lines:
        for line in lines:
            head, _, names = line.partition("#")[0].partition(":")
            if head.strip():
                name, *kinds = head.split()
                crates[name] = Crate(name, "staticlib" in kinds, tuple(names.split()))
    return crates


def with_those_below(crates, asked):
    """The crates that are asked for and all that they stand on, in order of their names."""
    found, todo = set(), list(asked)
    while todo:
        name = todo.pop()
        if name in crates and name not in found:
            found.add(name)
            todo += crates[name].names
    return [crates[it] for it in sorted(found)]


def sources_of(root, crate):
    """The files of a crate: the path of each in src/, and its Rattle text."""
    source = f"{root}/crates/{crate.name}/src"
    for folder, _, files in sorted(os.walk(source)):
        for file in sorted(files):
            if file.endswith(".rt"):
                path = os.path.join(folder, file)
                with open(path, encoding="utf-8") as text:
                    yield os.path.relpath(path, source), text.read()


# The C library's root in this form has these, too: its memory and its panic are Rust's, or those of rust/bare.rs; rust/module.rs is for WebAssembly.
BARE = """
#[cfg(target_arch = "wasm32")]
mod module;
#[cfg(not(feature = "host"))]
mod bare;
#[cfg(feature = "host")]
extern crate std as _;
"""


def rust_files(root, crate):
    """The files of a crate as Rust: the path of each in src/, and its text."""
    if crate.is_for_c:
        for name in "bare.rs", "module.rs":
            with open(f"{root}/rust/{name}", encoding="utf-8") as text:
                yield name, text.read()
    for path, text in sources_of(root, crate):
        text = without_ghosts(text)
        if "no_mangle" in text:
            text = with_c_calls(text)
        file = File(is_root=path in ("lib.rt", "main.rt"), sentence=NO_MEMORY.get(crate.name, "no memory") if path == "main.rt" else None)
        text = as_rust(text, file)
        yield f"{path[:-3]}.rs", text + (BARE if crate.is_for_c and path == "lib.rt" else "")


def description_of(files):
    """The first sentence of a crate's documentation."""
    root = files.get("lib.rs") or files["main.rs"]
    found = re.match(r"//! ([^\n]*?)(?:[.:](?:\s|$)|\n)", root)
    return found[1].replace('"', "'") if found else "A part of the Yellowadze 1541"


def manifest(crate, files, version, known):
    """A crate's Cargo.toml."""
    lines = ["[package]", f'name = "{package_of(crate)}"', f'description = "{description_of(files)}"', f'version = "{version}"', 'edition = "2024"', "publish = false", ""]
    if "main.rs" not in files:
        kinds = ['crate-type = ["cdylib", "staticlib"]'] if crate.is_for_c else []
        lines += ["[lib]", *kinds, "doctest = false", ""]
    if crate.is_for_c:
        lines += ["[features]", "# Rust's std has the memory and the panic; without it C's malloc, by capi/heap.c.", 'default = ["host"]', "host = []", ""]
    needs_os = any(NEEDS_OS.search(it) for it in files.values())
    features = ['"os"'] * needs_os + ['"serde"'] * ("serde" in crate.names)
    lines += ["[dependencies]", f'rattle_std = {{ path = "../../rust/rattle_std", features = [{", ".join(features)}] }}']
    for name in crate.names:
        value = f'{{ path = "../{name}" }}' if name in known else OF_KIT[name]
        if value:
            lines.append(f"{name} = {value.replace('PATH', '../../rust')}")
    return "\n".join([*lines, "", "[lints]", "workspace = true"]) + "\n"


def package_of(crate):
    """Its name for cargo: the name of the C library is that of the crate for Rust programmers."""
    return f"{crate.name}_c" if crate.is_for_c else crate.name
