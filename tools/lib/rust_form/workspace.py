"""A cargo workspace of the crates, in a folder of its own that needs nothing of the repository."""
import glob
import os
import re
import shutil

from rust_form.crates import crates_of, manifest, package_of, rust_files, with_those_below

# Where Debian's packages put the crates of others.
DEBIAN = "/usr/share/cargo/registry"
# Those that the workspace stands on, as cargo's registry names them. (csv and sha2 are in disk1541 alone)
OTHERS = ("arrayvec", "byteorder", "clap", "csv", "either", "itoa", "memchr", "serde", "serde_json", "sha2", "toml")
OFFLINE = f"""# The crates of others are those of Debian's packages librust-*-dev.
[source.crates-io]
replace-with = "debian"

[source.debian]
directory = "{DEBIAN}"

[net]
offline = true

"""
# The stack is part of a drive's memory in WebAssembly: the module that is made from the proof has the same.
MODULE = """[target.wasm32-unknown-unknown]
rustflags = ["-Clink-arg=-zstack-size=163840"]
"""
SETTINGS = """
# Names that only clauses and proofs use.
[workspace.lints.rust]
unused_imports = "allow"
unused_labels = "allow"
unused_variables = "allow"

# `cargo build`, `cargo test`: each sum, index and proved assertion is looked at.
[profile.dev]
opt-level = 1
debug = false
incremental = false

[profile.dev.package."*"]
opt-level = 1

# What is used: a proof says that no sum overflows.
[profile.release]
panic = "abort"
lto = "fat"
codegen-units = 1

# As small as it gets: WebAssembly, microcontrollers.
[profile.small]
inherits = "release"
opt-level = "z"
"""


def version_of(root):
    """The version of all parts, as the C header has it: two hexadecimal digits for each of its numbers."""
    with open(f"{root}/capi/yellowadze1541.h", encoding="utf-8") as text:
        digits = re.search(r"^#define Y1541_VERSION 0x([0-9a-f]{6})", text.read(), re.M)[1]
    return ".".join(str(int(digits[at : at + 2], 16)) for at in (0, 2, 4))


def write(path, text):
    """Writes a file, unless it is so already: cargo compiles again what is newer."""
    if os.path.exists(path):
        with open(path, encoding="utf-8") as there:
            if there.read() == text:
                return
    os.makedirs(os.path.dirname(path), exist_ok=True)
    with open(path, "w", encoding="utf-8") as out:
        out.write(text)


def write_crate(root, out, crate, version, known):
    """Writes a crate, and removes files that it no longer has."""
    folder = f"{out}/crates/{crate.name}"
    files = dict(rust_files(root, crate))
    for path, text in files.items():
        write(f"{folder}/src/{path}", text)
    write(f"{folder}/Cargo.toml", manifest(crate, files, version, known))
    for path in glob.glob(f"{folder}/src/**/*.rs", recursive=True):
        if os.path.relpath(path, f"{folder}/src") not in files:
            os.remove(path)


def stands_on(folder):
    """The crates of the repository that a crate in Rust names."""
    with open(f"{folder}/Cargo.toml", encoding="utf-8") as text:
        return re.findall(r'path = "\.\./\.\./crates/(\w+)"', text.read())


def write_own(root, out, crates):
    """The crates that are written in Rust, if what they stand on is there. Their names."""
    folders = sorted(it for it in glob.glob(f"{root}/rust/*") if os.path.exists(f"{it}/Cargo.toml"))
    taken = [it for it in folders if set(stands_on(it)) <= crates]
    for folder in taken:
        for path in glob.glob(f"{folder}/**/*.*", recursive=True):
            name = os.path.relpath(path, f"{root}/rust")
            if os.path.isfile(path) and name.split(os.sep)[1] != "target":
                with open(path, encoding="utf-8") as text:
                    write(f"{out}/rust/{name}", text.read())
    return [os.path.basename(it) for it in taken]


def has_debians():
    """Whether Debian's packages have all crates of others."""
    return all(glob.glob(f"{DEBIAN}/{name}-[0-9]*") for name in OTHERS)


def write_settings(out, is_debian):
    """Where cargo gets the crates of others, and how it links the module for WebAssembly."""
    write(f"{out}/.cargo/config.toml", (OFFLINE if is_debian else "") + MODULE)


def make(root, out, only, is_debian):
    """Makes the workspace, of all crates or of these and those below. Returns how many crates it has."""
    known, version = crates_of(root), version_of(root)
    crates = with_those_below(known, only or known)
    for crate in crates:
        write_crate(root, out, crate, version, known)
    own = write_own(root, out, {it.name for it in crates})
    members = [*(f"crates/{it.name}" for it in crates), *(f"rust/{it}" for it in own)]
    listed = "\n".join(f'    "{it}",' for it in members)
    write(f"{out}/Cargo.toml", f'[workspace]\nresolver = "2"\nmembers = [\n{listed}\n]\n{SETTINGS}')
    write_settings(out, is_debian)
    for folder in glob.glob(f"{out}/crates/*"):
        if os.path.basename(folder) not in {it.name for it in crates}:
            shutil.rmtree(folder)
    return len(members)
