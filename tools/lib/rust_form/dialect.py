"""Where the text without contracts isn't Rust yet: a list of forms, each with what Rust says in its place. Nothing else of a file changes."""
import re
from typing import NamedTuple

from rust_form.tokens import closed

# What a crate's root begins with, and what each file does.
ROOT = ["#![no_std]", "extern crate rattle_std as std;"]
IMPORT = ["#[allow(unused_imports)]", "use std::rattle::{assert, assert_eq, assert_ne, *};", ""]

DERIVE = re.compile(r"[ \t]*#\[derive\(([^)]*)\)\]\n")
MODEL_IMPORT = re.compile(r"^[ \t]*use std::marker::Model;\n", re.M)
ERROR_ENUM = re.compile(r"#\[derive\(([^)]*\bError\b[^)]*)\)\]\s*((?:#\[[^\]]*\]\s*)*)pub(?:\(crate\))? enum (\w+) \{")
ERROR_LINE = re.compile(r"[ \t]*#\[error\([^\n]*\)\]\n")
ERROR_VARIANT = re.compile(r"#\[error\((\"(?:[^\"\\]|\\.)*\")\)\]\s*(?:///[^\n]*\s*)*(\w+)(\([^)]*\))?")
# A formatter is generic over its writer in Rattle.
FORMATTER = re.compile(r"fn fmt<W: (?:fmt::)?Write>\(&self, (\w+): &mut (?:fmt::)?Formatter<W>\)")
# Kinds of errors that stable Rust has no names for.
KIND = re.compile(r"(?:io::)?ErrorKind::(FilesystemLoop|Uncategorized) =>")
COLLECT = re.compile(r"\.collect\((?=[^)])")
EXPECT = re.compile(r"\.expect\(&?rt, ")
TEST = re.compile(r"(#\[test\]\n(?:[ \t]*#\[[^\n]*\]\n)*)([ \t]*)fn (\w+)\((\w+): HostRuntime\)")
MAIN = re.compile(r"fn main\((\w+): HostRuntime\)")
MODULE = re.compile(r"^([ \t]*)((?:pub(?:\(\w+\))? )?mod \w+ \{)$", re.M)


class File(NamedTuple):
    """Which file of a crate this is: its root, or that of a program, which says this where memory runs out."""

    is_root: bool
    sentence: str | None


def without_drop(found):
    """A derive without the leave to be dropped, which each value has in Rust."""
    names = [it.strip() for it in found[1].split(",")]
    kept = [it for it in names if it and it != "Drop"]
    return found[0].replace(found[1], ", ".join(kept)) if kept else ""


def arm(name, message, variant, fields):
    count = fields.count(",") + 1 if fields else 0
    names = ", ".join(f"a{it}" for it in range(count))
    pattern = f"{name}::{variant}({names})" if count else f"{name}::{variant}"
    message = re.sub(r"\{(\d)\}", r"{a\1}", message)
    return f"            {pattern} => write!(f, {message}),"


def display(name, body):
    """What thiserror's derive would write, so that nothing needs Rust's std."""
    arms = [arm(name, *it) for it in ERROR_VARIANT.findall(body)]
    lines = [
        f"impl core::fmt::Display for {name} {{",
        "    fn fmt(&self, f: &mut core::fmt::Formatter<'_>) -> core::fmt::Result {",
        "        match self {",
        *arms,
        "        }",
        "    }",
        "}",
        "",
        f"impl core::error::Error for {name} {{}}",
    ]
    return "\n\n" + "\n".join(lines) + "\n"


def with_displays(text):
    while found := ERROR_ENUM.search(text):
        end = closed(text, found.end() - 1)
        body = text[found.end() : end]
        names = ", ".join(it.strip() for it in found[1].split(",") if it.strip() != "Error")
        head = found[0].replace(f"derive({found[1]})", f"derive({names})")
        text = text[: found.start()] + head + ERROR_LINE.sub("", body) + display(found[3], body) + text[end:]
    return text.replace("use thiserror::Error;\n", "")


def with_tests(text):
    """Tests are given the runtime; panics are Rust's."""
    text = EXPECT.sub(".expect(", text).replace("panic!(rt; ", "panic!(")
    return TEST.sub(r"\1\2fn \3() {\n\2    std::test::Ran::ran(\3_with(HostRuntime))\n\2}\n\n\2fn \3_with(\4: HostRuntime)", text)


def with_main(text, sentence):
    """A program is started by the shim, which has its memory, too."""
    return MAIN.sub(f'std::program!("{sentence}");\n\nfn started(\\1: HostRuntime)', text)


def joined(found):
    """A body's brace on the line of its head, if that ends with no comment."""
    return found[0] if "//" in found[1] else f"{found[1]} {{\n"


def without_gaps(text):
    """Without the empty lines and the spaces that clauses leave."""
    text = re.sub(r"[ \t]+\n", "\n", text)
    text = re.sub(r"^([^\n]*[^\s,;{}])\n+[ \t]*\{\n", joined, text, flags=re.M)
    text = re.sub(r"\n\n+([ \t]*)\{\n", r"\n\1{\n", text)
    text = re.sub(r"((?:^|\n)[ \t]*//[^\n]*\n|\{\n)\n+", r"\1", text)
    return re.sub(r"\n{3,}", "\n\n", text)


def with_imports(text, file):
    """What each module of the kit has without naming it."""
    lines = text.split("\n")
    at = 0
    while at < len(lines) and (lines[at].startswith(("//!", "#![")) or not lines[at].strip()):
        at += 1
    inner = [it for it in lines[:at] if it.strip()]
    text = "\n".join([*inner, *(ROOT if file.is_root else []), *IMPORT, *lines[at:]])
    return MODULE.sub(r"\1\2\n\1    #[allow(unused_imports)]\n\1    use std::rattle::*;", text)


def as_rust(text, file):
    """A file's text without contracts as Rust."""
    text = with_tests(with_displays(text))
    text = MODEL_IMPORT.sub("", DERIVE.sub(without_drop, text))
    text = FORMATTER.sub(r"fn fmt(&self, \1: &mut core::fmt::Formatter<'_>)", text)
    text = KIND.sub(r'it if std::io::is_kind(it, "\1") =>', text)
    text = COLLECT.sub(".collect_in(", text)
    text = with_main(text, file.sentence) if file.sentence else text
    return with_imports(without_gaps(text), file)
