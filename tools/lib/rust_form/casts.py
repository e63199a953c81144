"""Casts to usize that a target with 32 bits would cut: no proof looks at them, since Rattle's usize has 64 bits. clippy finds them."""
import json
import subprocess

LINT = "clippy::cast_possible_truncation"
# Casts that were looked at: the file, the line's text, and why nothing is cut.
KNOWN = {("cbm_device/src/image_disk/saving.rs", "Some(bytes.split_at(count as usize))"): "the count is at most the length of the bytes"}


def casts_of(out, cargo, packages):
    """The casts of these crates: file, line, the line's text."""
    named = [word for it in packages for word in ("-p", it)]
    words = [*cargo, "clippy", "--no-deps", "--message-format=json", *named, "--", "-A", "clippy::all", "-W", LINT]
    ran = subprocess.run(words, cwd=out, capture_output=True, text=True, check=False)
    if ran.returncode:
        raise RuntimeError(ran.stderr[-3000:])
    found = []
    for line in ran.stdout.splitlines():
        message = json.loads(line).get("message") or {}
        if (message.get("code") or {}).get("code") == LINT and "to `usize`" in message["message"]:
            span = message["spans"][0]
            found.append((span["file_name"], span["line_start"], span["text"][0]["text"].strip()))
    return sorted(set(found))
