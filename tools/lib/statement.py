"""The statement of proof that each part of a release has."""
import re, subprocess

HEAD = """Yellowadze 1541 {version}: statement of proof

What was proved is the text of this commit. What runs was made of it by the programs under "Made by", which nobody has proved.

Commit  {commit}
Date    {date}
Kit     {kit}
Gate    {gate}

What the contracts say, and what must be trusted, is in docs/proved.md of this commit; docs/install.md says what each form rests on.

Proved

Each crate, with the sum of all that its proof read: rt ci keeps what it has proved under this sum, and nothing else. Under it the verdict, rattle's last
line, from the gate's log. A crate without one was kept from an earlier run, which prints none; tools/fast_check in its folder prints it.

{crates}

The C library, proved once more as it was built for this release:

{library}

The WebAssembly module and the C file are made of the LLVM module that the build for aarch64 handed to clang; its verdict is the one they quote.

Made by

{makers}

The same bytes again

    git checkout {commit}
    tools/gate > gate.log
    tools/release --log gate.log OUT

with the kit and the programs above. Where the gate's log isn't the same, this statement differs in it, and nothing else does.

Files, by SHA-256

"""
MAKERS = "cc ld objcopy strip aarch64-linux-gnu-gcc aarch64-linux-gnu-ld wasm-ld wasm-opt wasm2c dpkg-deb python3".split()


def version_of(name):
    """What a program says of its version, or None where it isn't here."""
    try:
        said = subprocess.run([name, "--version"], capture_output=True, text=True, check=True).stdout.strip().splitlines()[0]
    except (OSError, subprocess.CalledProcessError, IndexError):
        return None
    return f"{name}: {said}"


def verdicts_of(log):
    """The last verdict that a log of rt ci has for each crate, by name, and the last line of the last run."""
    found, name, last = {}, None, "the log has no last line of rt ci" if log else "no log was given"
    for line in log.splitlines():
        if line.startswith("== "):
            # (those of its tests have more words)
            part = re.fullmatch(r"== (\w+)", line)
            name = part and part[1]
        elif line.startswith("logic=proved ") and name:
            found[name] = line
        elif re.match(r"\d+ passed, \d+ failed", line):
            last = line
    return found, last


def statement(version, commit, date, kit, sums, log, built):
    """The statement without the files, of the sums of the crates by name, the gate's log, and the verdicts of what was built, by name."""
    verdicts, gate = verdicts_of(log)
    crates = "\n".join(f"{name}  {it}" + (f"\n    {verdicts[name]}" if name in verdicts else "") for name, it in sorted(sums.items()))
    library = "\n".join(f"{name}\n" + "\n".join(f"    {it}" for it in lines) for name, lines in built.items())
    makers = "\n".join(it for it in (version_of(name) for name in MAKERS) if it)
    return HEAD.format(version=version, commit=commit, date=date, kit=kit, gate=gate, crates=crates, library=library, makers=makers)
