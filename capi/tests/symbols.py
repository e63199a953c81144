#!/usr/bin/env python3
"""symbols.py LIBRARY: that the static library shows no names but y1541_*, wants none but of the C library, and has no data that is written."""
import re, subprocess, sys

WANTED = {"malloc", "realloc", "free", "memcpy", "memmove", "memset", "memcmp", "bcmp", "__stack_chk_fail"}


def lines(*words):
    return subprocess.run(words, capture_output=True, text=True, check=True).stdout.splitlines()


def main():
    library = sys.argv[1]
    rows = [it.split() for it in lines("nm", library) if it.strip() and not it.endswith(":")]
    shown = {it[-1] for it in rows if len(it) == 3 and it[1].isupper()}
    wanted = {it[-1] for it in rows if it[0] in "Uw" and len(it) == 2}
    strange = sorted({it for it in shown if not it.startswith("y1541_")} | (wanted - WANTED - {"_GLOBAL_OFFSET_TABLE_"}))
    sizes = {m[1]: int(m[2]) for it in lines("size", "-A", library) for m in [re.match(r"(\.\S+)\s+(\d+)", it)] if m}
    written = {name: size for name, size in sizes.items() if re.match(r"\.(data|bss|tdata|tbss)(\.|$)", name) and size and ".rel.ro" not in name}
    bytes_in = len(open(library, "rb").read())
    print(f"symbols: {len(shown)} shown, {len(wanted)} wanted, {bytes_in} bytes in all; strange: {', '.join(strange) or 'none'}; written data: {written or 'none'}")
    return 1 if strange or written else 0


if __name__ == "__main__":
    sys.exit(main())
