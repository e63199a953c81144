#!/usr/bin/env python3
"""retarget MODULE.ll OUT.ll: takes the LLVM module that rattle made of a proved library for aarch64, as text (clang -S -emit-llvm -Xclang
-disable-llvm-passes), and gives it the target, the data layout and the attributes that rattle gives for wasm64. On both, pointers and usize have 64 bits.
Stops at any word that belongs to the first target alone."""
import re, sys

LAYOUT = "e-m:e-p:64:64-p10:8:8-p20:8:8-i64:64-i128:128-n32:64-S128-ni:1:10:20"
OF_AARCH64 = '"frame-pointer"="non-leaf" "probe-stack"="inline-asm" "stack-probe-size"="3072" "target-cpu"="generic"'
OF_WASM64 = '"no-builtin-bcmp" "no-builtin-memcmp" "no-builtin-strlen" "probe-stack"="inline-asm" "stack-probe-size"="3072" "target-cpu"="lime1"'
# What is replaced, by what, and how often it must stand there (None: at least once).
CHANGES = (
    (r'^target datalayout = ".*"$', f'target datalayout = "{LAYOUT}"', 1),
    (r'^target triple = "aarch64-unknown-linux-gnu"$', 'target triple = "wasm64-unknown-unknown"', 1),
    (re.escape(OF_AARCH64), OF_WASM64, None),
)
FOREIGN = ("aarch64", " asm ", "llvm.frameaddress", "addrspace(", "thread_local", "cmpxchg", "atomicrmw")
MEMORY = {"rattle_alloc", "rattle_realloc", "rattle_dealloc"}


def retargeted(text):
    for pattern, by, count in CHANGES:
        text, found = re.subn(pattern, by, text, flags=re.M)
        if found != count if count else not found:
            sys.exit(f"retarget: {pattern}: found {found} times")
    left = [it for it in FOREIGN if it in text]
    called = {it for it in re.findall(r"^declare .*@(\w[\w.]*)\(", text, re.M) if not it.startswith("llvm.")} - MEMORY
    if left or called:
        sys.exit(f"retarget: the module has {left}, and calls {sorted(called)}")
    return text


def main():
    with open(sys.argv[1], encoding="utf-8") as it:
        text = retargeted(it.read())
    with open(sys.argv[2], "w", encoding="utf-8") as out:
        out.write(text)


if __name__ == "__main__":
    main()
