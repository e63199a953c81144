#!/usr/bin/env python3
"""one_file WASM2C.c OUT.c: one C file, for yellowadze1541.h, of what wasm2c 1.0.32 made of the module (which it calls y1541m): runtime.h in place of
wasm2c's own runtime, the functions and the data of the module, and wrap.c. Stops at what runtime.h doesn't have: a table, an import, floats."""
import os, re, sys

HERE = os.path.dirname(os.path.abspath(__file__))
HEAD = """/* yellowadze1541.h in one C99 file. Made by capi/portable/Makefile of the proved library: don't edit it. docs/install.md says what was proved, and
 * which programs made this file of it. */
"""
INSTANCE = """
/* The stack is the first {stack} bytes of these pages. */
enum {{ Y1541_PAGES = {pages} }};

typedef struct Z_y1541m_instance_t {{
    u64 w2c_g0;
    wasm_rt_memory_t w2c_memory;
}} Z_y1541m_instance_t;

"""
START = """
static void y1541_starts(Z_y1541m_instance_t *instance) {{
    instance->w2c_g0 = {stack}u;
{data}
}}

"""


def found(pattern, text, what):
    """What a pattern matches first; stops where it matches nothing."""
    return re.search(pattern, text) or sys.exit(f"one_file: no {what}")


def functions_of(body):
    """The definitions of all functions, each made static, but for the exports that aren't functions."""
    every = re.findall(r"^(?:static )?(?:void|u32|u64) (?:w2c_\w+|Z_y1541mZ_\w+)\([^;{]*\) {\n.*?^}\n", body, re.M | re.S)
    own = [it for it in every if not re.search(r"Z_y1541mZ_(memory|rattle)", it.split("{")[0])]
    return "".join(it if it.startswith("static") else f"static {it}" for it in own)


def one_file(text):
    body = re.sub(r"^static u32 func_types\[.*?\n}\n", "", text[text.index("static u32 func_types[") :], count=1, flags=re.M | re.S)
    if "CALL_INDIRECT" in body or re.search(r"\bZ_envZ|\bf64_|\bf32_", body):
        sys.exit("one_file: the module has a call through a table, an import or floats")
    pages = found(r"wasm_rt_allocate_memory\(&instance->w2c_memory, (\d+), \d+\);", body, "memory")[1]
    stack = found(r"instance->w2c_g0 = (\d+)ull;", body, "stack")[1]
    prototypes = re.findall(r"^static \w+ w2c_\w+\([^;{]*\);\n", body, re.M)
    segments = re.findall(r"^static const u8 data_segment_\w+\[\] = {.*?^};\n", body, re.M | re.S)
    loads = re.findall(r"^  LOAD_DATA\(.*$", body, re.M)
    start = START.format(stack=stack, data="\n".join(f"  {it}" for it in loads))
    with open(f"{HERE}/runtime.h", encoding="utf-8") as runtime, open(f"{HERE}/wrap.c", encoding="utf-8") as wrap:
        return HEAD + runtime.read() + INSTANCE.format(stack=stack, pages=pages) + "".join([*prototypes, "\n", *segments]) + start + functions_of(body) + "\n" + wrap.read()


def main():
    with open(sys.argv[1], encoding="utf-8") as it:
        text = one_file(it.read())
    with open(sys.argv[2], "w", encoding="utf-8") as out:
        out.write(text)


if __name__ == "__main__":
    main()
