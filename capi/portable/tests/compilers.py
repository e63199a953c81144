#!/usr/bin/env python3
"""compilers FOLDER IMAGE CALLS SEED: compiles the C file in FOLDER by each compiler that is there, prints seconds of processor, memory and code, and links
tests with it. Where what it makes can run here, the answers must be the native library's; where it can't, linking or compiling is all, and is said."""
import os, resource, shutil, subprocess, sys

HERE = os.path.dirname(os.path.abspath(__file__))
CAPI = os.path.dirname(os.path.dirname(HERE))
C = os.path.join(os.path.dirname(CAPI), "examples/c")
QEMU = ("qemu-aarch64", "-L", "/usr/aarch64-linux-gnu")
# A name, the compiler with its flags, and what runs its programs: nothing (), a program, or None where none does.
WAYS = (
    ("gcc -O2", ("gcc", "-O2"), ()),
    ("gcc -O2, unchecked", ("gcc", "-O2", "-DY1541_UNCHECKED"), ()),
    ("gcc -Os", ("gcc", "-Os"), ()),
    ("clang -O2", ("clang", "-O2"), ()),
    ("gcc -m32 -O2", ("gcc", "-m32", "-O2"), ()),
    ("aarch64 gcc -O2", ("aarch64-linux-gnu-gcc", "-O2"), QEMU),
    ("mingw -O2", ("x86_64-w64-mingw32-gcc", "-O2"), None),
    ("Cortex-M4 gcc -Os", ("arm-none-eabi-gcc", "-Os", "-mcpu=cortex-m4", "-mthumb"), None),
)
# What needs no threads and no clock, and so is linked for each machine that has files.
LINKED = (f"{C}/kernal_host.c", f"{C}/emulator_loop.c", f"{CAPI}/tests/random.c", f"{HERE}/answers.c")


def compiled(compiler, source, out):
    """Whether it is compiled, with seconds of processor and megabytes of memory."""
    words = [*compiler, "-std=c99", "-w", f"-I{CAPI}", "-c", source, "-o", out]
    child = subprocess.Popen(words)
    _, status, used = os.wait4(child.pid, 0)
    child.returncode = os.waitstatus_to_exitcode(status)
    return child.returncode == 0, used.ru_utime + used.ru_stime, used.ru_maxrss // 1024


def code_of(path):
    """The bytes of code and constants of an object."""
    said = subprocess.run(["size", path], capture_output=True, text=True, check=False).stdout.splitlines()
    return said[1].split()[0] if len(said) > 1 else "?"


def linked(compiler, folder, made):
    """The programs that are linked with the object, by the names of their sources."""
    found = {}
    for source in LINKED:
        name = os.path.basename(source)[:-2]
        found[name] = f"{made}_{name}"
        subprocess.run([*compiler, "-std=c99", "-w", f"-I{CAPI}", f"-I{C}", "-o", found[name], source, made], check=True)
    return found


def said(runner, program, *words):
    return subprocess.run([*runner, program, *words], capture_output=True, check=True).stdout


def differs(runner, programs, folder, image, calls, seed):
    """The tests whose answers aren't the native library's."""
    read = lambda name: open(f"{folder}/{name}", "rb").read()
    host = said(runner, programs["kernal_host"], image, f"{folder}/of_compiler.d64")
    found = [] if host == read("native.txt") and read("of_compiler.d64") == read("native.d64") else ["kernal_host"]
    found += [] if said(runner, programs["answers"], image, calls, seed) == read(f"answers_{calls}_{seed}.txt") else ["answers"]
    said(runner, programs["random"], image, calls), said(runner, programs["emulator_loop"], image)
    return found


def main():
    folder, image, calls, seed = sys.argv[1:]
    resource.setrlimit(resource.RLIMIT_CORE, (0, 0))
    wrong = 0
    for number, (name, compiler, runner) in enumerate(WAYS):
        if not shutil.which(compiler[0]) or (runner and not shutil.which(runner[0])):
            print(f"{name}: not here", flush=True)
            continue
        made = f"{folder}/by_{number}.o"
        is_made, seconds, memory = compiled(compiler, f"{folder}/yellowadze1541.c", made)
        is_bare = compiler[0].startswith("arm-none")
        programs = linked(compiler, folder, made) if is_made and not is_bare else {}
        bad = differs(runner, programs, folder, image, calls, seed) if programs and runner is not None else []
        ran = "failed" if not is_made else "compiled" if is_bare else "linked" if runner is None else f"differs: {bad}" if bad else "same answers"
        print(f"{name}: {seconds:.0f} s of processor, {memory} MB, {code_of(made)} bytes of code: {ran}", flush=True)
        wrong += not is_made or bool(bad)
    print(f"compilers: {wrong} wrong")
    return wrong != 0


if __name__ == "__main__":
    sys.exit(main())
