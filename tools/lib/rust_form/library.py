"""The C library of a workspace: built without Rust's std, tested by capi's own tests, and compared with the proved one answer by answer."""
import glob
import os
import shutil
import subprocess

PACKAGE = "yellowadze1541_c"
SEEDS = (1, 2, 3)
CORTEX = "thumbv7em-none-eabi"
# A Cortex-M4 with 20 MB, whose files are the host's.
BOARD = "qemu-system-arm -machine mps2-an386 -cpu cortex-m4 -nographic -monitor none -serial none".split()
TO_BOARD = "arm-none-eabi-gcc -mcpu=cortex-m4 -mthumb -mfloat-abi=soft --specs=rdimon.specs -nostartfiles -Wl,--gc-sections".split()


def run(words, folder):
    ran = subprocess.run(words, cwd=folder, capture_output=True, text=True, errors="replace", check=False)
    if ran.returncode:
        raise RuntimeError(f"{' '.join(words)}:\n{(ran.stdout + ran.stderr)[-4000:]}")
    return ran.stdout


def built(out, cargo):
    """The archive, built without Rust's std."""
    run([*cargo, "build", "--release", "--no-default-features", "-p", PACKAGE], out)
    return f"{out}/target/release/lib{PACKAGE}.a"


def proved(root):
    """The archive that was proved on this machine, or None."""
    found = glob.glob(f"{root}/crates/yellowadze1541/out/libyellowadze1541.a")
    return found[0] if found else None


def made(root, archive, room, form):
    """capi's library of an archive of this form, in a folder of its own."""
    run(["make", "-s", "-C", f"{root}/capi", f"BUILT={archive}", f"OUT={room}", f"FORM={form}", "all"], root)
    return f"{room}/libyellowadze1541.a"


def answers(root, library, room, calls):
    """What random calls answer, summed up, for each seed."""
    program = f"{room}/answers"
    words = ["cc", "-std=c99", "-O2", f"-I{root}/capi", f"-I{root}/examples/c", "-o", program, f"{root}/capi/portable/tests/answers.c", library]
    run(words, root)
    return [run([program, f"{root}/examples/hello.d64", str(calls), str(seed)], root) for seed in SEEDS]


def compared(root, out, cargo, room, calls):
    """Whether both libraries answer alike; None if the proved one isn't built here."""
    native = proved(root)
    if not native:
        return None
    both = []
    for name, archive in (("proved", native), ("rust", built(out, cargo))):
        os.makedirs(f"{room}/{name}", exist_ok=True)
        both.append(answers(root, made(root, archive, f"{room}/{name}", name), f"{room}/{name}", calls))
    return both[0] == both[1]


def on_board(words, folder):
    """What a program prints on the emulated Cortex-M4."""
    given = ",".join(["enable=on", "target=native", *(f"arg={it}" for it in words)])
    return run([*BOARD, "-semihosting-config", given, "-kernel", words[0]], folder)


def sessions(compile_to, start, room, name, calls):
    """What the example of a KERNAL and random calls print, with the image that the first saves: a program of each for what `start` runs."""
    for source in ("examples/c/kernal_host.c", "capi/portable/tests/answers.c"):
        compile_to(source, f"{room}/{os.path.basename(source)[:-2]}")
    printed = [start(["kernal_host", "hello.d64", f"{name}.d64"], room)]
    printed += [start(["answers", "hello.d64", str(calls), str(seed)], room) for seed in SEEDS]
    with open(f"{room}/{name}.d64", "rb") as saved:
        return printed, saved.read()


def alike_on_cortex_m(root, out, cargo, room, calls):
    """Whether the library answers on a Cortex-M4 as it does here."""
    run([*cargo, "rustc", "--target", CORTEX, "--profile", "small", "--no-default-features", "-p", PACKAGE, "--crate-type", "staticlib"], out)
    small, here = f"{out}/target/{CORTEX}/small/lib{PACKAGE}.a", built(out, cargo)
    shutil.copy(f"{root}/examples/hello.d64", room)
    common = ["-std=gnu99", "-O2", "-w", f"-I{root}/capi", f"-I{root}/examples/c"]
    board = f"{root}/capi/tests/cortex_m"

    def for_board(source, program):
        run([*TO_BOARD, *common, "-T", f"{board}/memory.ld", f"{board}/start.c", f"{root}/{source}", f"{root}/capi/heap.c", small, "-o", program], root)

    def for_here(source, program):
        run(["cc", *common, f"{root}/{source}", f"{root}/capi/heap.c", here, "-pthread", "-o", program], root)

    native = sessions(for_here, lambda words, folder: run([f"{folder}/{words[0]}", *words[1:]], folder), room, "here", calls)
    return native == sessions(for_board, on_board, room, "board", calls)
