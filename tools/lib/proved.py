"""The proved C library as tools/fast_check builds it for a target, with rattle's verdict. A verdict stands beside the archive that it is of, with a sum of
what was proved, so the library is built again only when its crates, the kit or the archive changed."""
import hashlib, os, subprocess, sys

import kept
from kit import gate, rtlib

ROOT = os.path.dirname(os.path.dirname(os.path.dirname(os.path.realpath(__file__))))
CRATE = f"{ROOT}/crates/yellowadze1541"
VERDICT = ("axioms ", "logic=")


def mark_of(crate, archive):
    """A sum of the kit and of all that is proved for a crate, and one of what was built."""
    sources = sorted((it.name, gate.own_sum(it)) for it in [crate, *crate.below()])
    return f"{hashlib.sha256(repr(sources).encode()).hexdigest()} {rtlib.sum_of(archive)}"


def path_of(archive):
    return f"{os.path.dirname(archive)}/verdict"


def note(crate, archive, verdict):
    """Keeps the verdict on a crate beside the archive that was built."""
    with open(path_of(archive), "w", encoding="utf-8") as out:
        out.write("\n".join([mark_of(crate, archive), *verdict, ""]))


def verdict_on(crate, archive):
    """The lines of the verdict on an archive, or none where it, its crates or the kit changed."""
    mark, *verdict = (rtlib.text_of(path_of(archive)) or "\n").splitlines()
    return verdict if os.path.exists(archive) and mark == mark_of(crate, archive) else []


def build(target=None, toolchain=None):
    """Proves and builds the library, for this machine or another target, and returns the archive's path and the lines of the verdict."""
    archive = f"{CRATE}/out/{target}/libyellowadze1541.a" if target else f"{CRATE}/out/libyellowadze1541.a"
    crate = next(it for it in kept.crates_of(ROOT) if it.folder == CRATE)
    if not verdict_on(crate, archive):
        words = [*(["--target", target] if target else []), *(["--toolchain", toolchain] if toolchain else [])]
        ran = subprocess.run([f"{ROOT}/tools/fast_check", "--build", *words], cwd=CRATE, stdout=subprocess.PIPE, stderr=subprocess.STDOUT, text=True, check=False)
        if ran.returncode or not verdict_on(crate, archive):
            sys.exit(f"{ran.stdout}\nthe C library isn't proved as it stands")
    return archive, verdict_on(crate, archive)
