"""What was proved on this machine, for a kit whose rt keeps nothing of it between two runs of rt ci: each crate's library or programs, and whether its
tests passed, by a sum of all that the proof read. tools/prove fills it; kit.py has it stand where rt has no such thing itself."""
import hashlib, os, shutil, tempfile

ROOM = f"{os.environ.get('XDG_CACHE_HOME') or os.path.expanduser('~/.cache')}/yellowadze1541/proved"


def of_kit(gate):
    """The three things of this module, for a kit: `own_sum`, `copy_crates` and `Kept`."""
    rtlib = gate.rtlib

    def own_sum(crate):
        """A sum of the kit, and of a crate's own files and its row in crates.txt."""
        row = {name: it for name, it in crate.said.items() if name not in ("args", "status")}
        made = hashlib.sha256(repr((rtlib.text_of(f"{gate.KIT}/WHAT"), crate.name, row)).encode())
        for file in sorted(rtlib.files_of(crate.folder)):
            with open(file, "rb") as it:
                made.update(repr((os.path.relpath(file, crate.folder), it.read())).encode())
        return made.hexdigest()

    def copy_crates(root, room):
        """Copies the crates of a repository, without what was made of them."""
        os.makedirs(room, exist_ok=True)
        for name in ("crates.txt", "HANDLES"):
            shutil.copy2(f"{root}/{name}", room)
        shutil.copytree(f"{root}/crates", f"{room}/crates", ignore=lambda at, names: {"out"} & {*names})

    class Kept:
        """What is kept of the crates of a repository."""

        def __init__(self, every):
            self.sums = {it.name: own_sum(it) for it in every}

        def key(self, crate):
            """The name under which a crate is kept: a sum of it and of all crates below."""
            names = sorted(it.name for it in [crate, *crate.below()])
            return hashlib.sha256(repr([(it, self.sums[it]) for it in names]).encode()).hexdigest()

        def give(self, crate, tests, key):
            """Puts into a crate's out/ what is kept of it, and returns whether anything is; of its tests, whether they passed."""
            at = f"{ROOM}/{key}"
            if tests:
                return os.path.exists(f"{at}/tests")
            if not os.path.isdir(f"{at}/out"):
                return False
            made = f"{crate.folder}/out"
            os.makedirs(made, exist_ok=True)
            for name in os.listdir(f"{at}/out"):
                shutil.rmtree(f"{made}/{name}", ignore_errors=True)
                if os.path.isdir(f"{at}/out/{name}"):
                    shutil.copytree(f"{at}/out/{name}", f"{made}/{name}", copy_function=linked)
                else:
                    replaced(f"{at}/out/{name}", f"{made}/{name}")
            return True

        def is_built(self, crate):
            """Whether a library is in its out/."""
            return os.path.isdir(crate.rlib)

        def take(self, crate, tests, key):
            """Keeps what a proof has left in a crate's out/, unless something is kept already; of its tests, that they passed."""
            at = f"{ROOM}/{key}"
            os.makedirs(at, exist_ok=True)
            if tests:
                return open(f"{at}/tests", "w").close()
            if os.path.isdir(f"{at}/out"):
                return None
            with tempfile.TemporaryDirectory(prefix="half-", dir=at) as half:
                os.mkdir(f"{half}/out")
                for name in ["rlib"] if crate.makes_rlib() else [f"{crate.name}{it}" for it in gate.BACKENDS.values()]:
                    if os.path.isdir(f"{crate.folder}/out/{name}"):
                        shutil.copytree(f"{crate.folder}/out/{name}", f"{half}/out/{name}", copy_function=linked)
                    elif os.path.exists(f"{crate.folder}/out/{name}"):
                        replaced(f"{crate.folder}/out/{name}", f"{half}/out/{name}")
                try:
                    os.rename(f"{half}/out", f"{at}/out")
                except OSError:
                    pass  # (another run was quicker)

    return own_sum, copy_crates, Kept


def linked(old, new):
    """A file of a library, which nothing writes to once it is there: a second name of it, or a copy."""
    try:
        os.link(old, new)
    except OSError:
        shutil.copy2(old, new)


def replaced(old, new):
    """A program, in place of what stands there: what stands there may be running."""
    shutil.copy2(old, f"{new}.half")
    os.replace(f"{new}.half", new)
