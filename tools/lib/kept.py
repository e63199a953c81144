"""What rt ci has kept on this machine of these files: the crates that it proved, and the programs that it made."""
import fcntl, os, shutil

from kit import gate, rtlib


def crates_of(root):
    """The crates of a repository, as rt ci sees them."""
    rtlib.Crate = gate.Crate
    gate.Crate.allowed, gate.Crate.cuts_libraries = gate.handles_of(root), True
    return rtlib.crates_below(root)


def given(root, room):
    """Copies the crates of a repository to a folder and gives each what rt ci kept of it. Returns all crates of the copy, and of those that are kept, by
    name, the sum of all that the proof read: the name under which rt ci keeps it."""
    gate.copy_crates(root, room)
    # (it is the top of a repository)
    os.mkdir(f"{room}/.git")
    every = crates_of(room)
    kept, sums = gate.Kept(every), {}
    for crate in every:
        if all(it.name in sums for it in crate.below()):
            key = kept.key(crate)
            if kept.give(crate, False, key):
                kept.is_built(crate)
                sums[crate.name] = key
    return every, sums


def programs(every, sums):
    """The paths of the programs that were given, by name."""
    return {it.name: f"{it.folder}/out/{it.name}" for it in every if it.is_program and it.name in sums}


def give_below(crates, every):
    """Gives each library below these crates what is kept of these files. Returns those of which nothing is."""
    # (one at a time in a checkout: half a library beside another half would count as damaged)
    lock = open(f"{os.path.dirname(os.path.dirname(every[0].folder))}/crates.txt", encoding="utf-8")
    fcntl.flock(lock, fcntl.LOCK_EX)
    kept, missing = gate.Kept(every), []
    for it in dict.fromkeys(below for crate in crates for below in crate.below()):
        key, mark = kept.key(it), f"{it.folder}/out/fast_check"
        if rtlib.text_of(mark) != key or not os.path.isdir(it.rlib):
            # (what is kept goes into an empty folder alone: beside other files it would count as damaged, and be dropped)
            os.makedirs(f"{it.folder}/out", exist_ok=True)
            shutil.rmtree(f"{it.folder}/out/rlib", ignore_errors=True)
            if not kept.give(it, False, key):
                missing.append(it)
                continue
            with open(mark, "w", encoding="utf-8") as out:
                out.write(key)
        kept.is_built(it)
    return missing
