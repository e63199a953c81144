"""Archives and Debian packages that are the same bytes whenever they are made of the same files: names sorted, one owner, one time, no build path."""
import glob, gzip, hashlib, lzma, os, re, shutil, subprocess, tarfile, textwrap

SINGLE_THREAD = {"format": lzma.FORMAT_XZ, "check": lzma.CHECK_CRC64, "preset": 9}


def files_of(folder):
    """The paths below a folder of all files and links, sorted."""
    return sorted(os.path.relpath(f"{at}/{name}", folder) for at, _, names in os.walk(folder) for name in names)


def sha256(path):
    with open(path, "rb") as it:
        return hashlib.sha256(it.read()).hexdigest()


def sums(folder):
    """The lines of sha256sum for all files below a folder."""
    return [f"{sha256(f'{folder}/{it}')}  {it}" for it in files_of(folder) if not it.startswith("DEBIAN/") and not os.path.islink(f"{folder}/{it}")]


def write(path, text):
    os.makedirs(os.path.dirname(path), exist_ok=True)
    with open(path, "w", encoding="utf-8") as out:
        out.write(text)


def settle(folder, epoch):
    """Gives everything below a folder one mode of its kind and one time."""
    for at, folders, names in os.walk(folder, topdown=False):
        for name in names:
            path = f"{at}/{name}"
            if not os.path.islink(path):
                os.chmod(path, 0o755 if os.access(path, os.X_OK) and ".so" not in name else 0o644)
            os.utime(path, (epoch, epoch), follow_symlinks=False)
        os.chmod(at, 0o755)
        os.utime(at, (epoch, epoch))


def archive(folder, path, epoch):
    """Packs a folder under its own name as .tar.xz."""
    settle(folder, epoch)
    top = os.path.basename(folder)
    paths = sorted([top, *(os.path.relpath(f"{at}/{it}", os.path.dirname(folder)) for at, folders, names in os.walk(folder) for it in [*folders, *names])])
    with lzma.open(path, "wb", **SINGLE_THREAD) as packed, tarfile.open(fileobj=packed, mode="w", format=tarfile.GNU_FORMAT) as out:
        for it in paths:
            info = out.gettarinfo(f"{os.path.dirname(folder)}/{it}", it)
            info.uid, info.gid, info.uname, info.gname = 0, 0, "root", "root"
            with open(f"{os.path.dirname(folder)}/{it}", "rb") if info.isfile() else open(os.devnull, "rb") as data:
                out.addfile(info, data if info.isfile() else None)


def depends(tree):
    """What a package of these programs and libraries depends on: the least version of glibc that one of them asks for."""
    paths = [f"{tree}/{it}" for it in files_of(tree) if "/bin/" in it or ".so." in it]
    said = "".join(subprocess.run(["objdump", "-T", it], capture_output=True, text=True, check=True).stdout for it in paths)
    least = max((tuple(map(int, it.split("."))) for it in re.findall(r"GLIBC_(\d+(?:\.\d+)+)", said)), default=(2, 2))
    return f"libc6 (>= {'.'.join(map(str, least))})"


def without(path, folder):
    """Stops where a file below a folder has this path in it."""
    for it in files_of(folder):
        with open(f"{folder}/{it}", "rb") as data:
            if path.encode() in data.read():
                raise SystemExit(f"release: {it} has the path {path}")


CONTROL = """Package: {name}
Source: yellowadze1541
Version: {version}
Architecture: amd64
Maintainer: {maintainer}
Installed-Size: {size}
{fields}Priority: optional
Section: {section}
Description: {title}
{about}
"""
CHANGELOG = """yellowadze1541 ({version}) unstable; urgency=medium

  * Commit {name}.

 -- {maintainer}  {mail_date}
"""


class Debian:
    """What all packages of a release have in common."""

    def __init__(self, version, commit, copyright, proof, out):
        self.version, self.commit, self.copyright, self.proof, self.out = version, commit, copyright, proof, out

    def package(self, name, tree, section, title, about, **fields):
        """Builds a package of a tree (usr/..), which it completes, and returns its path."""
        doc = f"{tree}/usr/share/doc/{name}"
        write(f"{doc}/copyright", self.copyright)
        self.packed(f"{doc}/changelog.gz", CHANGELOG.format(version=self.version, **vars(self.commit)).encode())
        for page in glob.glob(f"{tree}/usr/share/man/man1/*.1"):
            with open(page, "rb") as it:
                self.packed(f"{page}.gz", it.read())
            os.remove(page)
        write(f"{doc}/PROOF.txt", self.proof + "\n".join(sums(tree)) + "\n")
        paths = [it for it in files_of(tree) if not it.startswith("DEBIAN/")]
        size = sum(os.lstat(f"{tree}/{it}").st_size for it in paths) // 1024 + 1
        md5 = lambda it: hashlib.md5(open(f"{tree}/{it}", "rb").read()).hexdigest()
        lines = "".join(f"{it.replace('_', '-')}: {value}\n" for it, value in fields.items())
        control = dict(name=name, version=self.version, maintainer=self.commit.maintainer, size=size, fields=lines, section=section, title=title)
        write(f"{tree}/DEBIAN/control", CONTROL.format(**control, about=textwrap.fill(about, 76, initial_indent=" ", subsequent_indent=" ")))
        write(f"{tree}/DEBIAN/md5sums", "".join(f"{md5(it)}  {it}\n" for it in paths if not os.path.islink(f"{tree}/{it}")))
        settle(tree, self.commit.epoch)
        path = f"{self.out}/{name}_{self.version}_amd64.deb"
        env = {**os.environ, "SOURCE_DATE_EPOCH": str(self.commit.epoch)}
        subprocess.run(["dpkg-deb", "--root-owner-group", "-Zxz", "-b", tree, path], env=env, stdout=subprocess.DEVNULL, check=True)
        return path

    @staticmethod
    def packed(path, data):
        os.makedirs(os.path.dirname(path), exist_ok=True)
        with open(path, "wb") as out:
            out.write(gzip.compress(data, 9, mtime=0))


def moved(old, new):
    os.makedirs(os.path.dirname(new), exist_ok=True)
    shutil.move(old, new)
