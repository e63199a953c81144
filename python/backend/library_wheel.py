"""Builds the wheel of yellowadze1541: the Python files and the shared library. A backend as PEP 517 has it; needs Python alone.

    YELLOWADZE1541=PATH pip wheel --no-build-isolation --no-index --no-deps ./python

PATH is libyellowadze1541.so; -C library=PATH says the same, and without both it is the one that `make` leaves in capi/out. The version is the header's.
Equal files give an equal wheel, byte for byte.
"""
import base64
import csv
import hashlib
import io
import os
import re
import struct
import zipfile
from pathlib import Path

HERE = Path(__file__).resolve().parent.parent
CAPI = HERE.parent / "capi"
PACKAGE = "yellowadze1541"
# The machines of ELF, by their numbers: their names in a tag, and the oldest glibc for which pip knows a tag.
MACHINES = {62: ("x86_64", (2, 5)), 183: ("aarch64", (2, 17))}


def header_version():
    """The version of the library's header, as 0.4.0."""
    number = re.search(r"define Y1541_VERSION 0x([0-9a-f]+)u", (CAPI / "yellowadze1541.h").read_text(encoding="utf-8"))
    if not number:
        raise SystemExit("capi/yellowadze1541.h has no Y1541_VERSION")
    return ".".join(str(it) for it in int(number.group(1), 16).to_bytes(3, "big"))


def library_path(settings):
    """Where the shared library is."""
    path = Path((settings or {}).get("library") or os.environ.get("YELLOWADZE1541") or CAPI / "out" / f"libyellowadze1541.so.{header_version()}")
    if not path.is_file():
        raise SystemExit(f"no library at {path}: say -C library=PATH")
    return path


def platform_tag(library):
    """The tag of the machines on which a shared library runs: by the head of the ELF file, and the newest glibc that it asks for."""
    if library[:6] != b"\x7fELF\x02\x01":
        raise SystemExit("the library is no ELF file of 64 bits, low byte first")
    (machine,) = struct.unpack_from("<H", library, 18)
    if machine not in MACHINES:
        raise SystemExit(f"no name is known for the library's machine, {machine}")
    name, oldest = MACHINES[machine]
    asked = [(int(major), int(minor)) for major, minor in re.findall(rb"GLIBC_(\d+)\.(\d+)", library)]
    major, minor = max([oldest, *asked])
    return f"manylinux_{major}_{minor}_{name}"


def said(key):
    """What pyproject.toml says of the project."""
    return re.search(rf'^{key} = "(.*)"$', (HERE / "pyproject.toml").read_text(encoding="utf-8"), re.MULTILINE)[1]


def metadata():
    """METADATA, with the README as the description."""
    head = f"Metadata-Version: 2.1\nName: {PACKAGE}\nVersion: {header_version()}\nSummary: {said('description')}\nRequires-Python: {said('requires-python')}\n"
    return f"{head}Description-Content-Type: text/markdown\n\n{(HERE / 'README.md').read_text(encoding='utf-8')}".encode()


def scripts():
    """entry_points.txt: the commands that pip installs."""
    table = re.search(r"^\[project\.scripts\]\n((?:.+\n)+)", (HERE / "pyproject.toml").read_text(encoding="utf-8"), re.MULTILINE)[1]
    lines = [f"{name} = {call}" for name, call in re.findall(r'^([\w-]+) = "(.*)"$', table, re.MULTILINE)]
    return "".join(f"{it}\n" for it in ["[console_scripts]", *lines]).encode()


def files_of(library, tag):
    """The files of the wheel without its RECORD: names and bytes."""
    source = HERE / "src"
    paths = sorted(it for it in (source / PACKAGE).rglob("*") if it.suffix == ".py" or it.name == "py.typed")
    info = f"{PACKAGE}-{header_version()}.dist-info"
    wheel = f"Wheel-Version: 1.0\nGenerator: library_wheel\nRoot-Is-Purelib: false\nTag: {tag}\n"
    files = {str(it.relative_to(source)): it.read_bytes() for it in paths}
    files[f"{PACKAGE}/libyellowadze1541.so"] = library
    return {**files, f"{info}/METADATA": metadata(), f"{info}/WHEEL": wheel.encode(), f"{info}/entry_points.txt": scripts()}


def record_of(files):
    """RECORD: each file with its sum and its size, and last RECORD itself with neither."""
    text = io.StringIO()
    rows = csv.writer(text, lineterminator="\n")
    for name, data in files.items():
        digest = base64.urlsafe_b64encode(hashlib.sha256(data).digest()).rstrip(b"=").decode()
        rows.writerow([name, f"sha256={digest}", len(data)])
    rows.writerow([f"{PACKAGE}-{header_version()}.dist-info/RECORD", "", ""])
    return text.getvalue().encode()


def build_wheel(wheel_directory, config_settings=None, metadata_directory=None):
    """Writes the wheel, and answers its name."""
    library = library_path(config_settings).read_bytes()
    tag = f"py3-none-{platform_tag(library)}"
    files = files_of(library, tag)
    files[f"{PACKAGE}-{header_version()}.dist-info/RECORD"] = record_of(files)
    name = f"{PACKAGE}-{header_version()}-{tag}.whl"
    with zipfile.ZipFile(Path(wheel_directory) / name, "w", zipfile.ZIP_DEFLATED) as out:
        for path, data in files.items():
            entry = zipfile.ZipInfo(path, (1980, 1, 1, 0, 0, 0))
            entry.compress_type, entry.external_attr = zipfile.ZIP_DEFLATED, 0o644 << 16
            out.writestr(entry, data)
    return name


def build_sdist(sdist_directory, config_settings=None):
    """There is none: the library isn't made from what Python would pack."""
    raise SystemExit("yellowadze1541 is given as a wheel alone, as it has a compiled library in it")
