"""libfuse 3 by ctypes, as far as a folder of plain files needs it: its structs and its loop.

The layouts are those of libfuse3.so.3 (and .4) on Linux with 64 bits, x86-64 or ARM.
"""
import ctypes
import errno
import os
import platform
import signal
import stat
import traceback
from ctypes import CFUNCTYPE, POINTER, c_char, c_char_p, c_double, c_int, c_int32, c_int64, c_size_t, c_uint, c_uint32, c_uint64, c_ulong, c_void_p
from typing import Any, Callable, Dict, Optional, Tuple

from .disk import BLOCK, SLOTS
from .folder import Folder

__all__ = ["NoFuse", "serve"]

_LIBRARIES = ("libfuse3.so.3", "libfuse3.so.4")
# What libfuse's loop ends with at a signal.
_ENDED = 8
# A flag of rename(2).
_NO_REPLACE = 1
# A flag of fuse_file_info: the file's bytes aren't kept by the kernel.
_DIRECT_IO = 2
_LONGEST_NAME = 255


class NoFuse(Exception):
    """There is no libfuse 3 here, or no /dev/fuse."""


class _Time(ctypes.Structure):
    _fields_ = [("seconds", c_int64), ("nanoseconds", c_int64)]


_STAT_BEGIN = {
    "x86_64": [("device", c_uint64), ("inode", c_uint64), ("links", c_uint64), ("mode", c_uint32), ("uid", c_uint32), ("gid", c_uint32), ("pad", c_uint32)],
    "aarch64": [("device", c_uint64), ("inode", c_uint64), ("mode", c_uint32), ("links", c_uint32), ("uid", c_uint32), ("gid", c_uint32)],
}
_STAT_END = {
    "x86_64": [("special", c_uint64), ("size", c_int64), ("block_size", c_int64), ("blocks", c_int64)],
    "aarch64": [("special", c_uint64), ("pad", c_uint64), ("size", c_int64), ("block_size", c_int32), ("pad2", c_int32), ("blocks", c_int64)],
}
_MACHINE = platform.machine() if platform.machine() in _STAT_BEGIN else "x86_64"


class _Stat(ctypes.Structure):
    _fields_ = [*_STAT_BEGIN[_MACHINE], *_STAT_END[_MACHINE], ("accessed", _Time), ("modified", _Time), ("changed", _Time)]


class _StatVfs(ctypes.Structure):
    _fields_ = [
        (name, c_ulong)
        for name in ("block_size", "fragment_size", "blocks", "free", "available", "files", "files_free", "files_available", "id", "flags", "longest_name")
    ]


class _FileInfo(ctypes.Structure):
    _fields_ = [("flags", c_int), ("bits", c_uint), ("pad", c_uint), ("pad2", c_uint), ("handle", c_uint64)]


class _Settings(ctypes.Structure):
    """The beginning of struct fuse_config."""

    _fields_ = [
        *((name, c_int) for name in ("sets_gid", "gid", "sets_uid", "uid", "sets_mode", "mask")),
        *((name, c_double) for name in ("entry_timeout", "negative_timeout", "attribute_timeout")),
        *((name, c_int) for name in ("interrupts", "interrupt_signal", "remembers", "removes_at_once")),
    ]


_PATH, _INFO = c_char_p, POINTER(_FileInfo)
_FILL = CFUNCTYPE(c_int, c_void_p, c_char_p, c_void_p, c_int64, c_int)
# The operations in the order of struct fuse_operations, up to the last one that is used here: their arguments.
_OPERATIONS: Dict[str, Tuple[Any, ...]] = {
    "getattr": (_PATH, POINTER(_Stat), _INFO),
    "readlink": (),
    "mknod": (),
    "mkdir": (_PATH, c_uint32),
    "unlink": (_PATH,),
    "rmdir": (_PATH,),
    "symlink": (),
    "rename": (_PATH, _PATH, c_uint),
    "link": (),
    "chmod": (_PATH, c_uint32, _INFO),
    "chown": (_PATH, c_uint32, c_uint32, _INFO),
    "truncate": (_PATH, c_int64, _INFO),
    "open": (_PATH, _INFO),
    "read": (_PATH, POINTER(c_char), c_size_t, c_int64, _INFO),
    "write": (_PATH, POINTER(c_char), c_size_t, c_int64, _INFO),
    "statfs": (_PATH, POINTER(_StatVfs)),
    "flush": (_PATH, _INFO),
    "release": (_PATH, _INFO),
    "fsync": (_PATH, c_int, _INFO),
    "setxattr": (),
    "getxattr": (),
    "listxattr": (),
    "removexattr": (),
    "opendir": (),
    "readdir": (_PATH, c_void_p, _FILL, c_int64, _INFO, c_int),
    "releasedir": (),
    "fsyncdir": (),
    "init": (c_void_p, POINTER(_Settings)),
    "destroy": (),
    "access": (),
    "create": (_PATH, c_uint32, _INFO),
    "lock": (),
    "utimens": (_PATH, c_void_p, _INFO),
}
_TYPES: Dict[str, Any] = {name: CFUNCTYPE(c_void_p if name == "init" else c_int, *arguments) if arguments else c_void_p for name, arguments in _OPERATIONS.items()}


class _Operations(ctypes.Structure):
    _fields_ = list(_TYPES.items())


def _answered(call: Callable[..., Optional[int]], *arguments: Any) -> int:
    """What an operation answers to libfuse: 0 or a count, or an error below 0."""
    try:
        return call(*arguments) or 0
    except OSError as error:
        return -(error.errno or errno.EIO)
    except Exception:
        traceback.print_exc()
        return -errno.EIO


def _name(path: bytes) -> str:
    """The name of a file in the folder. ENOENT: it isn't UTF-8."""
    try:
        return path[1:].decode()
    except UnicodeDecodeError:
        raise OSError(errno.ENOENT, os.strerror(errno.ENOENT)) from None


class _Served:
    """A folder as the operations of libfuse."""

    def __init__(self, folder: Folder, is_up: Callable[[], None]) -> None:
        self.folder, self.is_up = folder, is_up

    def table(self) -> _Operations:
        """The operations that there are here. They must be kept as long as libfuse runs."""
        table = _Operations()
        for name, arguments in _OPERATIONS.items():
            if arguments:
                call = getattr(self, name)
                setattr(table, name, _TYPES[name](call if name == "init" else lambda *words, call=call: _answered(call, *words)))
        return table

    def init(self, connection: int, settings: Any) -> None:
        """An open file that is deleted is gone at once, with no other name on the disk; and the kernel keeps no sizes, as an empty file becomes one byte."""
        it = settings.contents
        it.removes_at_once = 1
        it.entry_timeout = it.negative_timeout = it.attribute_timeout = 0
        self.is_up()

    def getattr(self, path: Optional[bytes], out: Any, info: Any) -> None:
        """The mode and the size of a file, or of the folder."""
        it = out.contents
        ctypes.memset(out, 0, ctypes.sizeof(_Stat))
        it.uid, it.gid, it.links, it.block_size = os.getuid(), os.getgid(), 1, BLOCK
        it.accessed.seconds = it.modified.seconds = it.changed.seconds = self.folder.disk.moment
        if path == b"/":
            it.mode, it.links = stat.S_IFDIR | (0o555 if self.folder.disk.why_read_only else 0o755), 2
            return
        it.mode, it.size = self.folder.attributes(_name(path or b"/"), info.contents.handle if info else None)
        it.blocks = -(-it.size // 512)

    def readdir(self, path: bytes, out: int, fill: Any, at: int, info: Any, flags: int) -> None:
        """The names in the folder."""
        for name in (".", "..", *self.folder.names()):
            fill(out, name.encode(), None, 0, 0)

    def statfs(self, path: bytes, out: Any) -> None:
        """How many blocks and slots there are, and are free."""
        it = out.contents
        it.free, it.files_free = self.folder.free()
        it.available, it.files_available = it.free, it.files_free
        it.block_size = it.fragment_size = BLOCK
        it.blocks, it.files, it.longest_name = self.folder.disk.blocks, SLOTS, _LONGEST_NAME

    def open(self, path: bytes, info: Any) -> None:
        """Opens a file for reading, or for writing."""
        it = info.contents
        if it.flags & os.O_ACCMODE == os.O_RDONLY:
            it.handle = self.folder.open_reading(_name(path))
        else:
            it.handle = self.folder.open_writing(_name(path), bool(it.flags & os.O_TRUNC))
        it.bits |= _DIRECT_IO if path.startswith(b"/.") else 0

    def create(self, path: bytes, mode: int, info: Any) -> None:
        """Makes a file, and opens it."""
        info.contents.handle = self.folder.create(_name(path))

    def read(self, path: Optional[bytes], out: Any, size: int, at: int, info: Any) -> int:
        """Bytes of an open file."""
        data = self.folder.read(info.contents.handle, size, at)
        ctypes.memmove(out, data, len(data))
        return len(data)

    def write(self, path: Optional[bytes], data: Any, size: int, at: int, info: Any) -> int:
        """Writes bytes to an open file."""
        return self.folder.write(info.contents.handle, ctypes.string_at(data, size), at)

    def truncate(self, path: Optional[bytes], size: int, info: Any) -> None:
        """Gives a file another size."""
        if info:
            self.folder.resize(info.contents.handle, size)
        else:
            self.folder.truncate(_name(path or b"/"), size)

    def flush(self, path: Optional[bytes], info: Any) -> None:
        """A file is closed, perhaps not for the last time."""
        self.folder.flush(info.contents.handle)

    def fsync(self, path: Optional[bytes], only_data: int, info: Any) -> None:
        """What was written has to be in the image."""
        self.folder.flush(info.contents.handle, True)

    def release(self, path: Optional[bytes], info: Any) -> None:
        """A file is closed for the last time."""
        self.folder.close(info.contents.handle)

    def unlink(self, path: bytes) -> None:
        """Deletes a file."""
        self.folder.delete(_name(path))

    def rename(self, old: bytes, new: bytes, flags: int) -> None:
        """Gives a file another name."""
        if flags & ~_NO_REPLACE:
            raise OSError(errno.EINVAL, os.strerror(errno.EINVAL))
        self.folder.rename(_name(old), _name(new), not flags & _NO_REPLACE)

    def chmod(self, path: Optional[bytes], mode: int, info: Any) -> None:
        """Locks a file, or frees it."""
        if path != b"/":
            self.folder.protect(_name(path or b"/"), mode)

    def chown(self, path: Optional[bytes], uid: int, gid: int, info: Any) -> None:
        """A disk knows no owners: only the one that all files have is taken."""
        if uid not in (os.getuid(), 2**32 - 1) or gid not in (os.getgid(), 2**32 - 1):
            raise OSError(errno.EPERM, os.strerror(errno.EPERM))

    def utimens(self, path: Optional[bytes], times: int, info: Any) -> None:
        """A disk knows no times."""

    def mkdir(self, path: bytes, mode: int) -> None:
        """A disk has no folders."""
        raise OSError(errno.EPERM, os.strerror(errno.EPERM))

    def rmdir(self, path: bytes) -> None:
        """Nor can one be removed."""
        raise OSError(errno.EPERM, os.strerror(errno.EPERM))


def _library() -> ctypes.CDLL:
    """libfuse 3. NoFuse: it isn't installed."""
    for name in _LIBRARIES:
        try:
            return ctypes.CDLL(name)
        except OSError:
            continue
    raise NoFuse(f"{_LIBRARIES[0]} isn't installed (on Debian: libfuse3-3 and fuse3)")


def serve(folder: Folder, place: str, name: str, read_only: bool, is_up: Callable[[], None]) -> int:
    """Mounts a folder at a place and serves it until it is unmounted; `is_up` is called when it is there. Answers 0 if all went well. NoFuse."""
    library = _library()
    if not os.path.exists("/dev/fuse"):
        raise NoFuse("/dev/fuse isn't there")
    # (libfuse ends at these signals, but takes none that has a handler already)
    signal.signal(signal.SIGINT, signal.SIG_DFL)
    options = ["default_permissions", f"fsname={name}", "subtype=yellowadze1541", *(["ro"] if read_only else [])]
    words = ["mount", place, "-f", "-s", "-o", ",".join(options)]
    arguments = (c_char_p * len(words))(*map(os.fsencode, words))
    table = _Served(folder, is_up).table()
    main: Any = library.fuse_main_real
    main.argtypes = [c_int, POINTER(c_char_p), POINTER(_Operations), c_size_t, c_void_p]
    answer: int = main(len(words), arguments, table, ctypes.sizeof(table), None)
    return 0 if answer == _ENDED else answer
