"""Hosts of a serial bus for the player of a PC: libopencbm with a real drive, and any program that takes the lines of `drive1541 reply`."""
import ctypes
import ctypes.util
import importlib.util
import os
import sys
import time

# Seconds that a drive takes to restart. (A test has none.)
RESTART = float(os.environ.get("SUITE_RESTART", "3"))
OPEN, CLOSE, KIND = 0xF0, 0xE0, 0xF0
# Microseconds that a drive on lines has to restart.
MICROSECONDS = 3_000_000


def ask_for(insert):
    """Asks the user for an image."""
    print(f"put in the image {insert.name}" + (", write-protected" if insert.is_protected() else "") + ", then press return", file=sys.stderr)
    sys.stdin.readline()


class OpenCbm:
    """A drive at a PC, by the calls of libopencbm."""

    def __init__(self, device, path=None):
        self.device, self.file = device, ctypes.c_ssize_t()
        self.library = ctypes.CDLL(path or ctypes.util.find_library("opencbm") or "libopencbm.so")
        if self.library.cbm_driver_open(ctypes.byref(self.file), 0) != 0:
            raise OSError("libopencbm doesn't open its driver")

    def send(self, second, data):
        """LISTEN, a secondary address, bytes, UNLISTEN."""
        channel = second & 15
        if second & KIND == OPEN:
            self.library.cbm_open(self.file, self.device, channel, data, ctypes.c_size_t(len(data)))
        elif second & KIND == CLOSE:
            self.library.cbm_close(self.file, self.device, channel)
        else:
            self.library.cbm_listen(self.file, self.device, channel)
            self.library.cbm_raw_write(self.file, data, ctypes.c_size_t(len(data)))
            self.library.cbm_unlisten(self.file)

    def receive(self, channel, count):
        """TALK, bytes up to EOI, UNTALK. Returns the bytes, and whether the last one had EOI."""
        buffer = ctypes.create_string_buffer(count)
        self.library.cbm_talk(self.file, self.device, channel)
        came = self.library.cbm_raw_read(self.file, buffer, ctypes.c_size_t(count))
        has_end = came > 0 and bool(self.library.cbm_get_eoi(self.file))
        self.library.cbm_untalk(self.file)
        return buffer.raw[: max(came, 0)], has_end

    def wait(self):
        time.sleep(RESTART)

    def insert(self, insert):
        ask_for(insert)

    def end(self):
        self.library.cbm_driver_close(self.file)


class Reply:
    """A program that takes the lines of `drive1541 reply`, by the computer of examples/reply_host.py."""

    def __init__(self, device, command, example):
        spec = importlib.util.spec_from_file_location("reply_host", example)
        self.reply_host = importlib.util.module_from_spec(spec)
        spec.loader.exec_module(self.reply_host)
        self.device, self.bus = device, self.reply_host.Bus(command)
        self.computer = self.reply_host.Computer(self.bus)

    def send(self, second, data):
        if second & KIND == CLOSE:
            self.computer.close(self.device, second & 15)
        else:
            self.computer.write(self.device, second, data)

    def receive(self, channel, count):
        return self.computer.read(self.device, channel, count)

    def wait(self):
        self.bus.say(f"until {self.bus.now + MICROSECONDS}")

    def insert(self, insert):
        ask_for(insert)

    def end(self):
        self.bus.end()
