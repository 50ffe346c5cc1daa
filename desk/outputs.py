"""Where a sheet goes: standard output, or a file that is written whole or not at all."""
import contextlib
import os
import stat

from desk.endings import Trouble
from desk.streams import print_out, write_all
from desk.visible import visible


class StandardOutput:
    """It takes what there is as it comes, and what was written stands."""

    whole = False
    write = staticmethod(print_out)

    def open(self):
        """it is open"""

    def finish(self):
        """nothing is left to do"""

    def close(self):
        """it stays open"""


class Device:
    """A device, a pipe or another thing that no file can take the place of: it takes what there is as it comes."""

    whole = False

    def __init__(self, path):
        self.path = path
        self.descriptor = None

    def open(self):
        """opens it, which for a pipe waits for its reader"""
        with _told(self.path):
            self.descriptor = os.open(self.path, os.O_WRONLY)

    def write(self, data):
        """writes at once"""
        with _told(self.path):
            write_all(self.descriptor, data)

    def finish(self):
        """nothing is left to do"""

    def close(self):
        """closes it"""
        if self.descriptor is not None:
            os.close(self.descriptor)


class WholeFile:
    """A draft beside the file that is wanted, which takes its place when all is written and is gone otherwise."""

    whole = True

    def __init__(self, path, lasting=True):
        self.path = path
        self.place = os.path.realpath(path)
        self.draft = f"{self.place}.{os.getpid()}.draft"
        self.descriptor = None
        # whether to wait until it would outlast a power failure
        self.lasting = lasting

    def open(self):
        """begins the draft"""
        with _told(self.path):
            self.descriptor = os.open(self.draft, os.O_WRONLY | os.O_CREAT | os.O_EXCL, 0o666)

    def write(self, data):
        """writes to the draft"""
        with _told(self.path):
            write_all(self.descriptor, data)

    def finish(self):
        """puts the draft in its place, with the rights of the file that was there"""
        with _told(self.path):
            if os.path.exists(self.place):
                os.fchmod(self.descriptor, stat.S_IMODE(os.stat(self.place).st_mode))
            if self.lasting:
                os.fsync(self.descriptor)
            os.replace(self.draft, self.place)

    def close(self):
        """leaves no draft"""
        if self.descriptor is not None:
            os.close(self.descriptor)
        with contextlib.suppress(OSError):
            os.unlink(self.draft)


@contextlib.contextmanager
def _told(path):
    try:
        yield
    except OSError as error:
        raise Trouble(f"{visible(os.fsencode(path))} can't be written: {error.strerror}") from None


@contextlib.contextmanager
def opened(path):
    """The output of a path, None and - for standard output. What is not finished leaves no file."""
    output = _output(path)
    try:
        output.open()
        yield output
    finally:
        output.close()


def write_file(path, data):
    """writes a file that can be made anew: whole or not at all, and without waiting for the disk"""
    output = WholeFile(path, lasting=False)
    try:
        output.open()
        output.write(data)
        output.finish()
    finally:
        output.close()


def _output(path):
    if path in (None, "-"):
        return StandardOutput()
    if os.path.exists(path) and not os.path.isfile(path):
        return Device(path)
    return WholeFile(path)
