"""An input, read once and in blocks. What a message may need of it later is kept in bounded memory."""
import collections
import os
import select
import stat

from desk.endings import Trouble
from desk.streams import CLOSED, STANDARD_INPUT
from desk.visible import visible

BLOCK = 1 << 16
# Header, carry block and contracts stand within this many first bytes of any input that is not refused among them.
HEAD = 1 << 16
# The last bytes that are kept. The line that ends a run is among them: the program has read at most one of its blocks
# (64 KiB) past it, 64 KiB may wait in the pipe, and one block more was read here.
WINDOW = 1 << 20
# The end line of a file that the program read itself is among so many bytes before the place that it came to, which is
# at most one of its blocks past that line.
REACH = 8 * BLOCK
# As many bytes of a line are kept as a message can show.
SHOWN = 256
# How long to look whether something follows the end line where the input is a pipe that stays open, in milliseconds.
PATIENCE = 100

# A line without its line end, cut at SHOWN bytes; its true length; whether it has a line end.
Line = collections.namedtuple("Line", "number text length complete")


def look_at(path):
    """Raises the reason where a path can't be an input. It is asked for every input before anything is settled."""
    if path == "-":
        if STANDARD_INPUT in CLOSED:
            raise Trouble("standard input can't be read: it is closed")
        return
    try:
        kind = os.stat(path).st_mode
    except OSError as error:
        raise Trouble(f"{called(path)} can't be read: {error.strerror}") from None
    if stat.S_ISDIR(kind):
        raise Trouble(f"{called(path)} can't be read: it is a folder")
    if not os.access(path, os.R_OK):
        raise Trouble(f"{called(path)} can't be read: Permission denied")


def is_file(path, other):
    """whether an input and a path are the same regular file"""
    try:
        own, its = os.fstat(STANDARD_INPUT) if path == "-" else os.stat(path), os.stat(other)
    except OSError:
        return False
    return stat.S_ISREG(own.st_mode) and os.path.samestat(own, its)


def called(path):
    """what messages call an input"""
    return "standard input" if path == "-" else visible(os.fsencode(path))


class Input:
    """An open input."""

    # the sheet that it goes on from, by its name
    after = None

    def __init__(self, path):
        self.name = called(path)
        self.own = path != "-"
        try:
            self.descriptor = os.open(path, os.O_RDONLY) if self.own else STANDARD_INPUT
        except OSError as error:
            raise Trouble(f"{self.name} can't be read: {error.strerror}") from None
        self.head = b""
        self.window = bytearray()
        # what lies before the window: so many complete lines, and the start of a line that reaches into it
        self.lines_before = 0
        self.begun = b""
        self.begun_length = 0

    def __enter__(self):
        return self

    def __exit__(self, *_):
        self.close()

    def close(self):
        """closes what was opened for it"""
        if self.own:
            os.close(self.descriptor)
            self.own = False

    def read(self):
        """the next block: None where none is there yet, empty at the end"""
        try:
            block = os.read(self.descriptor, BLOCK)
        except BlockingIOError:
            return None
        except OSError as error:
            raise Trouble(f"{self.name} can't be read: {error.strerror}") from None
        self._keep(block)
        return block

    def ends_where_read(self):
        """whether nothing follows the end line of an input that the program accepted, and read as a file itself"""
        came_to = os.lseek(self.descriptor, 0, os.SEEK_CUR)
        start = max(0, came_to - REACH)
        last = os.pread(self.descriptor, came_to - start + 1, start)
        return last.find(b"\nE\n") == len(last) - 3

    def start_anew(self):
        """goes back to the first byte of a file that the program read itself"""
        os.lseek(self.descriptor, 0, os.SEEK_SET)

    def read_to_end_line(self):
        """reads as far as the first end line, which the program has accepted"""
        while b"\nE\n" not in self.window[-BLOCK - 2:] and self.read():
            pass

    def blocks(self):
        """the blocks to the end, each waited for"""
        while True:
            block = self.read()
            if block is None:
                select.select([self.descriptor], [], [])
            elif block:
                yield block
            else:
                return

    def _keep(self, block):
        if len(self.head) < HEAD:
            self.head += block[:HEAD - len(self.head)]
        self.window += block
        if len(self.window) >= 2 * WINDOW:
            self._forget(len(self.window) - WINDOW)

    def _forget(self, count):
        """drops the first bytes of the window"""
        before, line_end, rest = self.window[:count].rpartition(b"\n")
        if line_end:
            self.lines_before += before.count(b"\n") + 1
            self.begun, self.begun_length = bytes(rest[:SHOWN]), len(rest)
        else:
            self.begun, self.begun_length = (self.begun + rest)[:SHOWN], self.begun_length + len(rest)
        del self.window[:count]

    def place_of(self, number):
        """in which file a line that the program counted stands, and where there"""
        return self.name, number

    def counted(self, _number):
        """how a line came to its number, where that has to be said"""

    def _start_of(self, number):
        """where a line begins in the window, or None where it is not kept any more or was not reached"""
        ahead = number - 1 - self.lines_before
        if ahead < 0:
            return None
        start = 0
        for _ in range(ahead):
            start = self.window.find(b"\n", start) + 1
            if start == 0:
                return None
        return start

    def lines_back_from(self, number):
        """the lines before a line, the newest first, as far as they are kept"""
        end = self._start_of(number) or 0
        while end:
            start = self.window.rfind(b"\n", 0, end - 1) + 1
            number -= 1
            if start == 0 and self.begun_length:
                return
            yield Line(number, bytes(self.window[start:end - 1][:SHOWN]), end - 1 - start, True)
            end = start

    def line(self, number):
        """the line of a number, or None where it is not kept any more or was not reached"""
        start = self._start_of(number)
        if start is None:
            return None
        end = self.window.find(b"\n", start)
        complete = end >= 0
        rest = self.window[start:end] if complete else self.window[start:]
        begun, length = (self.begun, self.begun_length) if start == 0 else (b"", 0)
        return Line(number, bytes(begun + rest)[:SHOWN], length + len(rest), complete)

    def head_lines(self):
        """the complete lines of the head"""
        return self.head.split(b"\n")[:-1]

    def goes_on_after_end(self):
        """whether anything follows the first end line, which the program has accepted"""
        _, _, after = self.window.partition(b"\nE\n")
        if after:
            return True
        # a terminal or a pipe whose writer is silent is not waited for
        waiting = select.poll()
        waiting.register(self.descriptor, select.POLLIN)
        return bool(waiting.poll(0 if os.isatty(self.descriptor) else PATIENCE)) and bool(self.read())

    def end_line_number(self):
        """the number of the first end line, which the program has accepted"""
        before, _, _ = self.window.partition(b"\nE\n")
        return self.lines_before + before.count(b"\n") + 2
