"""Standard output and standard error, written without a buffer, so that every failure is seen where it happens."""
import os
import select

from desk.endings import ReaderGone, Trouble

STANDARD_INPUT, STANDARD_OUTPUT, STANDARD_ERROR = range(3)
# those that the caller closed
CLOSED = set()


def hold_closed_streams():
    """puts /dev/null in place of streams that the caller closed, so that no file opened later is taken for one"""
    for descriptor in (STANDARD_INPUT, STANDARD_OUTPUT, STANDARD_ERROR):
        try:
            os.fstat(descriptor)
        except OSError:
            CLOSED.add(descriptor)
            os.set_inheritable(os.open(os.devnull, os.O_RDWR), True)


def write_all(descriptor, data):
    """writes all of the data, whatever amounts the other side takes at a time"""
    rest = memoryview(data)
    while rest:
        try:
            rest = rest[os.write(descriptor, rest):]
        except BlockingIOError:
            select.select([], [descriptor], [])


def print_out(data):
    """writes to standard output"""
    if STANDARD_OUTPUT in CLOSED:
        raise Trouble("standard output can't be written: it is closed")
    try:
        write_all(STANDARD_OUTPUT, data)
    except BrokenPipeError:
        raise ReaderGone from None
    except OSError as error:
        raise Trouble(f"standard output can't be written: {error.strerror}") from None


def say(words):
    """writes to standard error, where a failure has nobody left to be told"""
    show("")
    _write_error(f"fireboxer: {words}\n")


class _Shown:
    """how many signs of a passing line stand on the terminal"""

    length = 0


def show(words):
    """a passing line on a terminal, in place of the one before; nothing where standard error is none"""
    if (words or _Shown.length) and os.isatty(STANDARD_ERROR):
        _write_error(f"\r{' ' * _Shown.length}\r{words}")
        _Shown.length = len(words)


def _write_error(text):
    try:
        write_all(STANDARD_ERROR, text.encode("utf-8", "surrogateescape"))
    except OSError:
        pass
