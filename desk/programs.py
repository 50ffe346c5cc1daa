"""Runs a proved program on an input, in blocks: nothing is done for each line, and no more is held than a few."""
import collections
import os
import select

from desk import signals
from desk.building import program_file
from desk.endings import NOT_BUILT, Trouble
from desk.inputs import BLOCK
from desk.places import ROOT
from desk.starting import Started
from desk.streams import say

# The last bytes of a sheet that are kept: the longest line is far shorter.
TAIL = 4096

# The line and the number of a refusal.
Refused = collections.namedtuple("Refused", "line number")


def accepted(name, source, take):
    """runs a program as `run` does, says why where it refuses the input, and answers whether it accepted it"""
    refused = run(name, source, take)
    if refused:
        # imported here, since a run that is accepted needs none of it
        from desk.messages import refusal
        say(refusal(source, refused, name))
    return not refused


def run(name, source, take):
    """Runs a program and hands what it prints to `take`, block by block. Answers the refusal that ended it, or None."""
    process = None
    try:
        with signals.held():
            process = Started(_command(name))
        tail = _pump(process, source, take)
        status = process.wait()
    finally:
        if process:
            _end(process)
    return _answer(name, source, status, tail)


class Running:
    """A program that reads an input's file itself, so that only what it prints passes through here, and as many can run
    at a time as one wants. A read error is the end of the input to it: a refusal has to be asked for by `run`, too."""

    def __init__(self, name, source):
        self.name = name
        self.source = source
        self.process = None
        self.tail = b""

    def start(self):
        """starts it"""
        with signals.held():
            self.process = Started(_command(self.name), self.source.descriptor)

    def descriptor(self):
        """where to wait for what it prints"""
        return self.process.stdout.fileno()

    def read(self):
        """what it printed next, empty at its end"""
        printed = os.read(self.descriptor(), BLOCK)
        self.tail = (self.tail + printed)[-TAIL:]
        return printed

    def refusal(self):
        """the refusal that ended it, or None"""
        return _answer(self.name, self.source, self.process.wait(), self.tail)

    def end(self):
        """leaves nothing behind"""
        if self.process:
            _end(self.process)


def _answer(name, source, status, tail):
    """the refusal that ended a program, or None, by its exit status and the end of what it printed"""
    if status == NOT_BUILT:
        raise Trouble("the program can't be run on this machine", NOT_BUILT)
    if status != 0:
        how = f"by signal {-status}" if status < 0 else f"with status {status}"
        raise Trouble(f"{source.name}: the program {name} was ended {how}, and what it printed is not whole")
    return _refusal(tail)


def _command(name):
    """how a program is run: as it is on the processor that it is made for, by tools/program elsewhere"""
    return [program_file(name)] if os.uname().machine == "x86_64" else [os.path.join(ROOT, "tools", "program"), name]


def _end(process):
    """Leaves nothing behind. The program goes first, so that it takes no early end for the end of its input."""
    if process.poll() is None:
        process.kill()
        process.wait()
    for stream in filter(None, (process.stdin, process.stdout)):
        stream.close()


def _pump(process, source, take):
    """moves blocks both ways until the program ends; answers the end of what it printed"""
    into, out = process.stdin.fileno(), process.stdout.fileno()
    os.set_blocking(into, False)
    unfed, more, tail = b"", True, b""
    while True:
        ready = _ready(out, into if unfed else None, source.descriptor if more and not unfed else None)
        if out in ready:
            printed = os.read(out, BLOCK)
            if not printed:
                return tail
            tail = (tail + printed)[-TAIL:]
            take(printed)
        elif unfed:
            unfed, more = _feed(into, unfed)
        else:
            block = source.read()
            unfed, more = block or b"", block != b""
        if not more and not process.stdin.closed:
            process.stdin.close()


def _ready(out, into, source):
    """waits until something can be moved, and answers which descriptors"""
    waiting = select.poll()
    waiting.register(out, select.POLLIN)
    if into is not None:
        waiting.register(into, select.POLLOUT)
    if source is not None:
        waiting.register(source, select.POLLIN)
    return {descriptor for descriptor, _ in waiting.poll()}


def _feed(into, unfed):
    """hands on what the pipe takes; answers the rest, and whether the program still reads"""
    try:
        return unfed[os.write(into, unfed):], True
    except BlockingIOError:
        return unfed, True
    except BrokenPipeError:
        return b"", False


def _refusal(tail):
    """the refusal that a sheet ends in, or None"""
    kind, *fields = tail.rstrip(b"\n").rpartition(b"\n")[2].split(b"\t")
    return Refused(*map(int, fields)) if kind == b"R" else None
