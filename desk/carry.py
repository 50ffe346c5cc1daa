"""An input that goes on from a sheet: the program reads the sheet's carry block behind the header of the input.

No line of the input is changed, and what the block says is for the program to judge: only its form is looked at."""
import collections
import contextlib
import datetime

from desk import printed
from desk.endings import Trouble
from desk.inputs import Input, Line
from desk.layout import PAST
from desk.streams import say

# What a run goes on from: the name of a sheet, its day, its interval, and the lines of its carry block.
Past = collections.namedtuple("Past", "name day interval block")


def read(path):
    """what to go on from, by a sheet that is that of one accepted run"""
    with Input(path) as source:
        found = None
        for sheet in printed.read(source):
            if found:
                raise _no_block(source, "it holds several sheets: give the last of them alone")
            found = sheet
    if found.refused:
        raise _no_block(source, f"its input was refused at line {found.refused.line}: settle that one first")
    return Past(source.name, found.day, found.interval, found.block)


def just_printed(name, sheet):
    """what to go on from, by a sheet that the program has printed for an accepted run and nobody had in hand since"""
    lines = sheet.splitlines()
    _, _, day, interval, _ = lines[0].decode().split("\t")
    above = len(lines) - 1 - PAST[int(interval)]
    block = [Line(number, text, len(text), True) for number, text in enumerate(lines[above:], above + 1)]
    return Past(name, day, int(interval), block)


def _no_block(source, reason):
    return Trouble(f"{source.name} gives no carry block: {reason}")


class Following(Input):
    """An input that goes on from a sheet. Lines are asked for as the program counts them, which reads the block."""

    def __init__(self, path, past):
        super().__init__(path)
        self.past = past
        self.after = past.name
        self.put = False

    def read(self):
        """the next block of bytes, with the carry block behind the first line"""
        data = super().read()
        if self.put or not data or b"\n" not in data:
            return data
        header = next(iter(super().head_lines()), b"")
        self._look_at(header.decode("utf-8", "replace").split("\t"))
        self.put = True
        start, line_end, rest = data.partition(b"\n")
        return b"".join([start, line_end, *(line.text + b"\n" for line in self.past.block), rest])

    def _look_at(self, header):
        """what the program can't know: whether the sheet is that of the run before"""
        if len(header) != 5 or header[0] != "D":
            return
        _, day, interval, _, _ = header
        if interval in map(str, PAST) and interval != str(self.past.interval):
            raise Trouble(f"{self.name} has an interval of {interval} s, and {self.after} one of "
                          f"{self.past.interval} s: a carry block goes on at its own interval alone")
        with contextlib.suppress(ValueError):
            days = datetime.date.fromisoformat(day) - datetime.date.fromisoformat(self.past.day)
            if days.days not in (0, 1):
                say(f"{self.name} is of {day}, and {self.after}, after which it is settled, of {self.past.day}")

    def _of_block(self, number):
        """the line of the block that the program counts so, or None"""
        return self.past.block[number - 2] if 2 <= number < 2 + len(self.past.block) else None

    def place_of(self, number):
        """in which file a line stands, and where there"""
        line = self._of_block(number)
        if line:
            return self.after, line.number
        return self.name, number if number == 1 else number - len(self.past.block)

    def counted(self, number):
        """how a line came to its number"""
        if number == 1:
            return None
        return f"(the program, which read the block behind line 1, counts it as line {number})"

    def line(self, number):
        """the line of a number"""
        return self._of_block(number) or super().line(self.place_of(number)[1])

    def head_lines(self):
        """the complete lines of the head, those of the block among them"""
        header, *rest = super().head_lines() or [None]
        return [] if header is None else [header, *(line.text for line in self.past.block), *rest]
