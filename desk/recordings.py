"""Why a line of a recording was refused, as far as the recording tells: guesses that help to mend it, as in causes."""
from desk.causes import EMPTY, date, no_header, no_line_end, power
from desk.illformed import Cause
from desk.visible import grouped

SECONDS_OF_QUARTER = 900


class Before:
    """What stands before a refused line: a header, and lines of the archive that were accepted."""

    def __init__(self, source, number):
        lines = source.head_lines()[:number - 1]
        self.header = lines[0].split(b"\t") if lines else None
        self.source = source
        self.number = number

    def interval(self):
        """the seconds from one sample to the next"""
        return int(self.header[2])

    def seconds(self):
        """how many seconds the header asks for"""
        return int(self.header[4]) * SECONDS_OF_QUARTER

    def line(self):
        """the line before, and its second; None where there is none or it is not kept any more"""
        return next(self._recorded(), None)

    def good(self):
        """the last line whose second is that of a sample, and that second; None as above"""
        samples = range(0, self.seconds(), self.interval())
        return next(((line, second) for line, second in self._recorded() if second in samples), None)

    def _recorded(self):
        """the lines of the archive before, the newest first, each with its second"""
        for line in self.source.lines_back_from(self.number):
            if line.text.startswith(b"G\t"):
                yield line, _second(line)


def _second(line):
    return int(line.text.split(b"\t")[1])


def _wrong_moment(line, before):
    if before.header is None:
        return no_header(line)
    return Cause(0, "a second header",
                 "give each day or stretch a recording of its own, with one D line at its top and E at its end")


def _no_end(line, before):
    if line.number == 1 and line.length == 0:
        return EMPTY
    if line.length and no_line_end(line):
        return no_line_end(line)
    last = before.header and before.line()
    where = f" after second {grouped(last[1])}" if last else " before the first line of the archive"
    return Cause(None, f"the recording ends{where}: it may be cut off",
                 "see that it is whole, and put a line E at its end, or: echo E >>FILE")


def _no_first(line, _before):
    samples = f"it has second {grouped(_second(line))}" if line.text[:1] == b"G" else "the recording ends here"
    return Cause(_place(line), f"{samples}, and no line for second 0 stands before it", None)


def _hole(line, before):
    ends = line.text[:1] == b"E"
    last, end = before.good(), before.seconds() if ends else _second(line)
    if last is None:
        return Cause(_place(line), None, None)
    first = last[1] + before.interval()
    missing = (end - first) // before.interval()
    where = (f"the last sample is that of second {grouped(end - before.interval())}" if ends
             else f"this line has second {grouped(end)}")
    return Cause(_place(line), f"{where}, and the last good line before it, line {last[0].number}, has second "
                 f"{grouped(last[1])}: {grouped(missing)} samples of {before.interval()} s are missing, "
                 f"{grouped(missing * before.interval())} seconds", None)


def _out_of_order(line, before):
    last = before.line()
    after = last and f"after second {grouped(last[1])} of line {last[0].number}"
    return Cause(_place(line), after and f"second {grouped(_second(line))} {after}", None)


def _place(line):
    """the field that tells the second, where the line has one"""
    return 1 if line.text[:1] == b"G" else None


CAUSES = {1: _wrong_moment, 4: date, 13: power, 15: _no_end, 19: _no_first, 20: _hole, 21: _out_of_order}
