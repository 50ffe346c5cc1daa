"""The operator's shares behind an input: read from a file of their own and put there as U lines, and told where one is
refused. What the shares say is for the program to judge: only their columns are looked at."""
import collections

from desk import causes, layout
from desk.endings import Trouble
from desk.illformed import Cause
from desk.inputs import Input
from desk.visible import shortened

# No input that gets a verdict has more bytes: so many lines can it have, of at most 80 bytes and a line end.
LARGEST = (2 + 302 + 2 * 32 + 100 * 900 + 100 * 2 * 32) * 81
MARK = b"\xef\xbb\xbf"
COLUMNS = "quarter hour, direction, contract and share"

# The shares of a file: its name, the U lines that they make, and in which line of the file each of them stands.
Shares = collections.namedtuple("Shares", "name lines numbers")


def read(path):
    """the shares of a file, with ; , or tabs between the cells, and with a row of headings or without"""
    with Input(path) as source:
        rows = b"".join(source.blocks()).removeprefix(MARK).split(b"\n")
    lines, numbers = [], []
    for number, row in enumerate(rows, 1):
        cells = _cells(row)
        heading = number == 1 and not cells[0].removeprefix(b"-").isdigit()
        if cells == [b""] or heading:
            continue
        if len(cells) != 4:
            raise Trouble(f"{source.name}, line {number}: this row has not the four cells {COLUMNS}\n"
                          f"  line {number}: {shortened(row[:256], len(row))}\n"
                          "  to mend it: give one row for each contract and quarter hour, as 0;P;A1;44")
        lines.append(b"\t".join([b"U", *cells]) + b"\n")
        numbers.append(number)
    return Shares(source.name, lines, numbers)


def _cells(row):
    """the cells of a row, without the letter U before them where there is one"""
    sign = next((sign for sign in (b"\t", b";", b",") if sign in row), b";")
    first, *others = (cell.strip(b' "\r') for cell in row.split(sign))
    return others if first == b"U" and others else [first, *others]


class Behind(Input):
    """An input with shares behind it: its own, or those of a file. Lines are asked for as the program counts them."""

    def __init__(self, path, shares=None):
        super().__init__(path)
        # the shares of a file, as long as they are not put behind the input
        self.waiting = shares
        self.shares = shares
        # the number under which the program counts the first of them, once they are
        self.first = None
        # what the program read
        self.fed = bytearray()

    def read(self):
        """the next block of bytes, with the shares of the file as the last one"""
        data = super().read()
        if data == b"" and self.waiting:
            data = self._put()
        if data and len(self.fed) <= LARGEST:
            self.fed += data
        return data

    def _put(self):
        """the shares; none behind an input that stops short of a line end, since they would make another line of it"""
        self.waiting = None
        if not self.window.endswith(b"\n"):
            return b""
        self.first = self.lines_before + self.window.count(b"\n") + 1
        data = b"".join(self.shares.lines)
        self._keep(data)
        return data

    def with_verdict(self):
        """what messages call it: the file with the shares, or the input where they are its own"""
        return self.shares.name if self.shares else self.name

    def _of_file(self, number):
        """which share of the file a line is, from 0, or None"""
        return number - self.first if self.first and number >= self.first else None

    def place_of(self, number):
        """in which file a line stands, and where there"""
        share = self._of_file(number)
        if share is None:
            return self.name, number
        numbers = self.shares.numbers
        return self.shares.name, numbers[share] if share < len(numbers) else (numbers or [0])[-1] + 1

    def counted(self, number):
        """how a line came to its number"""
        if self._of_file(number) is None:
            return None
        return f"(the program, which read the shares behind line {self.first - 1}, counts it as line {number})"

    def line(self, number):
        """the line of a number, under that of its own file"""
        line = super().line(number)
        return line and line._replace(number=self.place_of(number)[1])

    def own_shares(self):
        """the lines after the end line, which the program has accepted, each under the number of its own file"""
        first = self.end_line_number() + 1
        lines = self.fed.partition(b"\nE\n")[2].split(b"\n")[:-1]
        return [(self.place_of(first + place)[1], line.split(b"\t")[1:]) for place, line in enumerate(lines)]


class Before(layout.Before):
    """What stands before a refused line of an input with shares."""

    def __init__(self, source, line_number):
        super().__init__(source, line_number)
        end = source.end_line_number()
        self.ended = end < line_number
        # how many shares came, once the input was ended
        self.shares = line_number - 1 - end if self.ended else 0

    def share(self, place):
        """what the share of a place, from 0, has to be of, in words; None past the last"""
        contracts = self.of_direction(b"P") + self.of_direction(b"N")
        if place >= len(contracts) * self.quarters():
            return None
        quarter, contract = divmod(place, len(contracts))
        contract = contracts[contract]
        return f"quarter hour {quarter}, {contract.direction.decode()}, {contract.identifier.decode()}"


def _wrong_moment(line, before):
    if not before.ended:
        return causes.CAUSES[1](line, before)
    return Cause(0, f"a line {line.text[:1].decode()} after E, where U lines alone stand", "take the line out")


def _misplaced(line, before):
    if not before.ended:
        return Cause(0, "a share before E", "see that the input ends with E, and put the U lines behind it")
    wanted = before.share(before.shares)
    if wanted is None:
        return Cause(0, f"all shares are there: {before.shares} U lines, one for each contract and quarter hour",
                     "take out what is there twice")
    if line.text[:1] != b"U" or not line.complete:
        return Cause(None, f"the next share is that of {wanted}, and no line follows", None)
    return Cause(None, f"the next share is that of {wanted}", None)


CAUSES = {**causes.CAUSES, 1: _wrong_moment, 22: _misplaced}
