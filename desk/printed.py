"""Sheets that were printed, read back from an input: each line has its form and its place, or the input is no sheet.

An input may have several, one after the other, as `settle --join` prints them."""
import collections
import re

from desk.endings import Trouble
from desk.forms import WRITTEN
from desk.illformed import Cause, encoding, line_ends
from desk.inputs import SHOWN, Line
from desk.layout import BLOCK, KINDS, PAST
from desk.messages import shown
from desk.programs import Refused
from desk.sheets import DIRECTIONS, FORMAT, quarter_hours, row_of

# No line of a sheet has more bytes, and no direction more contracts.
LONGEST = 128
CONTRACTS = 32

NUMBER, SIGNED = "(?:0|[1-9][0-9]{0,12})", "(?:0|-?[1-9][0-9]{0,12})"
FORMS = {
    "V": rf"{NUMBER}\t[0-9]{{4}}-[0-9]{{2}}-[0-9]{{2}}\t[134]\t{NUMBER}",
    "Q": rf"{NUMBER}\t[PN](?:\t{NUMBER}){{11}}",
    "K": rf"{NUMBER}\t[PN]\t[A-Za-z0-9-]{{1,16}}(?:\t{NUMBER}){{7}}\t{SIGNED}\t{NUMBER}",
    "T": rf"{NUMBER}\t{SIGNED}\t{NUMBER}",
    "R": rf"{NUMBER}\t{NUMBER}",
    # the lines of the carry block have the form in which an input has them
    **{letter.decode(): r"\t".join(WRITTEN[field.form] for field in KINDS[letter].fields) for letter in BLOCK},
}
# The format number has the same place in every format, and the rest of the line may have another form.
FORMAT_NUMBER = re.compile(rb"V\t([0-9]{1,4})(?:\t|$)")

AGAIN = "take the sheet as it was printed, or settle its input again"
ENDS = "a sheet ends with its carry block, or in a line R where its input was refused"

# A line Q and the lines K below it, as rows, with the number of the line Q in the input.
Part = collections.namedtuple("Part", "line pool lines")


class NoSheet(Trouble):
    """An input that is no sheet, or not a whole one: in words for standard error, with the line that shows it."""

    def __init__(self, source, line, words, cause=Cause(None, None, AGAIN)):
        parts = [f"{source.name}, line {line.number}: {words}", shown(line)]
        parts += [cause.words and f"cause: {cause.words}", f"to mend it: {cause.mend}"]
        super().__init__("\n  ".join(filter(None, parts)))


def read(source):
    """each sheet of an input, as soon as it is whole"""
    above = sheet = None
    for line in _lines(source):
        sheet = sheet or Sheet(source, line.number, above)
        sheet.take(line)
        if sheet.ended():
            yield sheet
            above, sheet = sheet.block and sheet.block_so_far(), None
    if sheet:
        raise sheet.cut_off(sheet.last)


def _lines(source):
    """The lines of an input, and what follows the last line end. It ends at a line that is too long for a sheet."""
    number, begun = 1, b""
    for block in source.blocks():
        *complete, begun = (begun + block).split(b"\n")
        for number, text in enumerate(complete, number):
            yield Line(number, text[:SHOWN], len(text), True)
        number += len(complete) > 0
        if len(begun) > LONGEST:
            break
    if begun or number == 1:
        yield Line(number, begun[:SHOWN], len(begun), False)


class Sheet:
    """A sheet, line by line as it was printed."""

    def __init__(self, source, first, above):
        self.source = source
        self.first = first
        # what is said of the carry block above it, where another sheet ends in one there
        self.above = above
        self.last = None
        self.day = None
        self.interval = None
        self.parts = []
        # the lines of the carry block, from T on
        self.block = None
        self.refused = None

    def name(self):
        """what it is called: the name of its input, and where it begins there if others come before it"""
        return self.source.name if self.first == 1 else f"{self.source.name} from line {self.first}"

    def quarters(self):
        """how many quarter hours stand on it"""
        return len(self.parts) // 2

    def take(self, line):
        """one line more"""
        kind, *fields = self._fields(line)
        fault = PLACES[kind](self, fields) if self.block is None else _rest_fault(self, kind)
        if fault:
            raise NoSheet(self.source, line, fault)
        self.last = line
        if kind == "V":
            self.day, self.interval = fields[1], int(fields[2])
        elif kind == "Q":
            self.parts.append(Part(line.number, row_of(kind, fields), []))
        elif kind == "K":
            self.parts[-1].lines.append(row_of(kind, fields))
        elif kind == "R":
            self.refused = Refused(*map(int, fields))
        elif kind == "T":
            self.block = []
        else:
            self.block.append(line)

    def ended(self):
        """whether it is whole"""
        return bool(self.refused or self.block and len(self.block) > PAST[self.interval])

    def block_so_far(self):
        """how much of the carry block is there, in words"""
        setpoints = f"{len(self.block) - 1} of {PAST[self.interval]} lines B" if self.block else "no line O"
        return f"the carry block has {setpoints}"

    def cut_off(self, line):
        """that the input ends in or after this line, and the sheet does not"""
        words = "the sheet is cut off after this line" if line.complete else "the sheet is cut off in this line"
        cause = ENDS if self.block is None else self.block_so_far()
        return NoSheet(self.source, line, words, Cause(None, cause, AGAIN))

    def _fields(self, line):
        """the fields of a line that has a form of the sheet"""
        begun = self.last or line.text.startswith(b"V\t")
        if begun and not line.complete and line.length <= LONGEST:
            raise self.cut_off(line)
        number = FORMAT_NUMBER.match(line.text)
        if number and number[1].decode() != FORMAT:
            words = f"the sheet has format {number[1].decode()}: only format {FORMAT} is read here"
            raise NoSheet(self.source, line, words, Cause(None, None, "settle its input again"))
        kind, _, rest = line.text.decode("latin-1").partition("\t")
        if kind in FORMS and line.complete and re.fullmatch(FORMS[kind], rest):
            return [kind, *rest.split("\t")]
        words = "this is no line of a sheet" if self.last else "no sheet begins here"
        raise NoSheet(self.source, line, words, _cause_of_ill_form(line, self.last))


def _cause_of_ill_form(line, last):
    """why a line is none of a sheet: one that follows another, or the first of an input or after a sheet"""
    if line.length == 0 and not line.complete:
        return Cause(None, "there is nothing in it", "look whether the right file was given")
    letter = line.text.split(b"\t")[0]
    if letter in KINDS and letter not in BLOCK and not last:
        return Cause(None, "this is an input, and has no figures yet", "settle it, and give its sheet")
    mend = AGAIN if last else "give a sheet as settle prints it, without --table and without --csv"
    return encoding(line) or line_ends(line) or Cause(None, None, mend)


def _heading_fault(sheet, _fields):
    return f"another sheet begins here, and the one above has no end: {ENDS}" if sheet.day else None


def _pool_fault(sheet, fields):
    if not sheet.day:
        return NO_HEADING
    quarter, direction = sheet.quarters(), list(DIRECTIONS)[len(sheet.parts) % 2]
    if (int(fields[0]), fields[1]) == (quarter, direction):
        return None
    return f"the next line Q is that of quarter hour {quarter}, {direction}"


def _contract_fault(sheet, fields):
    if not sheet.parts:
        return "a line Q comes before the first line K" if sheet.day else NO_HEADING
    pool, lines = sheet.parts[-1].pool, sheet.parts[-1].lines
    if (int(fields[0]), fields[1]) != (pool.quarter, pool.direction):
        return f"below the line Q of quarter hour {pool.quarter}, {pool.direction} stand its own lines K alone"
    return f"no direction has more than {CONTRACTS} contracts" if len(lines) == CONTRACTS else None


def _total_fault(sheet, fields):
    if not sheet.day:
        return NO_HEADING
    if len(sheet.parts) % 2 == 0 and int(fields[0]) != sheet.quarters():
        return f"T counts {quarter_hours(int(fields[0]))}, and the sheet has {sheet.quarters()}"
    return _half(sheet) if sheet.parts else "the first quarter hour comes before T"


def _half(sheet):
    """what is missing of the last quarter hour"""
    return f"the line Q of quarter hour {sheet.quarters()}, N is missing" if len(sheet.parts) % 2 else None


def _block_fault(sheet, _fields):
    if sheet.day:
        return "the carry block stands after T"
    return f"a line too many: {sheet.above}" if sheet.above else NO_HEADING


def _rest_fault(sheet, kind):
    """what is wrong with a line of this kind after T, where the carry block alone stands: in words, or None"""
    wanted = "B" if sheet.block else "O"
    return None if kind == wanted else f"a line {wanted} comes next: {sheet.block_so_far()}"


NO_HEADING = "a sheet begins with a line V"
# What is wrong with the place of a line of this kind, after what the sheet has so far and before T: in words, or None.
PLACES = {"V": _heading_fault, "Q": _pool_fault, "K": _contract_fault, "T": _total_fault,
          "R": lambda sheet, _fields: _half(sheet), "O": _block_fault, "B": _block_fault}
