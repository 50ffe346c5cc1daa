"""explain: where the lines of a sheet differ from its pool line. Printed figures are added up; no program is run."""
from desk import differences, sheets
from desk.endings import ACCEPTED, CHANGED, REFUSED
from desk.inputs import Input
from desk.options import add_separator, input_paths, separator
from desk.printed import NoSheet, read
from desk.refusals import ground
from desk.streams import print_out, say
from desk.visible import grouped

ABOUT = """\
For each quarter hour, each direction and each of SO, IS and AK one line says the pool's figure, the sum of the lines
of all contracts, the rest, the difference and its bound: where there is a difference, or with --all everywhere."""


def arguments(parser):
    """the words that explain takes"""
    parser.add_argument("files", nargs="*", metavar="SHEET",
                        help="what settle printed, one sheet or several; - or none is standard input")
    parser.add_argument("--all", action="store_true", help="all figures, and not only those that differ")
    parser.add_argument("--csv", action="store_true", help="print rows for a spreadsheet, without decimals")
    add_separator(parser)
    parser.epilog = f"{ABOUT}\n\n{differences.NOTE}\n{parser.epilog}"


def run(options):
    """explains each sheet; the exit status is that of the worst of them"""
    sign = separator(options, options.csv)
    paths = input_paths(options.files)
    pages = _Rows(options.all, sign) if options.csv else _Pages(options.all)
    status = max(_explain(path, pages) for path in paths)
    pages.finish()
    return status


def _explain(path, pages):
    """explains the sheets of one input"""
    status = ACCEPTED
    with Input(path) as source:
        try:
            for sheet in read(source):
                pages.show(sheet)
                status = max(status, _refused(sheet), _changed(sheet))
        except NoSheet as fault:
            say(fault)
            status = max(status, fault.status)
    return status


class _Pages:
    """Sheets for people: a sentence for each, with a table below it where there is something to show, and one note."""

    def __init__(self, everything):
        self.everything = everything
        self.above = None
        self.note = False

    def show(self, sheet):
        """prints one sheet explained, where it has a quarter hour"""
        if sheet.parts:
            self._put("sentence", differences.sentence(sheet))
        rows = differences.wanted(sheet, self.everything)
        if rows:
            self._put("table", "".join(differences.table(rows)))
            self.note = True

    def finish(self):
        """prints what holds for all of them"""
        if self.note:
            self._put("note", differences.NOTE)

    def _put(self, kind, text):
        """sentences stand one below the other, and a blank line is above and below all else"""
        gap = "\n" if self.above and (self.above, kind) != ("sentence", "sentence") else ""
        print_out((gap + text).encode("utf-8", "surrogateescape"))
        self.above = kind


class _Rows:
    """Sheets for a spreadsheet: one heading, and the rows of all of them."""

    def __init__(self, everything, sign):
        self.everything = everything
        self.sign = sign
        self.heading = differences.csv_header(sign)

    def show(self, sheet):
        """prints the rows of one sheet"""
        rows = differences.csv(sheet, self.everything, self.sign)
        print_out((self.heading + "".join(rows)).encode())
        self.heading = ""

    def finish(self):
        """nothing is left to say"""


def _refused(sheet):
    """says where a sheet ends in a refusal; answers the exit status"""
    if not sheet.refused:
        return ACCEPTED
    line, number = sheet.refused
    before = sheets.quarter_hours(sheet.quarters()) if sheet.parts else "no quarter hour"
    say(f"{sheet.source.name}, line {sheet.last.number}: the sheet ends in a refusal, with {before} before it\n"
        f"  cause: its input was refused at line {line}: refusal {number}: {ground(number)}\n"
        "  to mend it: fireboxer inspect INPUT says what is wrong there")
    return REFUSED


def _changed(sheet):
    """says where a sheet is none that the program printed; answers the exit status"""
    wrong = [figure for figure in differences.figures(sheet) if differences.above_bound(figure)]
    if not wrong:
        return ACCEPTED
    first = wrong[0]
    count = "1 difference" if len(wrong) == 1 else f"{grouped(len(wrong))} differences"
    contracts = {0: "no contract", 1: "1 contract"}.get(first.contracts, f"{first.contracts} contracts")
    say(f"{sheet.source.name}, line {first.line}: the sheet was changed after it was printed: {count} above the bound\n"
        f"  {first.column.short} of quarter hour {first.quarter}, {first.direction}: the pool has "
        f"{grouped(first.pool)} kWh, the lines {grouped(first.lines)} and the rest {grouped(first.rest)}\n"
        f"  cause: the difference is {grouped(abs(first.difference))} kWh, and with {contracts} roundings make "
        f"{grouped(first.bound)} kWh at most\n"
        "  to mend it: settle the input again, and take the sheet as it is printed")
    return CHANGED
