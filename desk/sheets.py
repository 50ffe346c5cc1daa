"""A sheet for people and for spreadsheets, from its text alone. The only sums are those of lines that stand on it."""
import collections

from desk.endings import Trouble
from desk.visible import grouped

# the format number of the sheets that are read here: that of the V line
FORMAT = "3"

# a column of the lines Q and K: its short name on the sheet, its name in words, its unit
Column = collections.namedtuple("Column", "short name unit")

COLUMNS = (
    Column("SO", "asked for", "kWh"), Column("IS", "delivered", "kWh"), Column("AK", "accepted", "kWh"),
    Column("ME", "surplus", "kWh"), Column("MI", "shortfall", "kWh"), Column("ZU", "handed out", "kWh"),
    Column("UN", "under-delivery", "kWh"), Column("AB", "billed", "kWh"),
    Column("", "fee", "cent"), Column("", "penalty", "cent"),
    # last, so that spreadsheets made before there was a rest find every other column where it was
    Column("rest of SO", "asked for", "kWh"), Column("rest of IS", "delivered", "kWh"),
    Column("rest of AK", "accepted", "kWh"),
)
# a K line has no ME and no rest, a Q line no fee and no penalty
ME, FEE, REST = 3, 8, 10
NO_MONEY, NO_REST = [None] * (REST - FEE), [None] * (len(COLUMNS) - REST)
DIRECTIONS = {"P": "Positive (P): extra infeed", "N": "Negative (N): extra offtake"}
NOTE = """The operator pays a fee above 0 to the pool, the pool pays one below 0 to the operator, and owes penalties.
The rest is what lies above the awards of all contracts together: it is the pool's and no contract's.
Each energy is rounded on its own: those of the contracts and the rest need not add up to the pool's.
"""

# A line Q or K: no contract on a Q line; as many figures as there are columns, None where the line has none.
Row = collections.namedtuple("Row", "quarter direction contract figures")
Sheet = collections.namedtuple("Sheet", "day interval lot rows quarters fees penalties")


def read(text):
    """the sheet of an accepted run"""
    rows, heading, ending = [], None, None
    for line in text.decode().splitlines():
        kind, *fields = line.split("\t")
        if kind == "V":
            if fields[0] != FORMAT:
                raise Trouble(f"the sheet has format {fields[0]}: only format {FORMAT} is read here")
            heading = fields[1], int(fields[2]), int(fields[3])
        elif kind in ("Q", "K"):
            rows.append(row_of(kind, fields))
        elif kind == "T":
            ending = tuple(map(int, fields))
        # the lines O and B of the carry block are no figures of the settlement
    return Sheet(*heading, rows, *ending)


def row_of(kind, fields):
    """a line Q or K, from its fields"""
    if kind == "Q":
        figures = tuple(map(int, fields[2:]))
        return Row(int(fields[0]), fields[1], "", (*figures[:FEE], *NO_MONEY, *figures[FEE:]))
    figures = tuple(map(int, fields[3:]))
    return Row(int(fields[0]), fields[1], fields[2], (*figures[:ME], None, *figures[ME:], *NO_REST))


def csv(sheet, separator):
    """a row for each line Q, K and T, with the day on each, and no decimals"""
    lead = [sheet.day, sheet.interval, sheet.lot]
    for row in sheet.rows:
        kind = "K" if row.contract else "Q"
        yield joined([kind, *lead, row.quarter, row.direction, row.contract, *row.figures], separator)
    yield joined(["T", *lead, None, None, None, *[None] * FEE, sheet.fees, sheet.penalties, *NO_REST], separator)


def csv_header(separator):
    """the names of the columns of the csv"""
    figures = [f"{column.short or column.name} {column.unit}" for column in COLUMNS]
    lead = ["line", "day", "interval s", "lot kW", "quarter hour", "direction", "contract"]
    return joined([*lead, *figures], separator)


def joined(cells, separator):
    """a row for a spreadsheet; a cell of None is empty"""
    return separator.join("" if cell is None else str(cell) for cell in cells) + "\n"


def table(sheet):
    """the sheet with aligned columns, a part for each direction with its sums, and the sums of the whole"""
    yield f"Settlement of {sheet.day}: {quarter_hours(sheet.quarters)}, interval {sheet.interval} s, "
    yield f"minimum lot {grouped(sheet.lot)} kW\n"
    for direction, name in DIRECTIONS.items():
        rows = [row for row in sheet.rows if row.direction == direction]
        yield f"\n{name}\n\n"
        lines = [*_headings(), *map(_cells, rows), ["sum", "pool", *_sums(rows)]]
        yield from aligned(lines, words=[1], rules=[3, len(lines) - 1])
    yield f"\nIn all: fees {grouped(sheet.fees)} cent, penalties {grouped(sheet.penalties)} cent.\n\n{NOTE}"


def quarter_hours(count):
    """so many quarter hours, in words"""
    return "1 quarter hour" if count == 1 else f"{count} quarter hours"


def _headings():
    yield ["quarter", "", *(column.short for column in COLUMNS)]
    yield ["hour", "contract", *(column.name for column in COLUMNS)]
    yield ["", "", *(column.unit for column in COLUMNS)]


def _cells(row):
    return [str(row.quarter), row.contract or "pool", *map(_cell, row.figures)]


def _cell(figure):
    return "" if figure is None else grouped(figure)


def _sums(rows):
    """the sums of the pool's energies, the rest among them, and of the contracts' fees and penalties"""
    for place in range(len(COLUMNS)):
        wanted = [row for row in rows if bool(row.contract) == (FEE <= place < REST)]
        yield grouped(sum(row.figures[place] for row in wanted))


def aligned(lines, words, rules):
    """Lines of cells in columns, figures to the right. The places of columns of words, which go to the left, are given,
    and those of the lines that a rule goes above."""
    widths = [max(map(len, column)) for column in zip(*lines)]
    rule = "  ".join("-" * width for width in widths).rstrip() + "\n"
    for place, line in enumerate(lines):
        if place in rules:
            yield rule
        cells = (cell.ljust(width) if column in words else cell.rjust(width)
                 for column, (cell, width) in enumerate(zip(line, widths)))
        yield "  ".join(cells).rstrip() + "\n"
