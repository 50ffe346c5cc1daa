"""Where lines and rest of a sheet differ from the pool's figures. Figures that stand on it are added up, no more."""
import collections

from desk.sheets import COLUMNS, REST, aligned, joined, quarter_hours
from desk.visible import grouped

# The columns that are cut into lines and a rest: SO, IS and AK.
CUT = COLUMNS[:len(COLUMNS) - REST]

# A figure of the pool: the number of its line, its quarter hour, direction and column, how many contracts the direction
# has, the figure, what is added up beside it, the difference, and the most that roundings make of one; energies in kWh.
Figure = collections.namedtuple("Figure", "line quarter direction column contracts pool lines rest difference bound")

# the energies of a figure, as they are headed
ENERGIES = ("pool", "lines", "rest", "difference", "bound")

NOTE = """\
The difference is lines (the K lines of all contracts, added up) + rest - pool. Each of these figures is rounded
once, to the nearest kWh, from its own sum, and nothing else makes a difference. So no sheet is printed with one
above the bound: half a kWh for each contract and half a kWh more, in whole kWh (16 kWh for 32 contracts).
docs/RULES.md says why.
"""


def bound(contracts):
    """The most that roundings make of a difference, in kWh: twice the difference is less than the contracts and 2."""
    return (contracts + 1) // 2


def figures(sheet):
    """the pool's figures of SO, IS and AK, in the order in which they stand on the sheet"""
    for part in sheet.parts:
        for place, column in enumerate(CUT):
            pool, rest = part.pool.figures[place], part.pool.figures[REST + place]
            lines = sum(row.figures[place] for row in part.lines)
            yield Figure(part.line, part.pool.quarter, part.pool.direction, column, len(part.lines), pool, lines, rest,
                         lines + rest - pool, bound(len(part.lines)))


def above_bound(figure):
    """whether no roundings make such a difference"""
    return abs(figure.difference) > figure.bound


def wanted(sheet, everything):
    """the figures that differ, or all of them"""
    return [figure for figure in figures(sheet) if everything or figure.difference]


def sentence(sheet):
    """what is explained, and how many of its figures differ"""
    count, differing = len(sheet.parts) * len(CUT), wanted(sheet, False)
    refused = " before a refusal" if sheet.refused else ""
    lead = f"{sheet.name()}, {sheet.day}, {quarter_hours(sheet.quarters())}{refused}:"
    if not differing:
        return f"{lead} in SO, IS and AK all lines and the rest add up to the pool's figures.\n"
    most = grouped(max(abs(figure.difference) for figure in differing))
    return f"{lead} differences in {grouped(len(differing))} of {grouped(count)} figures, up to {most} kWh.\n"


def table(rows):
    """figures with aligned columns"""
    return aligned([*_headings(), *map(_cells, rows)], words=[1, 2, 9], rules=[2])


def _headings():
    yield ["quarter", "", "", "", *ENERGIES, ""]
    yield ["hour", "direction", "energy", "contracts", *["kWh"] * len(ENERGIES), ""]


def _cells(figure):
    difference = f"{figure.difference:+,}" if figure.difference else "0"
    energies = [grouped(figure.pool), grouped(figure.lines), grouped(figure.rest), difference, grouped(figure.bound)]
    mark = "above the bound" if above_bound(figure) else ""
    energy = f"{figure.column.short} {figure.column.name}"
    return [str(figure.quarter), figure.direction, energy, str(figure.contracts), *energies, mark]


def csv(sheet, everything, separator):
    """a row for each figure that differs, or for all of them, with the day on each"""
    for figure in wanted(sheet, everything):
        lead = [sheet.day, figure.quarter, figure.direction, figure.column.short, figure.contracts]
        yield joined([*lead, figure.pool, figure.lines, figure.rest, figure.difference, figure.bound], separator)


def csv_header(separator):
    """the names of the columns of the csv"""
    energies = [f"{name} kWh" for name in ENERGIES]
    return joined(["day", "quarter hour", "direction", "energy", "contracts", *energies], separator)
