"""shares: whether the operator's shares hold, by the proved program checker. Why they do not is worked out here, from a
sheet that the proved program settle prints for the same input."""
import collections
import fractions
import tempfile

from desk import behind, programs, sheets
from desk.building import ensure_built
from desk.endings import ACCEPTED, DO_NOT_HOLD, REFUSED
from desk.inputs import Input
from desk.options import input_paths
from desk.refusals import help_table
from desk.streams import print_out, say
from desk.visible import grouped

ABOUT = """\
Shares hold where in each quarter hour and direction they sum to what is handed out, each is between 0 and the gap of
its contract, and each lies less than 1 kWh from its part in proportion to the gaps. One line is printed: A with the
number of quarter hours, or F with the first quarter hour and direction that does not hold, or R where the input is
refused."""

# What is shared in a quarter hour and direction: what is handed out, the sum of the gaps, and the shares.
Side = collections.namedtuple("Side", "handed_out all_gaps shares")
# A share: the line that it stands on, its contract, the gap, the operator's share and ours.
Share = collections.namedtuple("Share", "line contract gap share own")


def arguments(parser):
    """the words that shares takes"""
    parser.add_argument("file", nargs="?", default="-", metavar="INPUT",
                        help="an input, with the U lines of the shares after E or without; - or none is standard input")
    parser.add_argument("operator", nargs="?", metavar="OPERATOR",
                        help=f"a file of the operator's shares, with rows of {behind.COLUMNS}, and ; , or tabs between")
    parser.epilog = f"{ABOUT}\n\n{help_table()}\n\n{parser.epilog}"


def run(options):
    """checks the shares"""
    input_paths([options.file] + ([options.operator] if options.operator else []))
    shares = behind.read(options.operator) if options.operator else None
    ensure_built("checker")
    with behind.Behind(options.file, shares) as source:
        verdict = bytearray()

        def take(printed):
            verdict.extend(printed)
            print_out(printed)

        if not programs.accepted("checker", source, take):
            return REFUSED
        kind, quarter, *direction = verdict.decode().split()
        if kind == "A":
            say(f"{source.with_verdict()}: the shares of {sheets.quarter_hours(int(quarter))} hold")
            return ACCEPTED
        say(_why_not(source, int(quarter), *direction))
    return DO_NOT_HOLD


def _why_not(source, quarter, direction):
    """what does not hold in a quarter hour and direction, in words"""
    ensure_built("settle")
    side = _side(source, quarter, direction)
    parts = [f"{source.with_verdict()}: the shares of quarter hour {quarter}, {direction} do not hold"]
    parts += filter(None, [_wrong_sum(side), *(_wrong_share(side, share) for share in side.shares)])
    own = ", ".join(f"{share.contract} {grouped(share.own)}" for share in side.shares)
    parts.append(f"to mend it: ask the operator how the surplus was shared; our shares are {own} kWh")
    return "\n  ".join(parts)


def _side(source, quarter, direction):
    """what the sheet and the operator say of a quarter hour and direction"""
    rows = _sheet(source).rows
    shares = source.own_shares()
    # the shares stand in the order of the lines K, all of them
    placed = zip((row for row in rows if row.contract), shares)
    found = [_share(row, line, int(fields[-1])) for row, (line, fields) in placed
             if (row.quarter, row.direction) == (quarter, direction)]
    pool = next(row for row in rows if (row.quarter, row.direction, row.contract) == (quarter, direction, ""))
    return Side(_figure(pool, "ZU"), sum(share.gap for share in found), found)


def _share(row, line, share):
    """a share beside the line K of its contract"""
    asked, accepted, shortfall, under = (_figure(row, name) for name in ("SO", "AK", "MI", "UN"))
    cap = asked - under
    return Share(line, row.contract, min(cap - min(cap, accepted), shortfall), share, _figure(row, "ZU"))


def _figure(row, name):
    return row.figures[[column.short for column in sheets.COLUMNS].index(name)]


def _sheet(source):
    """the sheet of the input that was checked, which is settled once more from what was read of it"""
    sheet = bytearray()
    with tempfile.TemporaryFile() as file:
        file.write(source.fed)
        file.flush()
        with Input(f"/dev/fd/{file.fileno()}") as again:
            programs.run("settle", again, sheet.extend)
    return sheets.read(sheet)


def _wrong_sum(side):
    more = sum(share.share for share in side.shares) - side.handed_out
    if more == 0:
        return None
    return (f"they sum to {grouped(side.handed_out + more)} kWh, and {grouped(side.handed_out)} kWh are handed out: "
            f"{grouped(abs(more))} kWh too {'much' if more > 0 else 'little'}")


def _wrong_share(side, share):
    """what is wrong with the share of a contract, or None"""
    given = f"{share.contract} (line {share.line}): {grouped(share.share)} kWh"
    if share.share < 0:
        return f"{given}, and no share is below 0"
    if share.share > share.gap:
        return f"{given}, and its gap is {grouped(share.gap)} kWh: {grouped(share.share - share.gap)} kWh above it"
    if side.all_gaps == 0:
        return None
    part = fractions.Fraction(share.gap * side.handed_out, side.all_gaps)
    if abs(share.share - part) < 1:
        return None
    return (f"{given}, and its part is {share.gap} × {side.handed_out} / {side.all_gaps} = {float(part):.2f} kWh: "
            f"{float(abs(share.share - part)):.2f} kWh from it, and less than 1 kWh is allowed")
