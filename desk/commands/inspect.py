"""inspect: what is in an input. Whether it is accepted says the proved settling program, whose sheet is not shown."""
from desk import programs, sheets
from desk.building import ensure_built
from desk.endings import ACCEPTED, REFUSED
from desk.inputs import Input, look_at
from desk.layout import Before
from desk.refusals import help_table
from desk.streams import print_out
from desk.visible import grouped


def arguments(parser):
    """the words that inspect takes"""
    parser.add_argument("file", nargs="?", default="-", metavar="FILE", help="an input; - or none is standard input")
    parser.epilog = f"{help_table()}\n\n{parser.epilog}"


def run(options):
    """says what is in the input, or the first ground to refuse it"""
    look_at(options.file)
    ensure_built("settle")
    sheet = bytearray()
    with Input(options.file) as source:
        if not programs.accepted("settle", source, sheet.extend):
            return REFUSED
        print_out("".join(_described(source, sheets.read(sheet))).encode("utf-8", "surrogateescape"))
    return ACCEPTED


def _described(source, sheet):
    end = source.end_line_number()
    before = Before(source, end)
    asked = before.header[3].decode()
    where = "the header has -, the usual lot" if asked == "-" else "from the header"
    yield f"{source.name}: accepted\n"
    yield f"  day        {sheet.day}\n"
    yield f"  interval   {sheet.interval} s, {before.samples_of_quarter()} samples a quarter hour\n"
    yield f"  lot        {grouped(sheet.lot)} kW ({where})\n"
    yield f"  start      {_start(before)}\n"
    for direction in ("P", "N"):
        yield f"  contracts  {direction}: {_contracts(before.of_direction(direction.encode()))}\n"
    yield f"  samples    {grouped(before.samples)}\n"
    yield f"  covered    {grouped(sheet.quarters * 15)} minutes, {sheets.quarter_hours(sheet.quarters)}\n"
    more = ", and more follows that is not read" if source.goes_on_after_end() else ""
    yield f"  end        line {grouped(end)}{more}\n"


def _start(before):
    """what lies before the first sample"""
    if before.bounds is None:
        return "no carry block: as if the first setpoint had always stood"
    oga, uga = map(grouped, before.bounds)
    return f"a carry block on lines 2 to {2 + before.past}: OGA {oga} and UGA {uga} units"


def _contracts(contracts):
    if not contracts:
        return "none"
    award = grouped(sum(contract.award for contract in contracts))
    prices = " to ".join(dict.fromkeys(grouped(contract.price) for contract in (contracts[0], contracts[-1])))
    names = ", ".join(contract.identifier.decode() for contract in contracts)
    return f"{len(contracts)} ({names}), {award} kW awarded, {prices} cent per MWh"
