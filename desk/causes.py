"""Why a line was refused, as far as the input tells.

The number is the proved program's; what is said here about its cause is a guess that helps to mend."""
import datetime
import re

from desk.illformed import Cause, cause_of_ill_form, encoding
from desk.layout import PAST, Before
from desk.refusals import remedy
from desk.visible import grouped, visible

AWARDS_LIMIT = 2000000
POWER_LIMIT = 2000000
UNITS_PER_KW = 5400
IDENTIFIER_LIMIT = 16


def cause_of(program, refused, line, source):
    """the cause of a refusal by a program: the line that was refused, and the source that it stands in"""
    if refused.number == 14:
        return cause_of_ill_form(line, program)
    causes, before = _known_to(program)
    if refused.number not in causes:
        return Cause(FIELDS.get(refused.number), None, None)
    return causes[refused.number](line, before(source, refused.line))


def _known_to(program):
    """the causes that are known for the refusals of a program, and what they are told of the lines before"""
    if program == "mend":
        # imported here, since it takes some of the causes that stand here
        from desk import recordings
        return recordings.CAUSES, recordings.Before
    if program == "checker":
        from desk import behind
        return behind.CAUSES, behind.Before
    return CAUSES, Before


EMPTY = Cause(None, "the input is empty", "look whether the right file was given")
# The field that a number is about, where the number alone tells all.
FIELDS = {2: 2, 3: 3, 5: 4, 9: 3, 11: 4}


def no_header(line):
    """another line comes before the header"""
    return Cause(0, f"the first line has to be the header, and this one begins with {line.text[:1].decode()}",
                 "put the D line first")


def _wrong_moment(line, before):
    letter = line.text[:1]
    if before.header is None:
        return no_header(line)
    if letter == b"D":
        return Cause(0, f"a second header, {_so_far(before)}",
                     "give each day or stretch an input of its own, with one D line at its top and E at its end")
    if letter == b"C":
        return Cause(0, f"a contract {_so_far(before)}",
                     "move the C lines up, between the D line and the first S line")
    if letter in (b"O", b"B"):
        return _bounds_too_late(before) if letter == b"O" else _outside_the_block(before)
    return _end_too_early(before) if letter == b"E" else _sample_too_many(before)


def _bounds_too_late(before):
    if before.bounds is None:
        where = "after a contract" if before.contracts and not before.samples else _so_far(before)
        return Cause(0, f"an O line {where}: a carry block stands directly after the D line",
                     "move the O line and its B lines up, behind the D line, or take them out")
    if before.after:
        return Cause(0, f"the input has a carry block of its own, and that of {before.after} was put before it",
                     "settle it without --after and --carry, or take its own O line and B lines out")
    return Cause(0, f"a second O line, {_block_so_far(before)}",
                 "leave one block, as it ends the sheet of the run before")


def _outside_the_block(before):
    if before.bounds is None:
        return Cause(0, "a B line, and no O line directly after the D line",
                     "put the O line of the sheet that the block comes from between the D line and the B lines")
    return Cause(0, f"a B line after the carry block, which has its {before.past_wanted()} B lines",
                 "take the line out")


def _block_length(line, before):
    wanted, interval = before.past_wanted(), before.header[2].decode()
    if line.text[:1] == b"B":
        return Cause(0, f"the carry block has its {wanted} B lines, as many as an interval of {interval} s wants",
                     "take out what is there twice, or give the block of a run with this interval")
    other = next((seconds for seconds, past in PAST.items() if past == before.past), None)
    guess = f"; so many has one at an interval of {other} s" if other else ""
    return Cause(0, f"the carry block has {before.past} of {wanted} B lines where this line comes{guess}", None)


def _block_value(line, before):
    letter, *fields = line.text.split(b"\t")
    values = [int(field) for field in fields]
    limit = POWER_LIMIT * (UNITS_PER_KW if letter == b"O" else 1)
    place = next((place for place, value in enumerate(values, 1) if abs(value) > limit), None)
    if place:
        return Cause(place, None, None)
    oga, uga = map(grouped, before.bounds)
    units = values[0] * UNITS_PER_KW
    return Cause(1, f"the newest setpoint, {grouped(values[0])} kW, is {grouped(units)} units, and the O line has UGA "
                 f"{uga} and OGA {oga}: it is not between them", None)


def _block_so_far(before):
    """where the carry block stands, in words"""
    return f"after {before.past} of {before.past_wanted()} B lines of the carry block"


def _so_far(before):
    """where the samples stand, in words, or the carry block where it lacks some"""
    if before.bounds and before.past < before.past_wanted():
        return _block_so_far(before)
    if before.samples == 0:
        return "before the first sample"
    each = before.samples_of_quarter()
    quarter, samples = divmod(before.samples - 1, each)
    return f"after {samples + 1} of {each} samples of quarter hour {quarter}"


def _wanted(before):
    """what the header asks for, in words"""
    quarters = before.quarters()
    hours = "1 quarter hour" if quarters == 1 else f"{quarters} quarter hours, which count from 0 to {quarters - 1}"
    return f"the header asks for {hours}, {grouped(before.samples_wanted())} samples in all"


def _end_too_early(before):
    missing = before.samples_wanted() - before.samples
    number = "1 sample is missing" if missing == 1 else f"{grouped(missing)} samples are missing"
    return Cause(0, f"E {_so_far(before)}; {_wanted(before)}",
                 f"{number}, here or anywhere before (samples have no time, so the count shows it only at the end): "
                 "put what is missing in, or write the number of quarter hours that are there into the D line")


def _sample_too_many(before):
    each = before.samples_of_quarter()
    return Cause(0, f"sample {each + 1} of {each} of quarter hour {before.quarters() - 1}, the last; {_wanted(before)}",
                 "take out what is there twice, here or anywhere before, or write the number of quarter hours that are "
                 "there into the D line; after the last sample comes E")


def date(line, _before):
    """a day that does not exist, or is not settled"""
    text = line.text.split(b"\t")[1].decode()
    year, month, day = map(int, text.split("-"))
    if not 1 <= month <= 12:
        return Cause(1, f"this day does not exist: there is no month {text[5:7]}",
                     "write the year, the month and the day in this order")
    try:
        # there is no year 0 here, and its days are out of range like those of year 1
        datetime.date(max(year, 1), month, day)
    except ValueError:
        return Cause(1, f"this day does not exist: month {text[:7]} has no day {text[8:]}",
                     "look up the day that is meant")
    return Cause(1, "the day is out of range: 2000-01-01 to 2099-12-31 are settled", "look whether the year is meant")


def _too_many_contracts(line, before):
    direction = line.text.split(b"\t")[1]
    count = len(before.of_direction(direction))
    return Cause(1, f"direction {direction.decode()} has {count} contracts already", None)


def identifier(line, _before):
    """an identifier that is empty, too long or of other signs; on a U line one field comes before it more"""
    place = 3 if line.text[:1] == b"U" else 2
    data = line.text.split(b"\t")[place]
    if not data:
        return Cause(place, "the identifier is empty", "name the contract")
    if len(data) > IDENTIFIER_LIMIT:
        return Cause(place, f"it has {len(data)} bytes, and at most {IDENTIFIER_LIMIT} are allowed", "shorten it")
    strange = re.search("[^A-Za-z0-9-]", data.decode("utf-8", "surrogateescape"))[0]
    shown = visible(strange.encode("utf-8", "surrogateescape"))
    return Cause(place, f"the sign {shown} is in it; A-Z, a-z, 0-9 and hyphen are allowed", "write another sign for it")


def _taken(line, before):
    data = line.text.split(b"\t")[2]
    first = next(contract for contract in before.contracts if contract.identifier == data)
    return Cause(2, f"{data.decode()} stands on line {first.line} already, direction {first.direction.decode()}", None)


def _awards(line, before):
    _, direction, _, award, _ = line.text.split(b"\t")
    others = sum(contract.award for contract in before.of_direction(direction))
    return Cause(3, f"direction {direction.decode()} has {grouped(others)} kW before this line and "
                 f"{grouped(others + int(award))} kW with it; {grouped(AWARDS_LIMIT)} kW are the limit",
                 f"{grouped(AWARDS_LIMIT - others)} kW are left for it: {remedy(10)}")


def _price(line, before):
    _, direction, _, _, price = line.text.split(b"\t")
    last = before.of_direction(direction)[-1]
    return Cause(4, f"the contract before it in direction {direction.decode()}, {last.identifier.decode()} on line "
                 f"{last.line}, has {grouped(last.price)} cent per MWh, and this one {grouped(int(price))}", None)


def power(line, _before):
    """one of the last two fields is out of range"""
    fields = line.text.split(b"\t")
    first = len(fields) - 2
    place = next(place for place, power in enumerate(fields[first:], first) if abs(int(power)) > POWER_LIMIT)
    return Cause(place, None, None)


def _no_end(line, before):
    if line.length == 0:
        return _no_last_line(line, before)
    return no_line_end(line) or Cause(
        None, f"the last line has no line end and is not E, {_so_far(before)}: the input may be cut off",
        "see that the input is whole; its last line is E, with a line end")


def no_line_end(line):
    """why a last line has no line end, or None where it may be cut off"""
    if line.text.strip() == b"E":
        return Cause(None, "the last line says E and has no line end: E counts with its line end alone",
                     "put a line end behind E, or: echo >>FILE")
    if encoding(line):
        return encoding(line)
    if b"\r" in line.text:
        return Cause(None, "line ends of CR alone: lines end in LF",
                     "tr '\\r' '\\n' <FILE >MENDED, and see that a line E ends it")
    return None


def _no_last_line(line, before):
    """the input ends with a complete line, or has none"""
    if line.number == 1:
        return EMPTY
    if before.samples == before.samples_wanted():
        return Cause(None, "all samples are there, and no line E follows",
                     "put a line E at the end, or: echo E >>FILE")
    return Cause(None, f"the input ends {_so_far(before)}; {_wanted(before)}: it may be cut off",
                 "see that the input is whole, and ends with a line E")


CAUSES = {1: _wrong_moment, 4: date, 6: _too_many_contracts, 7: identifier, 8: _taken, 10: _awards, 12: _price,
          13: power, 15: _no_end, 17: _block_length, 18: _block_value}
