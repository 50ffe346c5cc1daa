"""year: every input of a folder to a sheet of its own, by the proved program settle."""
import os

from desk.building import ensure_built
from desk.days import Day, Ending, settle_in_turn, settle_together
from desk.endings import ACCEPTED, LEFT_ALONE, REFUSED, Trouble
from desk.inputs import called, look_at
from desk.refusals import ground, help_table
from desk.streams import print_out, say, show

INPUT, SHEET = ".txt", ".sheet"

ABOUT = """\
A sheet is written whole or not at all, and where one is there already that differs, it is left alone. A refused input
writes none, and what was there stays. The summary says what was settled, kept, left alone and refused."""


def arguments(parser):
    """the words that year takes"""
    parser.add_argument("folder", metavar="FOLDER", help=f"a folder of inputs: all its files NAME{INPUT}")
    parser.add_argument("-o", "--output", metavar="FOLDER",
                        help=f"write the sheets NAME{SHEET} into this folder, and not beside the inputs")
    parser.add_argument("--overwrite", action="store_true", help="write over sheets that are there and differ")
    parser.add_argument("--carry", action="store_true",
                        help="each day goes on from the one before it, in the order of their names: see settle --after")
    parser.add_argument("--after", metavar="SHEET", help="as --carry, and the first day goes on from this sheet")
    parser.epilog = f"{ABOUT}\n\n{help_table()}\n\n{parser.epilog}"


def run(options):
    """settles each input; a refusal counts before a sheet that was left alone"""
    days = _days(options.folder, options.output or options.folder)
    past = _past(options.after)
    ensure_built("settle")
    if options.carry or past:
        settle_in_turn(days, past, options.overwrite)
    else:
        settle_together(days, options.overwrite)
    show("")
    for day in days:
        for message in day.messages:
            say(message)
    print_out("".join(_summary(options.folder, days)).encode("utf-8", "surrogateescape"))
    endings = {day.ending for day in days}
    return REFUSED if Ending.REFUSED in endings else LEFT_ALONE if Ending.LEFT_ALONE in endings else ACCEPTED


def _days(folder, output):
    """the inputs of a folder by their names, each looked at, as the places of their sheets are"""
    try:
        names = sorted(name for name in os.listdir(folder) if name.endswith(INPUT) and not name.startswith("."))
    except OSError as error:
        raise Trouble(f"{called(folder)} can't be read: {error.strerror}") from None
    if not names:
        raise Trouble(f"{called(folder)} has no inputs: no name in it ends in {INPUT}")
    if not os.path.isdir(output):
        raise Trouble(f"{called(output)} can't be written: there is no such folder")
    days = [Day(os.path.join(folder, name), os.path.join(output, name[:-len(INPUT)] + SHEET)) for name in names]
    for day in days:
        look_at(day.path)
        for path in (day.path, day.place):
            if os.path.exists(path) and not os.path.isfile(path):
                raise Trouble(f"{called(path)} is no file")
    inputs = {os.path.realpath(day.path) for day in days}
    for day in days:
        if os.path.realpath(day.place) in inputs:
            raise Trouble(f"{called(day.place)} is an input, and would be written over")
    return days


def _past(sheet):
    """what the first day goes on from, where a sheet is given"""
    if sheet is None:
        return None
    look_at(sheet)
    # imported here, since days that go on from no other need none of it
    from desk import carry
    return carry.read(sheet)


def _summary(folder, days):
    """how many days ended in each way, and which of them somebody has to look at"""
    yield f"{called(folder)}: {len(days)} input{'s' * (len(days) > 1)}\n"
    for ending in Ending:
        ended = [day for day in days if day.ending is ending]
        if ended or ending is Ending.WRITTEN:
            name, words = ending.value
            yield f"  {name:<12} {len(ended):>5}  {words}".rstrip() + "\n"
        for line in _to_look_at(ending, ended):
            yield f"    {line}\n"


def _to_look_at(ending, days):
    if ending in (Ending.WRITTEN_OVER, Ending.LEFT_ALONE):
        return [called(day.place) for day in days]
    if ending is Ending.REFUSED:
        return map(_refusal, days)
    if ending is Ending.NOT_REACHED and days:
        return [" to ".join(dict.fromkeys(called(day.path) for day in (days[0], days[-1])))]
    return []


def _refusal(day):
    name, line = day.refused_at
    stays = f"; {called(day.place)} from before stays" if os.path.exists(day.place) else ""
    return f"{name}, line {line}: refusal {day.number}: {ground(day.number)}{stays}"
