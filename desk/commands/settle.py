"""settle: inputs to sheets, by the proved program of this name."""
import os

from desk import programs, sheets
from desk.building import ensure_built
from desk.endings import ACCEPTED, REFUSED, Trouble
from desk.inputs import Input, called, is_file
from desk.options import add_separator, input_paths, separator
from desk.outputs import opened
from desk.refusals import help_table
from desk.streams import say

ENDINGS = {"sheet": ".sheet", "table": ".table", "csv": ".csv"}


def arguments(parser):
    """the words that settle takes"""
    parser.add_argument("files", nargs="*", metavar="FILE", help="an input; - or none is standard input")
    parser.add_argument("-o", "--output", metavar="PLACE",
                        help="write to this file, or into this folder a file for each input; "
                        "a file is written whole or, where the input is refused, not at all")
    parser.add_argument("--after", metavar="SHEET",
                        help="go on from the run before: its sheet's carry block is put behind the header; one input")
    parser.add_argument("--join", action="store_true",
                        help="several inputs: their sheets one after the other, in one output")
    form = parser.add_mutually_exclusive_group()
    form.add_argument("--table", dest="form", action="store_const", const="table", default="sheet",
                      help="print a table that people can read")
    form.add_argument("--csv", dest="form", action="store_const", const="csv",
                      help="print rows for a spreadsheet, without decimals")
    add_separator(parser)
    parser.epilog = f"{help_table()}\n\n{parser.epilog}"


def run(options):
    """settles each input; the exit status is that of the worst of them"""
    sign = separator(options, options.form == "csv")
    if options.after and len(options.files) > 1:
        raise Trouble("--after goes with one input: settle one day after the other")
    sheets_before = [options.after] if options.after else []
    looked_at = input_paths((options.files or ["-"]) + sheets_before)
    plan = _plan(options, looked_at[:len(looked_at) - len(sheets_before)], sheets_before)
    before = _before(options.after)
    ensure_built("settle")
    return max(_settle_to(place, inputs, options.form, sign, before) for place, inputs in plan)


def _before(sheet):
    """the sheet of the run before, where one is given"""
    if sheet is None:
        return None
    # imported here, since a run that goes on from no other needs none of it
    from desk import carry
    return carry.read(sheet)


def _plan(options, paths, sheets_before):
    """which inputs go to which output: (output, inputs), the output None for standard output"""
    place = options.output
    if place is not None and (os.path.isdir(place) or place.endswith("/")):
        plan = _plan_for_folder(options, paths)
    elif len(paths) == 1 or options.join:
        plan = [(place, paths)]
    else:
        raise Trouble("several inputs: give -o FOLDER for a sheet each, or --join for one after the other")
    for output, _ in plan:
        if output not in (None, "-") and any(is_file(path, output) for path in paths + sheets_before):
            raise Trouble(f"{called(output)} is an input, and would be written over")
    return plan


def _plan_for_folder(options, paths):
    folder = options.output
    if options.join:
        raise Trouble("--join writes one output: give -o FILE, or no -o")
    if not os.path.isdir(folder):
        raise Trouble(f"{called(folder)} can't be written: there is no such folder")
    plan = {}
    for path in paths:
        name = "stdin" if path == "-" else os.path.splitext(os.path.basename(path))[0]
        output = os.path.join(folder, name + ENDINGS[options.form])
        if output in plan:
            raise Trouble(f"{called(plan[output][0])} and {called(path)} would both be written to {called(output)}")
        plan[output] = [path]
    return list(plan.items())


def _settle_to(place, paths, form, sign, before):
    """settles inputs to one output, in a form, with a sign between the cells of rows, after the sheet before"""
    status = ACCEPTED
    heading = sheets.csv_header(sign) if form == "csv" else ""
    with opened(place) as output:
        for path in paths:
            sheet = _settle(path, before, output.write if form == "sheet" else None)
            if sheet is None:
                status = REFUSED
            elif form == "table":
                output.write("".join(sheets.table(sheets.read(sheet))).encode())
            elif form == "csv":
                output.write((heading + "".join(sheets.csv(sheets.read(sheet), sign))).encode())
                heading = ""
        if status == ACCEPTED:
            output.finish()
        elif output.whole:
            say(f"{called(place)} is not written, since an input was refused")
    return status


def _settle(path, before, take):
    """Settles one input, and hands its sheet to `take` as it comes or, without one, answers it whole. None: refused."""
    sheet = bytearray()
    with _input(path, before) as source:
        if not programs.accepted("settle", source, take or sheet.extend):
            return None
        if source.goes_on_after_end():
            # imported here, as refusals are
            from desk.messages import more_follows
            say(more_follows(source))
    return sheet


def _input(path, before):
    """an input, which goes on from the sheet before where there is one"""
    if before is None:
        return Input(path)
    from desk.carry import Following
    return Following(path, before)
