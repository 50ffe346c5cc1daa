"""mend: a recording with holes to a whole run of samples, by the proved program of this name."""
from desk import programs
from desk.building import ensure_built
from desk.endings import ACCEPTED, REFUSED, Trouble
from desk.inputs import Input, called, is_file
from desk.options import input_paths
from desk.outputs import opened
from desk.refusals import help_table
from desk.streams import say
from desk.visible import grouped, shortened

ABOUT = """\
A recording is a D line, then G lines with second, setpoint and actual in the order of the archive, then E. What is
printed is a line S for each sample, and lines X between them: M marks a sample that was missing and has the values of
the one before, T a line whose second was there already, O one outside the stretch or between two samples."""

# The marks of the lines X.
MARKS = b"M", b"T", b"O"


def arguments(parser):
    """the words that mend takes"""
    parser.add_argument("file", nargs="?", default="-", metavar="FILE", help="a recording; - or none is standard input")
    parser.add_argument("-o", "--output", metavar="FILE",
                        help="write to this file, whole or, where the recording is refused, not at all")
    parser.add_argument("--into", metavar="CONTRACTS",
                        help="print a whole input for settle instead: the D line, the C lines of this file, the mended "
                        "samples without their marks, and E; nothing where the recording is refused")
    parser.epilog = f"{ABOUT}\n\n{help_table()}\n\n{parser.epilog}"


def run(options):
    """mends the recording"""
    paths = input_paths([options.file] + ([options.into] if options.into else []))
    if options.output not in (None, "-") and any(is_file(path, options.output) for path in paths):
        raise Trouble(f"{called(options.output)} is an input, and would be written over")
    contracts = _contracts(options.into) if options.into else None
    ensure_built("mend")
    with opened(options.output) as output, Input(options.file) as source:
        if _mend(source, contracts, output.write):
            output.finish()
            return ACCEPTED
        if output.whole:
            say(f"{called(options.output)} is not written, since the recording was refused")
    return REFUSED


def _contracts(path):
    """the contracts that the samples are put behind: lines C and nothing else, which settle will look at"""
    with Input(path) as source:
        lines = b"".join(source.blocks()).removesuffix(b"\n").split(b"\n")
    if lines == [b""]:
        return b""
    for number, line in enumerate(lines, 1):
        if not line.startswith(b"C\t"):
            raise Trouble(f"{source.name}, line {number}: this is no contract\n"
                          f"  line {number}: {shortened(line[:256], len(line))}\n"
                          "  to mend it: leave the C lines alone in this file; the D line is that of the recording")
    return b"".join(line + b"\n" for line in lines)


def _mend(source, contracts, write):
    """mends the recording and writes it, as an input where there are contracts; answers whether it was accepted"""
    count, samples = _Count(), bytearray()

    def take(printed):
        lines = count.add(printed)
        if contracts is None:
            write(printed)
        else:
            samples.extend(_without_marks(lines))

    if not programs.accepted("mend", source, take):
        return False
    if source.goes_on_after_end():
        # imported here, as refusals are
        from desk.messages import more_follows
        say(more_follows(source))
    if contracts is not None:
        write(source.head_lines()[0] + b"\n" + contracts + samples + b"E\n")
    say(f"{source.name}: {count.told()}")
    return True


def _without_marks(lines):
    return b"".join(line for line in lines.splitlines(keepends=True) if line.startswith(b"S"))


class _Count:
    """How many samples and marks were printed."""

    def __init__(self):
        self.begun = b""
        self.samples = 0
        self.marks = dict.fromkeys(MARKS, 0)

    def add(self, printed):
        """counts what was printed next, which may end within a line; answers the lines that are whole now"""
        lines, line_end, self.begun = (self.begun + printed).rpartition(b"\n")
        lines += line_end
        self.samples += lines.count(b"S\t")
        for mark in MARKS:
            self.marks[mark] += lines.count(b"\t" + mark + b"\n")
        return lines

    def told(self):
        """in words"""
        filled, repeated, dropped = self.marks.values()
        return (f"{grouped(self.samples - filled)} good, {grouped(filled)} filled, {grouped(repeated)} repeated, "
                f"{grouped(dropped)} dropped")
