"""Words that several commands take."""
from desk.endings import Trouble
from desk.inputs import look_at


def input_paths(words):
    """the inputs that were named, standard input where none was; each is looked at before the first is read"""
    paths = words or ["-"]
    if paths.count("-") > 1:
        raise Trouble("standard input can be read once only")
    for path in paths:
        look_at(path)
    return paths


def add_separator(parser):
    """--separator"""
    parser.add_argument("--separator", choices=[";", ","],
                        help="the sign between the cells of --csv: ; (unless given) or ,")


def separator(options, csv):
    """the sign between the cells of rows for a spreadsheet, which is asked for with these rows alone"""
    if options.separator and not csv:
        raise Trouble("--separator goes with --csv")
    return options.separator or ";"
