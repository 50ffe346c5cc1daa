"""How a run of the front end ends: one table of exit statuses, and the exceptions that lead there."""

ACCEPTED, REFUSED, TROUBLE, NOT_BUILT, CHANGED, LEFT_ALONE, DO_NOT_HOLD = range(7)

STATUSES = (
    (ACCEPTED, "done: the input was accepted"),
    (REFUSED, "the input was refused; standard error says at which line, why and how to mend it"),
    (TROUBLE, "misuse, or an input or output that could not be read or written"),
    (NOT_BUILT, "not built: no toolchain, a proof that fails, or a folder that can't be written to"),
    (CHANGED, "a sheet was changed after it was printed: explain found a difference above the bound"),
    (LEFT_ALONE, "a sheet that was there differs from what its input settles to: year left it alone"),
    (DO_NOT_HOLD, "the operator's shares do not hold: shares says in which quarter hour and direction, and why"),
)


def table():
    """the exit statuses, as help prints them"""
    lines = [f"  {status}  {words}" for status, words in STATUSES]
    signals = "  Ctrl-C and a reader that closed its end (| head) end it by their signal, as they end other programs"
    return "\n".join(["exit status:", *lines, signals])


def readme_table():
    """the exit statuses, as the README has them"""
    rows = [f"| {status} | {words} |" for status, words in STATUSES]
    return "\n".join(["| Exit status | Meaning |", "|---|---|", *rows])


class Trouble(Exception):
    """What keeps a run from its answer, in words for standard error, with the exit status."""

    def __init__(self, words, status=TROUBLE):
        super().__init__(words)
        self.status = status


class ReaderGone(Exception):
    """Whoever read standard output has closed it, as head does."""
