"""The words of a command, read by argparse."""
import argparse

from desk import streams
from desk.endings import Trouble


class Parser(argparse.ArgumentParser):
    """A parser whose help and errors go the way of all other output."""

    def __init__(self, **named):
        super().__init__(allow_abbrev=False, formatter_class=_formatter, **named)

    def print_help(self, file=None):
        streams.print_out(self.format_help().encode())

    def error(self, message):
        raise Trouble(f"{message}; see fireboxer help")


def _formatter(prog):
    """with a fixed width, since asking for the terminal's takes longer than all else that is done at the start"""
    return argparse.RawDescriptionHelpFormatter(prog, width=120)
