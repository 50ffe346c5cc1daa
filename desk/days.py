"""The days of a folder: inputs that are settled to a sheet each, many at a time or each after the one before it."""
import collections
import enum
import os
import select

from desk import programs
from desk.endings import Trouble
from desk.inputs import Input, called
from desk.outputs import write_file
from desk.streams import show


class Ending(enum.Enum):
    """How a day ended, and what the summary says of it."""

    WRITTEN = "settled", ""
    SAME = "the same", "the sheet was there already, and stays as it is"
    WRITTEN_OVER = "written over", "the sheet that was there differed"
    LEFT_ALONE = "left alone", "the sheet that is there differs; --overwrite writes over it"
    REFUSED = "refused", "no sheet was written"
    NOT_REACHED = "not settled", "a day before was refused, and gives no carry block"


class Day:
    """An input and the place of its sheet; once it is settled how that ended, and what there is to say of it."""

    def __init__(self, path, place):
        self.path = path
        self.place = place
        self.ending = Ending.NOT_REACHED
        # where a refusal was given, its number, and messages
        self.refused_at = None
        self.number = None
        self.messages = []

    def refused(self, source, refused):
        """takes a refusal down, in words while the input is at hand"""
        from desk.messages import refusal
        self.ending = Ending.REFUSED
        self.refused_at, self.number = source.place_of(refused.line), refused.number
        self.messages.append(refusal(source, refused))

    def goes_on(self, source):
        """takes down that more follows the end line of the input"""
        from desk.messages import more_follows
        self.messages.append(more_follows(source))

    def accepted(self, sheet, overwrite):
        """writes the sheet, where none is there or another one that may be written over"""
        there = _first_bytes(self.place, len(sheet) + 1)
        if there == sheet:
            self.ending = Ending.SAME
        elif there is not None and not overwrite:
            self.ending = Ending.LEFT_ALONE
        else:
            write_file(self.place, sheet)
            self.ending = Ending.WRITTEN if there is None else Ending.WRITTEN_OVER


def _first_bytes(path, count):
    """so many bytes of a file at most, None where there is none"""
    try:
        with open(path, "rb") as file:
            return file.read(count)
    except FileNotFoundError:
        return None
    except OSError as error:
        raise Trouble(f"{called(path)} can't be read: {error.strerror}") from None


def settle_together(days, overwrite):
    """settles days that do not go on from each other, as many at a time as processors may be used"""
    waiting, running = collections.deque(days), []
    processors = len(os.sched_getaffinity(0))
    try:
        while waiting or running:
            while waiting and len(running) < processors:
                running.append(_Settling(waiting.popleft()))
                running[-1].program.start()
            for settling in _with_news(running):
                if not settling.take():
                    settling.finish(overwrite)
                    running.remove(settling)
                    _show_progress(days, len(days) - len(waiting) - len(running))
    finally:
        for settling in running:
            settling.close()


def _with_news(running):
    """waits until a program has printed or ended, and answers those that have"""
    waiting = select.poll()
    by_descriptor = {settling.program.descriptor(): settling for settling in running}
    for descriptor in by_descriptor:
        waiting.register(descriptor, select.POLLIN)
    return [by_descriptor[descriptor] for descriptor, _ in waiting.poll()]


class _Settling:
    """A day that is being settled by a program that reads the input's file itself."""

    def __init__(self, day):
        self.day = day
        self.sheet = bytearray()
        self.source = Input(day.path)
        self.program = programs.Running("settle", self.source)

    def take(self):
        """takes what the program printed; answers whether more may come"""
        printed = self.program.read()
        self.sheet += printed
        return bool(printed)

    def finish(self, overwrite):
        """takes the end of the program down"""
        if self.program.refusal():
            self._ask_again()
        else:
            if not self.source.ends_where_read():
                self.source.start_anew()
                self.source.read_to_end_line()
                self.day.goes_on(self.source)
            self.day.accepted(self.sheet, overwrite)
        self.close()

    def _ask_again(self):
        """Has the input read here, too: a read error is none of its own, and the message needs the lines."""
        self.source.start_anew()
        refused = programs.run("settle", self.source, lambda _: None)
        if not refused:
            raise Trouble(f"{self.source.name} was changed while it was settled")
        self.day.refused(self.source, refused)

    def close(self):
        """leaves nothing behind"""
        self.program.end()
        self.source.close()


def settle_in_turn(days, past, overwrite):
    """settles days each of which goes on from the one before it, the first from a past or from none"""
    from desk.carry import Following, just_printed
    for done, day in enumerate(days, 1):
        sheet = bytearray()
        with Following(day.path, past) if past else Input(day.path) as source:
            refused = programs.run("settle", source, sheet.extend)
            if refused:
                day.refused(source, refused)
                return
            if source.goes_on_after_end():
                day.goes_on(source)
            day.accepted(sheet, overwrite)
        # what the input settles to, also where another sheet was left in its place
        past = just_printed(called(day.place), sheet)
        _show_progress(days, done)


def _show_progress(days, done):
    refused = sum(day.ending is Ending.REFUSED for day in days)
    show(f"{done} of {len(days)} settled, {refused} refused" if refused else f"{done} of {len(days)} settled")
