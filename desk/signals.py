"""Signals that ask to stop. They raise Stopped, but not while a process is started: nobody would end that one."""
import contextlib
import os
import signal


class Stopped(BaseException):
    """A signal asks to stop. Like KeyboardInterrupt, no `except Exception` takes it."""

    def __init__(self, number):
        super().__init__(number)
        self.number = number


class _Holding:
    """whether signals are held, and those that came meanwhile"""

    on = False
    waiting = []


def watch():
    """from now on signals raise Stopped, those apart that the caller has ignored"""
    for number in (signal.SIGINT, signal.SIGTERM, signal.SIGHUP):
        if signal.getsignal(number) != signal.SIG_IGN:
            signal.signal(number, _stop)


def _stop(number, _frame):
    if _Holding.on:
        _Holding.waiting.append(number)
    else:
        raise Stopped(number)


@contextlib.contextmanager
def held():
    """signals wait until the block is left"""
    _Holding.on = True
    try:
        yield
    finally:
        _Holding.on = False
    if _Holding.waiting:
        raise Stopped(_Holding.waiting.pop())


def end_by(number):
    """Ends as by the signal, so that a shell or a script that called sees the reason."""
    signal.signal(number, signal.SIG_DFL)
    os.kill(os.getpid(), number)
