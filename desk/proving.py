"""The toolchain's `rt run` in a program's crate, with its progress on standard error and its failures in words."""
import contextlib
import os
import shutil
import signal
import subprocess
import tempfile

from desk import signals
from desk.endings import NOT_BUILT, Trouble
from desk.places import ROOT, TARGET
from desk.streams import STANDARD_ERROR, say, write_all

# How rt ends where something is not proved, or where the prover can't tell; otherwise it failed itself.
NOT_PROVED = (1, 3)
# How long processes that were asked to end may take to, in seconds.
GRACE = 5


def prove(name):
    """proves a program and all that it is built on, builds it and runs it on its own example"""
    said, printed = [], os.path.join(TARGET, "desk", f"{name}.printed")
    with open(_log(name), "wb") as log, _started(["rt", "run"], name, printed) as process:
        for line in process.stderr:
            log.write(line)
            if line.startswith(b"rt: "):
                _show(line)
                said.append(line.decode("utf-8", "replace").strip())
        status = process.wait()
    runs = any(line.startswith("rt: running ") for line in said)
    if not runs or status != 0 or _bytes(printed) != _bytes(_own_file(name, "stdout")):
        raise Trouble(_why_not(name, status, said, runs), NOT_BUILT)


def _log(name):
    """what the prover said last, in full"""
    return os.path.join(TARGET, "desk", f"{name}.log")


def _own_file(name, which):
    """a file that the program's crate may have: the example that it is run on, or what it has to print for it"""
    return os.path.join(ROOT, "crates", name, which)


def _bytes(path):
    """what a file has, nothing where there is none"""
    try:
        with open(path, "rb") as file:
            return file.read()
    except FileNotFoundError:
        return b""


def _why_not(name, status, said, runs):
    """why a run of rt ended without success, by its status and the lines that it said"""
    if runs:
        return f"the program {name} is proved, and does not print what its example in crates/{name} asks for"
    if status not in NOT_PROVED:
        return f"the toolchain failed, so nothing is built: rt run in crates/{name} ended with status {status}"
    words = [line.split() for line in said if line.startswith("rt: the library ") and "did not build" in line]
    failed = words[-1][3] if words else name
    return f"the proof fails, so nothing is built: {failed}; target/desk/{name}.log has what the prover said"


def _show(line):
    try:
        write_all(STANDARD_ERROR, line)
    except OSError:
        pass


@contextlib.contextmanager
def _started(command, name, printed):
    """A command in a crate, on its example, with a folder for its temporary files. When the block is left, both are gone, with all it started."""
    scratch = process = None
    try:
        with contextlib.ExitStack() as files, signals.held():
            scratch = tempfile.mkdtemp(prefix="fireboxer-")
            example = _own_file(name, "stdin")
            source = files.enter_context(open(example if os.path.isfile(example) else os.devnull, "rb"))
            out = files.enter_context(open(printed, "wb"))
            process = subprocess.Popen(command, cwd=os.path.join(ROOT, "crates", name), env=dict(os.environ, TMPDIR=scratch),
                                       start_new_session=True, stdin=source, stdout=out, stderr=subprocess.PIPE)
        yield process
    finally:
        if process:
            _end_group(process)
            process.stderr.close()
        if scratch:
            shutil.rmtree(scratch, ignore_errors=True)


def _end_group(process):
    """The toolchain's own children ignore Ctrl-C, so the whole group is ended by name."""
    if process.poll() is not None:
        return
    say("stopping the proof")
    for number in (signal.SIGTERM, signal.SIGKILL):
        with contextlib.suppress(ProcessLookupError):
            os.killpg(process.pid, number)
        with contextlib.suppress(subprocess.TimeoutExpired):
            process.wait(GRACE)
