"""Never a stale program: what runs is built, by a proof, from the sources and with the toolchain that are there.

After a successful `rt run`, or the gate's `rt ci`, a record in target/desk says what it was about: the kit, a digest of the sources, one
of the program, and the size and the times of each of these files. A run compares the record with what is there: sizes
and times, and the contents only where those differ."""
import contextlib
import fcntl
import os
import time

from desk.endings import NOT_BUILT, Trouble
from desk.places import ROOT, TARGET
from desk.streams import say

RECORDS = os.path.join(TARGET, "desk")
# Edits that the prover has to refuse are no part of a program, nor is what the toolchain makes.
NO_SOURCES = ("must-fail", "wrong-answers", "out")
# A file that changed so shortly before it was recorded may change again without its time telling, in nanoseconds.
TOO_FRESH = 2 * 10**9


def program_file(name):
    """where a program is when it is built"""
    return os.path.join(ROOT, "crates", name, "out", name)


def ensure_built(name):
    """proves and builds a program, where it is not built from what is there"""
    reason = why_stale(name)
    if reason:
        _build(name, reason)


def why_stale(name):
    """why a program has to be built, in words, or None where it is built from what is there"""
    if not os.access(program_file(name), os.X_OK):
        return f"the program {name} is not built yet"
    record = _read_record(name)
    if not record:
        return f"nothing says what the program {name} was built from"
    if kit() not in (record["kit"], None):
        return f"the program {name} was built with another toolchain"
    files = _sources()
    times = _times(name, files)
    if times and times == record["times"]:
        return None
    if record["sources"] != _digest(files):
        return f"the sources changed since the program {name} was built"
    if record["program"] != _digest([program_file(name)]):
        return f"the program {name} is not the one that was built"
    # where the times can't be written, the contents are read again the next time
    with contextlib.suppress(OSError):
        _write_record(name, dict(record, times=_times(name, files)))
    return None


def kit():
    """What toolchain is there, or None. The file KIT-ID is what `rt version` prints, which would take longer to ask."""
    command = next((path for path in _commands("rt") if os.access(path, os.X_OK)), None)
    if command is None:
        return None
    home = os.environ.get("RATTLE_HOME") or os.path.dirname(os.path.dirname(os.path.realpath(command)))
    try:
        with open(os.path.join(home, "KIT-ID"), encoding="utf-8") as file:
            return file.readline().strip()
    except OSError:
        # imported here, since it is seldom asked
        import subprocess
        answer = subprocess.run([command, "version"], stdin=subprocess.DEVNULL, stdout=subprocess.PIPE)
        return answer.stdout.decode("utf-8", "replace").strip()


def _commands(name):
    return (os.path.join(folder, name) for folder in os.get_exec_path())


def _build(name, reason):
    if kit() is None:
        raise Trouble(f"{reason}, and the Rattle toolchain is missing: its command rt must be on the PATH", NOT_BUILT)
    try:
        os.makedirs(RECORDS, exist_ok=True)
        lock = open(os.path.join(RECORDS, "lock"), "w")
    except OSError as error:
        raise Trouble(f"{reason}, and {TARGET} can't be written to: {error.strerror}", NOT_BUILT) from None
    with lock:
        _wait_for(lock)
        # another run may have built it in the meantime
        reason = why_stale(name)
        while reason:
            say(f"{reason}: proving and building it, which takes some minutes where much changed")
            _prove_and_record(name)
            reason = why_stale(name)


def _wait_for(lock):
    try:
        fcntl.flock(lock, fcntl.LOCK_EX | fcntl.LOCK_NB)
    except BlockingIOError:
        say("another run is building; waiting for it")
        fcntl.flock(lock, fcntl.LOCK_EX)


def _prove_and_record(name):
    # imported here, since a run that builds nothing needs none of it
    from desk.proving import prove
    # without times, so that the contents are compared once more: a source may change while it is proved
    record = {"kit": kit(), "sources": _digest(_sources()), "times": ""}
    prove(name)
    if not os.access(program_file(name), os.X_OK):
        raise Trouble(f"rt run in crates/{name} ended well and made no {program_file(name)}", NOT_BUILT)
    record["program"] = _digest([program_file(name)])
    try:
        _write_record(name, record)
    except OSError as error:
        raise Trouble(f"{name} is built, and {RECORDS} can't be written to: {error.strerror}", NOT_BUILT) from None


def sources_digest():
    """a digest of all that a proof may read"""
    return _digest(_sources())


def note_built(name, sources):
    """records that the program that is there was proved and built just now, from sources of this digest"""
    if not os.access(program_file(name), os.X_OK):
        raise Trouble(f"there is no {program_file(name)}", NOT_BUILT)
    os.makedirs(RECORDS, exist_ok=True)
    record = {"kit": kit(), "sources": sources, "times": "", "program": _digest([program_file(name)])}
    _write_record(name, record)


def _sources():
    """every file that a proof may read, in order"""
    files, folders = [os.path.join(ROOT, "crates.txt")], [os.path.join(ROOT, "crates")]
    for folder in folders:
        # links are no sources: the toolchain follows none
        for entry in os.scandir(folder):
            if entry.is_file(follow_symlinks=False):
                files.append(entry.path)
            elif entry.name not in NO_SOURCES and entry.is_dir(follow_symlinks=False):
                folders.append(entry.path)
    files.sort()
    return files


def _times(name, files):
    """names, sizes and times of a program and its sources; empty where one is so fresh that its time says nothing"""
    told, fresh, stat = [], time.time_ns() - TOO_FRESH, os.stat
    for path in [program_file(name), *files]:
        status = stat(path)
        changed, moved = status.st_mtime_ns, status.st_ctime_ns
        if changed > fresh or moved > fresh:
            return ""
        told.append(f"{path} {status.st_size} {changed} {moved} {status.st_ino}")
    return "\n".join(told)


def _digest(files):
    """of the names and the contents of files"""
    import hashlib
    digest = hashlib.sha256()
    for path in files:
        with open(path, "rb") as file:
            contents = hashlib.sha256(file.read()).hexdigest()
        digest.update(os.fsencode(f"{os.path.relpath(path, ROOT)} {contents}\n"))
    return digest.hexdigest()


def _read_record(name):
    """the record of a program, or None where there is none, or none that can be read"""
    try:
        with open(os.path.join(RECORDS, name), encoding="utf-8", errors="surrogateescape") as file:
            kit_then, sources, program, times = file.read().split("\n", 3)
    except (OSError, ValueError):
        return None
    return {"kit": kit_then, "sources": sources, "program": program, "times": times}


def _write_record(name, record):
    path = os.path.join(RECORDS, name)
    with open(path + ".new", "w", encoding="utf-8", errors="surrogateescape") as file:
        file.write("\n".join([record["kit"], record["sources"], record["program"], record["times"]]))
    os.replace(path + ".new", path)
