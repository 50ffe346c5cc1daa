"""--version: the commit, the toolchain, and whether what runs is built from what is there."""
import subprocess

from desk.building import kit, why_stale
from desk.endings import ACCEPTED
from desk.places import ROOT
from desk.streams import print_out

PROGRAMS = ("settle", "mend", "checker")


def tell():
    """prints it; nothing is built"""
    lines = [f"fireboxer, commit {_commit()}", f"toolchain: {kit() or 'missing (there is no command rt on the PATH)'}"]
    for name in PROGRAMS:
        reason = why_stale(name)
        how = f"{reason}; the next run proves and builds it" if reason else "built from what is there"
        lines.append(f"program {name}: {how}")
    print_out("".join(f"{line}\n" for line in lines).encode())
    return ACCEPTED


def _commit():
    commit = _git("rev-parse", "--short=12", "HEAD")
    if commit is None or _git("rev-parse", "--show-prefix") != "":
        return "unknown (git does not tell)"
    changed = _git("status", "--porcelain", "--untracked-files=no")
    return f"{commit}, with changes that are not committed" if changed else commit


def _git(*words):
    """what git answers, or None"""
    try:
        answer = subprocess.run(["git", "-C", ROOT, *words], stdin=subprocess.DEVNULL, stdout=subprocess.PIPE,
                                stderr=subprocess.DEVNULL)
    except OSError:
        return None
    return answer.stdout.decode("utf-8", "replace").strip() if answer.returncode == 0 else None
