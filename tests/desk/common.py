"""What the tests of the front end share: how it is called, and inputs to call it with."""
import contextlib
import os
import pathlib
import signal
import subprocess
import sys
import tempfile
import time
import unittest

ROOT = pathlib.Path(__file__).resolve().parents[2]
sys.path.insert(0, str(ROOT))

# a shell has what it starts in the background ignore Ctrl-C, and what that starts would, too
signal.signal(signal.SIGINT, signal.default_int_handler)

FIREBOXER = ROOT / "fireboxer"
EXAMPLE = ROOT / "examples" / "example.txt"
EXAMPLE_SHEET = (ROOT / "examples" / "example.sheet").read_bytes()
DAY = ROOT / "examples" / "day.txt"
DAY_SHEET = (ROOT / "examples" / "day.sheet").read_bytes()
# two days in a row, the second with the carry block of the first
SUNDAY, MONDAY = (ROOT / "examples" / f"{name}.txt" for name in ("sunday", "monday"))
SUNDAY_SHEET, MONDAY_SHEET = ((ROOT / "examples" / f"{name}.sheet").read_bytes() for name in ("sunday", "monday"))

HEADER = "D\t2017-02-20\t4\t-\t1"
CONTRACTS = ["C\tP\tA1\t6000\t5000", "C\tP\tA2\t6000\t8000"]
SAMPLES = ["S\t10000\t9600"] * 225
# a carry block for them
BLOCK = ["O\t54000000\t54000000"] + ["B\t10000"] * 75


def lines(*parts):
    """an input of lines, or of lists of lines"""
    flat = [line for part in parts for line in ([part] if isinstance(part, str) else part)]
    return "".join(line + "\n" for line in flat).encode()


GOOD = lines(HEADER, CONTRACTS, SAMPLES, "E")


def program(data, name="settle"):
    """what the proved program itself prints"""
    return subprocess.run([ROOT / "tools" / "program", name], input=data, stdout=subprocess.PIPE, check=True).stdout


def processes(wanted):
    """the ids of the running processes for whose group and command line something holds"""
    found = []
    for folder in pathlib.Path("/proc").glob("[0-9]*"):
        with contextlib.suppress(OSError):
            state, _, group = (folder / "stat").read_text().rpartition(")")[2].split()[:3]
            if state != "Z" and wanted(int(group), (folder / "cmdline").read_bytes()):
                found.append(int(folder.name))
    return found


class FrontEnd(unittest.TestCase):
    """A test in a folder of its own, from which the front end is called."""

    def setUp(self):
        folder = tempfile.TemporaryDirectory()
        self.addCleanup(folder.cleanup)
        self.folder = pathlib.Path(folder.name)

    def call(self, *words, command=FIREBOXER, **options):
        """runs the front end; the answer has returncode, stdout (bytes) and stderr (text)"""
        if "input" not in options:
            options.setdefault("stdin", subprocess.DEVNULL)
        options.setdefault("cwd", self.folder)
        options.setdefault("timeout", 60)
        pipe = subprocess.PIPE
        answer = subprocess.run([command, *words], stdout=pipe, stderr=pipe, **options)
        answer.stderr = answer.stderr.decode()
        return answer

    def start(self, *words, command=FIREBOXER, **options):
        """starts the front end as the leader of a group, with pipes"""
        options.setdefault("stdin", subprocess.PIPE)
        return subprocess.Popen([command, *words], stdout=subprocess.PIPE, stderr=subprocess.PIPE, cwd=self.folder,
                                start_new_session=True, **options)

    def wait_for(self, condition):
        """waits until something is so"""
        for _ in range(1000):
            if condition():
                return
            time.sleep(0.01)
        self.fail("it did not happen")

    def shell(self, script):
        """runs a line of bash, with $fireboxer, $example and $day"""
        words = {"fireboxer": str(FIREBOXER), "example": str(EXAMPLE), "day": str(DAY)}
        return self.call("-c", script, command="bash", env={**os.environ, **words})

    def file(self, name, data):
        """writes a file of the test's folder"""
        (self.folder / name).write_bytes(data)
        return name
