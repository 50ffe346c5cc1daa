"""How a program is started, and how words that are inputs alone are read."""
import importlib
import signal
import subprocess
import sys

from common import EXAMPLE, EXAMPLE_SHEET, FIREBOXER, ROOT, FrontEnd
from desk.commands import COMMANDS
from desk.inputwords import inputs_alone
from desk.parsing import Parser


def reaped_by_the_system():
    """as a caller does that wants to hear nothing of its children"""
    signal.signal(signal.SIGCHLD, signal.SIG_IGN)


class Starting(FrontEnd):
    """What the modules of Python's library do, which take longer to import than a day takes to settle."""

    def test_nobody_is_told_how_it_ended(self):
        command = ["/usr/bin/env", "python3", "-I", "-S", FIREBOXER, "settle", EXAMPLE]
        ended = subprocess.run(command, preexec_fn=reaped_by_the_system, capture_output=True, check=False)
        self.assertEqual((ended.returncode, ended.stderr), (0, b""))
        self.assertEqual(ended.stdout, EXAMPLE_SHEET)

    def test_open_files_stay_with_the_caller(self):
        # where the program had them too, the pipe's reader would wait for its end as long as it runs
        script = "import os, sys; sys.path.insert(0, sys.argv[1]); from desk.starting import Started; " \
            "reader, writer = os.pipe(); os.set_inheritable(writer, True); started = Started(['/bin/cat']); " \
            "os.close(writer); ended = os.read(reader, 1) == b''; started.kill(); started.wait(); sys.exit(not ended)"
        ended = subprocess.run([sys.executable, "-c", script, ROOT], timeout=20, check=False)
        self.assertEqual(ended.returncode, 0)

    def test_inputs_alone(self):
        read = set()
        for command in COMMANDS:
            module = importlib.import_module(f"desk.commands.{command}")
            for words in ([], ["a"], ["a", "-", "b"], [""], ["-o", "x"], ["--join", "a"], ["--", "a"], ["-5"]):
                with self.subTest(command=command, words=words):
                    alone = inputs_alone(module, words)
                    if alone:
                        read.add(command)
                        parser = Parser()
                        module.arguments(parser)
                        self.assertEqual(vars(alone), vars(parser.parse_args(words)))
        self.assertIn("settle", read)
