"""Never a stale program, and a reason for each failure: in a small repository of its own, by the real toolchain."""
import contextlib
import os
import pathlib
import shutil
import signal
import sys
import tempfile
import unittest

from common import ROOT, FrontEnd

# A machine without the toolchain: all folders of the search path but those that have it.
NO_TOOLCHAIN = {"PATH": os.pathsep.join(folder for folder in os.environ["PATH"].split(os.pathsep)
                                        if not os.path.exists(os.path.join(folder, "rt")))}

# how long a small program may take to be proved on a busy machine, in seconds
PROVED_WITHIN = 600

CODE = """#![tactic(auto)]

fn main(rt: HostRuntime) {
    let _wrote = print!(rt; "T\\t%d\\t0\\t0\\n");
}
"""
# a sum that may wrap: no proof of it is found
UNPROVED = """#![tactic(auto)]

fn sum(a: u8, b: u8) -> u8 {
    a + b
}

fn main(rt: HostRuntime) {
    let _sum = sum(200, 100);
    let _wrote = print!(rt; "T\\t5\\t0\\t0\\n");
}
"""


class Repository(FrontEnd):
    """A repository whose program settle prints one line T, and what the front end says there."""

    def setUp(self):
        super().setUp()
        self.make(self.folder)
        self.command = self.folder / "fireboxer"

    def make(self, folder):
        shutil.copy(ROOT / "fireboxer", folder)
        shutil.copytree(ROOT / "desk", folder / "desk", ignore=shutil.ignore_patterns("__pycache__"))
        (folder / "tools").mkdir()
        shutil.copy(ROOT / "tools" / "program", folder / "tools")
        (folder / "crates" / "settle" / "src").mkdir(parents=True)
        (folder / "crates.txt").write_text("settle:\n")
        self.write(0)

    def write(self, quarters):
        """changes the program: the number of quarter hours that it prints"""
        (self.folder / "crates" / "settle" / "src" / "main.rt").write_text(CODE % quarters)
        (self.folder / "crates" / "settle" / "stdout").write_text(f"T\t{quarters}\t0\t0\n")

    def settle(self, **options):
        return self.call("settle", "/dev/null", command=self.command, timeout=PROVED_WITHIN, **options)

    def version(self):
        return self.call("--version", command=self.command).stdout.decode()

    def prints(self, quarters, answer):
        self.assertEqual((answer.returncode, answer.stdout), (0, f"T\t{quarters}\t0\t0\n".encode()), answer.stderr)

    def fails(self, reason, answer):
        self.assertEqual((answer.returncode, answer.stdout), (3, b""), answer.stderr)
        self.assertIn(reason, answer.stderr)


class Stale(Repository):
    """What runs is built from what is there."""

    def test_a_life(self):
        self.assertIn("the program settle is not built yet; the next run proves and builds it", self.version())
        self.first_runs()
        self.assertIn("program settle: built from what is there", self.version())
        self.quiet_runs()
        self.changed_source()
        self.foreign_program()
        self.failing_run()
        self.failing_proof()

    def first_runs(self):
        """of two runs at once, one builds and the other waits"""
        both = [self.start("settle", "/dev/null", command=self.command) for _ in range(2)]
        answers = [process.communicate(timeout=PROVED_WITHIN) for process in both]
        self.assertEqual([out for out, _ in answers], [b"T\t0\t0\t0\n"] * 2, answers)
        said = b"".join(said for _, said in answers)
        self.assertEqual(said.count(b"the program settle is not built yet: proving and building it"), 1)
        self.assertEqual(said.count(b"rt: running out/settle"), 1)
        self.assertEqual(said.count(b"another run is building; waiting for it"), 1)

    def quiet_runs(self):
        """nothing is built or said where nothing changed: at once, after files were touched, without a toolchain"""
        self.assertEqual(self.settle().stderr, "")
        os.utime(self.folder / "crates.txt")
        self.assertEqual(self.settle().stderr, "")
        answer = self.call(self.command, "settle", "/dev/null", command=sys.executable, env=NO_TOOLCHAIN)
        if os.uname().machine == "x86_64":
            self.assertEqual((answer.returncode, answer.stderr), (0, ""))
        else:
            self.fails("programs are made for x86-64", answer)
        (self.folder / "crates" / "settle" / "must-fail").mkdir()
        (self.folder / "crates" / "settle" / "must-fail" / "some.edit").write_text("an edit is no source")
        self.assertEqual(self.settle().stderr, "")
        # an editor's lock is a link to nowhere
        lock = self.folder / "crates" / "settle" / "src" / ".#main.rt"
        lock.symlink_to("nowhere")
        self.assertEqual(self.settle().stderr, "")
        lock.unlink()

    def changed_source(self):
        self.write(5)
        self.assertIn("the sources changed since the program settle was built; the next run proves", self.version())
        answer = self.settle()
        self.prints(5, answer)
        self.assertIn("the sources changed since the program settle was built: proving and building it", answer.stderr)

    def foreign_program(self):
        shutil.copy("/bin/true", self.folder / "crates" / "settle" / "out" / "settle")
        answer = self.settle()
        self.prints(5, answer)
        self.assertIn("the program settle is not the one that was built: proving and building it", answer.stderr)

    def failing_run(self):
        (self.folder / "crates" / "settle" / "stdout").write_text("another line\n")
        self.fails("the program settle is proved, and does not print what its example in crates/settle", self.settle())

    def failing_proof(self):
        (self.folder / "crates" / "settle" / "src" / "main.rt").write_text(UNPROVED)
        answer = self.settle()
        self.fails("the proof fails, so nothing is built: settle; target/desk/settle.log has what the", answer)
        self.assertTrue((self.folder / "target" / "desk" / "settle.log").read_text())


class NotBuilt(Repository):
    """Why nothing was built."""

    def test_toolchain_missing(self):
        answer = self.call(self.command, "settle", "/dev/null", command=sys.executable, env=NO_TOOLCHAIN)
        self.fails("the Rattle toolchain is missing: its command rt must be on the PATH", answer)

    def test_folder_that_can_not_be_written(self):
        # a file in the folder's place, since root may write to any folder
        (self.folder / "target").write_text("")
        self.fails(f"{self.folder}/target can't be written to: ", self.settle())

    def test_toolchain_fails(self):
        (self.folder / "crates.txt").write_text("settle io\n")
        self.fails("the toolchain failed, so nothing is built: rt run in crates/settle ended with status 2", self.settle())

    def test_inputs_are_looked_at_first(self):
        self.assertEqual(self.call("settle", "none", command=self.command).returncode, 2)


class Stopped(Repository):
    """Ctrl-C while a program is proved."""

    def test_nothing_is_left(self):
        room = tempfile.TemporaryDirectory()
        self.addCleanup(room.cleanup)
        process = self.start("settle", "/dev/null", command=self.command, env={**os.environ, "TMPDIR": room.name})
        self.wait_for(self.provers)
        os.killpg(process.pid, signal.SIGINT)
        out, said = process.communicate(timeout=20)
        self.assertEqual((process.returncode, out), (-signal.SIGINT, b""), said)
        self.assertIn(b"stopping the proof", said)
        # a prover that was killed takes a moment to go, and on a busy machine a longer one
        self.wait_for(lambda: not self.provers())
        self.assertEqual((self.provers(), os.listdir(room.name)), ([], []))

    def provers(self):
        """the ids of the processes that work in this repository's crate"""
        crate, found = os.path.realpath(self.folder / "crates" / "settle"), []
        for folder in pathlib.Path("/proc").glob("[0-9]*"):
            with contextlib.suppress(OSError):
                if os.readlink(folder / "cwd") == crate:
                    found.append(int(folder.name))
        return found


class Version(FrontEnd):
    """--version in this repository"""

    @unittest.skipUnless((ROOT / ".git").exists() and shutil.which("git"), "no git here")
    def test_commit_and_kit(self):
        commit = self.call("-C", ROOT, "rev-parse", "--short=12", "HEAD", command="git").stdout.decode().strip()
        kit = self.call("version", command="rt").stdout.decode().strip()
        answer = self.call("--version")
        self.assertEqual((answer.returncode, answer.stderr), (0, ""))
        self.assertIn(f"commit {commit or 'unknown'}", answer.stdout.decode())
        self.assertIn(f"toolchain: {kit}\nprogram settle: built from what is there\n", answer.stdout.decode())
