"""What the front end costs: start-up, and memory that does not grow with the input."""
import contextlib
import os
import subprocess

from common import DAY, EXAMPLE, FIREBOXER, ROOT, FrontEnd, lines

# in seconds
START_UP = 0.060
# in KiB
MEMORY = 40 * 1024


def run(command, parts):
    """the exit status of a command that is fed so many parts, and what it used"""
    nowhere = subprocess.DEVNULL
    with subprocess.Popen(command, stdin=subprocess.PIPE, stdout=nowhere, stderr=nowhere, bufsize=0) as process:
        with contextlib.suppress(BrokenPipeError):
            for part in parts:
                process.stdin.write(part)
        process.stdin.close()
        _, status, usage = os.wait4(process.pid, 0)
        process.returncode = os.waitstatus_to_exitcode(status)
    return process.returncode, usage


def least_time(command):
    """The least processor time of several runs: other work on the machine would spoil the time by the clock."""
    example = EXAMPLE.read_bytes()
    usages = [run(command, [example])[1] for _ in range(15)]
    return min(usage.ru_utime + usage.ru_stime for usage in usages)


class Cost(FrontEnd):
    """Bounds that the front end keeps."""

    def test_start_up(self):
        alone = least_time([ROOT / "tools" / "program", "settle"])
        self.assertLess(least_time([FIREBOXER, "settle"]) - alone, START_UP)

    def test_memory(self):
        samples = lines(["S\t1234567\t-1234567"] * 89999)
        header = lines("D\t2017-02-20\t1\t-\t100")
        rest = [lines("X"), *[samples] * 30]
        inputs = {"samples": [header, samples], "one line": [b"S" * 65536] * 1000, "rest after a refusal": rest}
        for name, parts in inputs.items():
            with self.subTest(name):
                status, usage = run([FIREBOXER, "settle"], parts)
                self.assertEqual(status, 1)
                self.assertLess(usage.ru_maxrss, MEMORY)

    def test_memory_of_a_year(self):
        for number in range(60):
            (self.folder / f"{number}.txt").symlink_to(DAY)
        for words in ([], ["--carry", "--overwrite"]):
            status, usage = run([FIREBOXER, "year", self.folder, *words], [])
            self.assertEqual(status, 0)
            self.assertLess(usage.ru_maxrss, MEMORY)
