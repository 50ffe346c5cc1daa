"""A folder of days: a sheet for each, none written over that differs, and what came of it in a summary."""
import os
import signal
import subprocess

from common import (CONTRACTS, DAY, DAY_SHEET, FIREBOXER, GOOD, HEADER, MONDAY, MONDAY_SHEET, SAMPLES, SUNDAY,
                    SUNDAY_SHEET, FrontEnd, lines, processes, program)

BAD = lines(HEADER, CONTRACTS, "C\tP\tA1\t6000\t9000")
REFUSAL = "refusal 8: identifier already there, in either direction"
# Monday as it comes from the archive, and the days after it
PLAIN = lines(HEADER, *MONDAY.read_text().splitlines()[77:])
TUESDAY, WEDNESDAY = (PLAIN.replace(b"2017-02-20", day) for day in (b"2017-02-21", b"2017-02-22"))


def after(sheet, data):
    """what the proved program prints for a day that goes on from a sheet"""
    header, _, rest = data.partition(b"\n")
    return program(header + sheet[sheet.index(b"\nO\t"):] + rest)


class Year(FrontEnd):
    """year FOLDER"""

    def setUp(self):
        super().setUp()
        (self.folder / "days").mkdir()

    def day(self, name, data):
        """an input of the folder"""
        self.file(f"days/{name}.txt", data)

    def three(self):
        """two days that are accepted, and between them one that is refused"""
        for name, data in (("a", GOOD), ("b", BAD), ("c", DAY.read_bytes())):
            self.day(name, data)

    def sheet(self, name):
        """the sheet of an input, or None"""
        place = self.folder / "days" / f"{name}.sheet"
        return place.read_bytes() if place.exists() else None

    def names(self, folder="days"):
        return sorted(os.listdir(self.folder / folder))

    def year(self, *words, status=0, **options):
        """runs year on the folder; answers the lines of the summary, the first apart, and what was said"""
        answer = self.call("year", "days", *words, **options)
        self.assertEqual(answer.returncode, status, answer.stderr)
        first, *rest = answer.stdout.decode().splitlines()
        count = sum(name.endswith(".txt") for name in self.names())
        self.assertEqual(first, f"days: {count} inputs" if count > 1 else "days: 1 input")
        return [line.split(maxsplit=1 if line.startswith("    ") else 2) for line in rest], answer.stderr

    def trouble(self, reason, *words, **options):
        """that nothing is settled, and why"""
        answer = self.call("year", *words, **options)
        self.assertEqual((answer.returncode, answer.stdout), (2, b""), answer.stderr)
        self.assertIn(reason, answer.stderr)
        self.assertEqual(answer.stderr.count("\n"), 1, answer.stderr)


class Sheets(Year):
    """Which sheets are written, and where."""

    def test_beside_the_inputs(self):
        self.day("a", GOOD)
        self.day("b", DAY.read_bytes())
        self.assertEqual(self.year(), ([["settled", "2"]], ""))
        self.assertEqual((self.sheet("a"), self.sheet("b")), (program(GOOD), DAY_SHEET))
        self.assertEqual(self.names(), ["a.sheet", "a.txt", "b.sheet", "b.txt"])

    def test_into_another_folder(self):
        self.day("a", GOOD)
        (self.folder / "sheets").mkdir()
        self.assertEqual(self.year("-o", "sheets"), ([["settled", "1"]], ""))
        self.assertEqual((self.names(), self.names("sheets")), (["a.txt"], ["a.sheet"]))
        self.assertEqual((self.folder / "sheets" / "a.sheet").read_bytes(), program(GOOD))

    def test_many_on_one_processor_and_on_all(self):
        inputs = {f"{number:03}": GOOD.replace(b"9600", b"%d" % (9000 + number)) for number in range(40)}
        for name, data in inputs.items():
            self.day(name, data)
        one = min(os.sched_getaffinity(0))
        alone = self.call("-c", str(one), FIREBOXER, "year", "days", command="taskset")
        self.assertEqual((alone.returncode, alone.stdout), (0, b"days: 40 inputs\n  settled         40\n"))
        self.assertEqual({name: self.sheet(name) for name in inputs},
                         {name: program(data) for name, data in inputs.items()})
        self.assertEqual(self.year()[0][1][:3], ["the", "same", "40  the sheet was there already, and stays as it is"])

    def test_names_that_are_no_inputs(self):
        self.day("a", GOOD)
        for name in ("notes.md", "a.txt~", ".hidden.txt", "txt"):
            self.file(f"days/{name}", b"")
        (self.folder / "days" / "last year").mkdir()
        self.file("days/last year/b.txt", GOOD)
        answer = self.call("year", "days")
        self.assertEqual((answer.returncode, answer.stdout), (0, b"days: 1 input\n  settled          1\n"))

    def test_strange_names(self):
        for name in ("a b", "ä", "-o", "new\nline", os.fsdecode(b"\xff\x1b")):
            self.day(name, BAD)
        summary, said = self.year(status=1)
        for shown in ("a b", "ä", "-o", "new<0x0A>line", "<0xFF><0x1B>"):
            self.assertIn([f"days/{shown}.txt, line 4: {REFUSAL}"], [[" ".join(line)] for line in summary])
            self.assertIn(f"fireboxer: days/{shown}.txt, line 4: {REFUSAL}\n", said)

    def test_through_links(self):
        self.file("real", GOOD)
        self.file("sheet", b"before")
        (self.folder / "days" / "a.txt").symlink_to("../real")
        (self.folder / "days" / "a.sheet").symlink_to("../sheet")
        self.year("--overwrite")
        self.assertTrue((self.folder / "days" / "a.sheet").is_symlink())
        self.assertEqual((self.folder / "sheet").read_bytes(), program(GOOD))


class Standing(Year):
    """What was there before."""

    def test_the_same_is_not_touched(self):
        self.day("a", GOOD)
        self.year()

        def standing():
            status = (self.folder / "days" / "a.sheet").stat()
            return status.st_ino, status.st_mtime_ns, status.st_ctime_ns
        before = standing()
        for words in ([], ["--overwrite"]):
            summary, said = self.year(*words)
            self.assertEqual((summary[0], summary[1][:2], said), (["settled", "0"], ["the", "same"], ""))
            self.assertEqual(standing(), before)

    def test_what_differs_is_left_alone(self):
        self.day("a", GOOD)
        self.day("b", GOOD)
        self.file("days/b.sheet", DAY_SHEET)
        summary, said = self.year(status=5)
        self.assertEqual((summary[0], summary[2], said), (["settled", "1"], ["days/b.sheet"], ""))
        self.assertEqual(" ".join(summary[1]),
                         "left alone 1  the sheet that is there differs; --overwrite writes over it")
        self.assertEqual((self.sheet("a"), self.sheet("b")), (program(GOOD), DAY_SHEET))

    def test_what_differs_is_written_over_where_asked(self):
        self.day("a", GOOD)
        self.file("days/a.sheet", program(GOOD)[:-1])
        (self.folder / "days" / "a.sheet").chmod(0o640)
        summary, said = self.year("--overwrite")
        self.assertEqual((" ".join(summary[1]), summary[2], said),
                         ("written over 1  the sheet that was there differed", ["days/a.sheet"], ""))
        self.assertEqual(self.sheet("a"), program(GOOD))
        self.assertEqual((self.folder / "days" / "a.sheet").stat().st_mode & 0o777, 0o640)


class Refused(Year):
    """Inputs that are refused, and what is said of others."""

    def test_in_the_summary_and_in_words(self):
        self.three()
        summary, said = self.year(status=1)
        self.assertEqual([" ".join(line) for line in summary],
                         ["settled 2", "refused 1 no sheet was written", f"days/b.txt, line 4: {REFUSAL}"])
        self.assertEqual(said, self.call("settle", "days/b.txt").stderr)
        self.assertIn("A1 stands on line 2 already", said)
        self.assertEqual((self.sheet("a"), self.sheet("b"), self.sheet("c")), (program(GOOD), None, DAY_SHEET))

    def test_a_sheet_from_before_stays_and_is_told(self):
        self.three()
        self.file("days/b.sheet", b"before")
        summary, _ = self.year("--overwrite", status=1)
        self.assertEqual(" ".join(summary[2]), f"days/b.txt, line 4: {REFUSAL}; days/b.sheet from before stays")
        self.assertEqual(self.sheet("b"), b"before")

    def test_counts_before_a_sheet_that_was_left_alone(self):
        self.three()
        self.file("days/a.sheet", b"before")
        summary, _ = self.year(status=1)
        self.assertEqual([line[0] for line in summary], ["settled", "left", "days/a.sheet", "refused", "days/b.txt,"])

    def test_in_the_order_of_names(self):
        ends = {"a": DAY.read_bytes()[:-2], "b": b"", "c": BAD, "d": DAY.read_bytes()[:-9], "e": lines("X")}
        for name, data in ends.items():
            self.day(name, data)
        summary, said = self.year(status=1)
        told = [line.split(",")[0] for line in said.splitlines() if line.startswith("fireboxer: ")]
        self.assertEqual(told, [f"fireboxer: days/{name}.txt" for name in ends])
        self.assertEqual([line[0] for line in summary[2:]], [f"days/{name}.txt," for name in ends])

    def test_more_after_the_end(self):
        self.day("a", GOOD + b"more\n")
        self.day("b", DAY.read_bytes() * 2)
        # what follows has an end line, too, or is of any length, within the blocks that are read and far beyond them
        more = {f"c{length:06}": GOOD + b"x" * length + GOOD[-2:] for length in (0, 1, 60000, 70000, 300000)}
        for name, data in more.items():
            self.day(name, data)
        self.day("d", GOOD)
        self.day("e", DAY.read_bytes())
        _, said = self.year()
        ends = {"a": GOOD, "b": DAY.read_bytes(), **dict.fromkeys(more, GOOD)}
        self.assertEqual([line.partition(", and is")[0] for line in said.splitlines()],
                         [f"fireboxer: days/{name}.txt: more follows the end line (line {len(data.splitlines())})"
                          for name, data in ends.items()])
        self.assertEqual((self.sheet("a"), self.sheet("b")), (program(GOOD), DAY_SHEET))


class Carry(Year):
    """Each day goes on from the one before it."""

    def setUp(self):
        super().setUp()
        for name, data in (("1", SUNDAY.read_bytes()), ("2", PLAIN), ("3", TUESDAY)):
            self.day(name, data)
        self.third = after(MONDAY_SHEET, TUESDAY)

    def settled(self, names="123"):
        """that these days stand in their folder, and no other"""
        wanted = {"1": SUNDAY_SHEET, "2": MONDAY_SHEET, "3": self.third}
        self.assertEqual({name: self.sheet(name) for name in wanted},
                         {name: wanted[name] if name in names else None for name in wanted})

    def test_a_chain(self):
        self.assertEqual(self.year("--carry"), ([["settled", "3"]], ""))
        self.settled()
        self.assertEqual(self.year("--carry")[0][1][:2], ["the", "same"])

    def test_without_it_each_day_starts_by_itself(self):
        self.year()
        self.assertEqual((self.sheet("1"), self.sheet("2")), (SUNDAY_SHEET, program(PLAIN)))
        self.assertNotEqual(program(PLAIN), MONDAY_SHEET)

    def test_after_a_sheet(self):
        (self.folder / "days" / "1.txt").unlink()
        self.file("sunday.sheet", SUNDAY_SHEET)
        for words in (["--after", "sunday.sheet"], ["--after", "sunday.sheet", "--carry"]):
            self.year(*words)
            self.settled("23")

    def test_a_refused_day_ends_the_chain(self):
        self.day("2", PLAIN.replace(b"A2", b"A1"))
        self.day("4", WEDNESDAY)
        summary, said = self.year("--carry", status=1)
        self.assertEqual([" ".join(line) for line in summary],
                         ["settled 1", "refused 1 no sheet was written", f"days/2.txt, line 3: {REFUSAL}",
                          "not settled 2  a day before was refused, and gives no carry block",
                          "days/3.txt to days/4.txt"])
        self.assertIn(f"fireboxer: days/2.txt, line 3: {REFUSAL}", said)
        self.settled("1")

    def test_a_sheet_that_was_left_alone_is_not_gone_on_from(self):
        self.file("days/2.sheet", SUNDAY_SHEET)
        self.year("--carry", status=5)
        self.assertEqual((self.sheet("2"), self.sheet("3")), (SUNDAY_SHEET, self.third))

    def test_a_block_of_its_own(self):
        self.day("2", MONDAY.read_bytes())
        _, said = self.year("--carry", status=1)
        self.assertIn("the input has a carry block of its own, and that of days/1.sheet was put before it", said)

    def test_more_after_the_end(self):
        self.day("2", PLAIN + b"more\n")
        _, said = self.year("--carry")
        self.assertIn("days/2.txt: more follows the end line (line 229)", said)
        self.settled()

    def test_days_that_do_not_follow_are_told(self):
        self.day("3", WEDNESDAY)
        _, said = self.year("--carry")
        self.assertEqual(said, "fireboxer: days/3.txt is of 2017-02-22, and days/2.sheet, after which it is settled, "
                         "of 2017-02-20\n")

    def test_another_interval(self):
        self.day("3", TUESDAY.replace(b"\t4\t", b"\t3\t", 1))
        self.trouble("days/3.txt has an interval of 3 s, and days/2.sheet one of 4 s", "days", "--carry")
        self.settled("12")

    def test_no_sheet_to_go_on_from(self):
        for path, reason in (("none", "none can't be read"), ("days", "days can't be read: it is a folder")):
            self.trouble(reason, "days", "--after", path)
        self.file("bad.sheet", b"hello\n")
        answer = self.call("year", "days", "--after", "bad.sheet")
        self.assertEqual((answer.returncode, answer.stdout), (2, b""))
        self.assertIn("bad.sheet, line 1: no sheet begins here", answer.stderr)
        self.settled("")


class Trouble(Year):
    """What keeps it from settling, or stops it."""

    def test_folders(self):
        self.day("a", GOOD)
        self.file("plain", b"")
        (self.folder / "empty").mkdir()
        for words, reason in ((["none"], "none can't be read: No such file"), (["plain"], "plain can't be read: Not a"),
                              (["empty"], "empty has no inputs: no name in it ends in .txt"),
                              (["days", "-o", "none"], "none can't be written: there is no such folder"),
                              (["days", "-o", "plain"], "plain can't be written: there is no such folder"),
                              ([], "the following arguments are required: FOLDER"),
                              (["days", "days"], "unrecognized arguments: days")):
            self.trouble(reason, *words)
        self.assertEqual(self.names(), ["a.txt"])

    def test_what_is_no_file(self):
        self.day("a", GOOD)
        (self.folder / "days" / "b.txt").mkdir()
        self.trouble("days/b.txt can't be read: it is a folder", "days")
        (self.folder / "days" / "b.txt").rmdir()
        os.mkfifo(self.folder / "days" / "b.txt")
        self.trouble("days/b.txt is no file", "days")
        (self.folder / "days" / "b.txt").unlink()
        (self.folder / "days" / "b.txt").symlink_to("nowhere")
        self.trouble("days/b.txt can't be read: No such file", "days")
        (self.folder / "days" / "b.txt").unlink()
        (self.folder / "days" / "a.sheet").mkdir()
        self.trouble("days/a.sheet is no file", "days", "--overwrite")
        self.assertEqual(self.names(), ["a.sheet", "a.txt"])

    def test_no_input_is_written_over(self):
        self.day("a", GOOD)
        (self.folder / "days" / "a.sheet").symlink_to("a.txt")
        self.trouble("days/a.sheet is an input, and would be written over", "days", "--overwrite")
        self.assertEqual((self.folder / "days" / "a.txt").read_bytes(), GOOD)

    def test_a_read_error_is_no_refusal(self):
        (self.folder / "days" / "a.txt").symlink_to("/proc/self/mem")
        self.trouble("days/a.txt can't be read: Input/output error", "days")

    def test_what_can_not_be_written(self):
        self.day("a", GOOD)
        for script in ('ulimit -f 0; trap "" XFSZ; "$fireboxer" year days', '"$fireboxer" year days -o /proc'):
            answer = self.shell(script)
            self.assertEqual((answer.returncode, answer.stdout), (2, b""), answer.stderr)
            self.assertIn("a.sheet can't be written: ", answer.stderr)
        self.assertEqual(self.names(), ["a.txt"])
        self.assertEqual(self.shell('"$fireboxer" year days >/dev/full').returncode, 2)
        self.assertEqual(self.sheet("a"), program(GOOD))


class Midway(Year):
    """While it runs."""

    def started(self, count, *words, **options):
        """year in the midst of so many days, of which one is settled at least"""
        for number in range(count):
            os.link(self.long_day, self.folder / "days" / f"{number:03}.txt")
        process = self.start("year", "days", *words, stdin=subprocess.DEVNULL, **options)
        self.wait_for(lambda: any(name.endswith(".sheet") for name in self.names()))
        return process

    def setUp(self):
        super().setUp()
        self.long_day = self.folder / self.file("long", DAY.read_bytes())

    def test_stopped_it_leaves_whole_sheets_alone(self):
        for number, words in ((signal.SIGINT, []), (signal.SIGTERM, []), (signal.SIGTERM, ["--carry"])):
            with self.subTest(number=number, words=words):
                process = self.started(300, *words)
                (os.killpg if number == signal.SIGINT else os.kill)(process.pid, number)
                out, said = process.communicate(timeout=10)
                self.assertEqual((process.returncode, out, said), (-number, b"", b""))
                self.assertEqual(processes(lambda group, _, pid=process.pid: group == pid), [])
                names = self.names()
                self.assertEqual({name.partition(".")[2] for name in names}, {"txt", "sheet"})
                self.assertLess(sum(name.endswith("sheet") for name in names), 300)
                for name in names:
                    place = self.folder / "days" / name
                    if name.endswith(".sheet"):
                        self.assertTrue(place.read_bytes().endswith(b"\n"))
                        self.assertEqual(place.stat().st_size, len(DAY_SHEET))
                    place.unlink()

    def test_a_program_that_is_killed_is_no_refusal(self):
        process = self.started(300)

        def programs():
            return processes(lambda group, command: group == process.pid and b"out/settle" in command)
        self.wait_for(programs)
        os.kill(process.pid, signal.SIGSTOP)
        killed = programs()
        for number in killed:
            os.kill(number, signal.SIGKILL)
        os.kill(process.pid, signal.SIGCONT)
        out, said = process.communicate(timeout=10)
        if killed:
            self.assertEqual((process.returncode, out), (2, b""), said)
            self.assertIn(b"ended by signal 9", said)

    def test_progress_on_a_terminal(self):
        self.day("a", GOOD)
        self.day("b", BAD)
        master, slave = os.openpty()
        answer = subprocess.run([FIREBOXER, "year", "days"], cwd=self.folder, stdin=subprocess.DEVNULL,
                                stdout=subprocess.PIPE, stderr=slave)
        os.close(slave)
        shown = os.read(master, 1 << 16)
        os.close(master)
        self.assertEqual(answer.returncode, 1)
        self.assertIn(b"1 of 2 settled", shown)
        self.assertIn(b"2 of 2 settled, 1 refused", shown)
        passing, _, message = shown.partition(b"fireboxer: ")
        # the passing line is gone before a message comes, and nothing of it is left
        self.assertTrue(passing.endswith(b"\r"), passing)
        self.assertEqual(passing.rpartition(b"refused\r")[2].strip(b" "), b"\r")
        self.assertNotIn(b"settled", message)
