"""Day after day: --after puts the carry block of a sheet behind the header, and touches nothing else."""
from common import (BLOCK, CONTRACTS, GOOD, HEADER, MONDAY, MONDAY_SHEET, SAMPLES, SUNDAY, SUNDAY_SHEET, FrontEnd,
                    lines, program)

LINES = MONDAY.read_bytes().splitlines(keepends=True)
# Monday as it comes from the archive, and the block that Sunday printed
PLAIN = b"".join([LINES[0], *LINES[77:]])
CARRIED = b"".join(LINES[1:77])


class After(FrontEnd):
    """settle --after SHEET"""

    def setUp(self):
        super().setUp()
        self.file("sunday.sheet", SUNDAY_SHEET)
        self.file("monday.txt", PLAIN)

    def settles(self, answer, sheet=MONDAY_SHEET):
        self.assertEqual((answer.returncode, answer.stdout, answer.stderr), (0, sheet, ""))

    def test_two_days_in_a_row(self):
        self.assertTrue(SUNDAY_SHEET.endswith(CARRIED))
        self.assertEqual(self.call("settle", SUNDAY, "-o", "sunday.sheet").returncode, 0)
        self.settles(self.call("settle", "--after", "sunday.sheet", "monday.txt"))
        self.settles(self.call("settle", MONDAY))
        alone = self.call("settle", "monday.txt")
        self.assertEqual(alone.returncode, 0)
        self.assertNotEqual(alone.stdout, MONDAY_SHEET)

    def test_pipes(self):
        self.settles(self.call("settle", "--after", "sunday.sheet", input=PLAIN))
        self.settles(self.call("settle", "--after", "-", "monday.txt", input=SUNDAY_SHEET))
        self.settles(self.shell('while IFS= read -r line; do echo "$line"; done <monday.txt | '
                                '"$fireboxer" settle --after <(cat sunday.sheet)'))

    def test_to_a_file_and_for_people(self):
        answer = self.call("settle", "--after", "sunday.sheet", "monday.txt", "-o", "monday.sheet")
        self.assertEqual((answer.returncode, answer.stdout, answer.stderr), (0, b"", ""))
        self.assertEqual((self.folder / "monday.sheet").read_bytes(), MONDAY_SHEET)
        for form in ("--table", "--csv"):
            self.settles(self.call("settle", form, "--after", "sunday.sheet", "monday.txt"),
                         self.call("settle", form, MONDAY).stdout)

    def test_no_other_line_is_touched(self):
        for data in (PLAIN + b"more\n", PLAIN[:-2], PLAIN[:40], PLAIN[:5], b"", b"X\n" + PLAIN, b"D\n" + PLAIN,
                     PLAIN.replace(b"A2", b"A1"), PLAIN.replace(b"\t9600", b"\t9,600", 1),
                     PLAIN.replace(b"\n", b"\r\n"), b"D" * 200000 + b"\n" + PLAIN):
            first, line_end, rest = data.partition(b"\n")
            put = first + line_end + (CARRIED if line_end else b"") + rest
            self.assertEqual(self.call("settle", "--after", "sunday.sheet", input=data).stdout, program(put))

    def no_block(self, sheet, words):
        """that a sheet is not gone on from, and why"""
        self.file("bad.sheet", sheet)
        answer = self.call("settle", "--after", "bad.sheet", "monday.txt", "-o", "out")
        self.assertEqual((answer.returncode, answer.stdout), (2, b""))
        self.assertTrue(answer.stderr.startswith("fireboxer: bad.sheet"))
        for word in words:
            self.assertIn(word, answer.stderr)
        self.assertFalse((self.folder / "out").exists())

    def test_sheets_that_give_no_block(self):
        lead = "bad.sheet gives no carry block: "
        self.no_block(program(GOOD[:-1]), [lead + "its input was refused at line 229: settle that one first"])
        self.no_block(program(lines(HEADER, "X")), [lead + "its input was refused at line 2"])
        self.no_block(b"R\t1\t15\n", [lead + "its input was refused at line 1"])
        for sheet in (SUNDAY_SHEET + MONDAY_SHEET, SUNDAY_SHEET + program(b"")):
            self.no_block(sheet, [lead + "it holds several sheets: give the last of them alone"])

    def test_what_is_no_sheet(self):
        # the reader of explain looks at it, and its tests have every way in which a sheet can be damaged
        parts = SUNDAY_SHEET.splitlines(keepends=True)
        self.no_block(b"", ["line 1: no sheet begins here", "there is nothing in it"])
        self.no_block(b"hello\n", ["line 1: no sheet begins here"])
        self.no_block(PLAIN, ["line 1: no sheet begins here", "this is an input", "settle it, and give its sheet"])
        self.no_block(SUNDAY_SHEET.replace(b"V\t3", b"V\t2"), ["the sheet has format 2: only format 3 is read here"])
        self.no_block(SUNDAY_SHEET.replace(b"V\t3", b"V\t\x1b"), ["line 1: no sheet begins here", "<0x1B>"])
        self.no_block(b"".join(parts[:6]), ["line 6: the sheet is cut off after", "the carry block has no line O"])
        self.no_block(SUNDAY_SHEET[:-1], ["line 82: the sheet is cut off in", "the carry block has 74 of 75 lines B"])
        self.no_block(SUNDAY_SHEET + b"B\t0\n", ["line 83: a line too many"])

    def test_no_sheet(self):
        for path, reason in (("none", "No such file"), (".", "it is a folder")):
            answer = self.call("settle", "--after", path, "monday.txt")
            self.assertEqual((answer.returncode, answer.stdout), (2, b""))
            self.assertIn(f"{path} can't be read: {reason}", answer.stderr)

    def test_another_interval(self):
        data = PLAIN.replace(b"\t4\t", b"\t3\t", 1)
        answer = self.call("settle", "--after", "sunday.sheet", input=data)
        self.assertEqual((answer.returncode, answer.stdout), (2, b""))
        self.assertIn("standard input has an interval of 3 s, and sunday.sheet one of 4 s", answer.stderr)

    def test_a_block_of_its_own(self):
        answer = self.call("settle", "--after", "sunday.sheet", MONDAY)
        self.assertEqual(answer.returncode, 1)
        self.assertTrue(answer.stdout.endswith(b"R\t78\t1\n"))
        for words in ("monday.txt, line 2: refusal 1: ", "counts it as line 78)", "settle it without --after",
                      "the input has a carry block of its own, and that of sunday.sheet was put before it"):
            self.assertIn(words, answer.stderr)

    def test_a_damaged_value_is_told_where_it_stands(self):
        self.file("bad.sheet", SUNDAY_SHEET[:-2] + b"1\n")
        answer = self.call("settle", "--after", "bad.sheet", "monday.txt")
        self.assertEqual((answer.returncode, answer.stdout[-8:]), (1, b"R\t77\t18\n"))
        for words in ("bad.sheet, line 82: refusal 18: ", "line 82: B<TAB>10001", "counts it as line 77)",
                      "the newest setpoint, 10,001 kW"):
            self.assertIn(words, answer.stderr)

    def test_refused_lines_are_told_by_their_own_numbers(self):
        cases = ((PLAIN.replace(b"A2", b"A1"), "line 3: refusal 8: ", ["A1 stands on line 2 already", "as line 79)"]),
                 (PLAIN[:-2], "line 229: refusal 15: ", ["all samples are there", "as line 305)"]),
                 (lines(HEADER, CONTRACTS, SAMPLES[1:], "E"), "line 228: refusal 1: ", ["1 sample is missing"]),
                 (lines("X"), "line 1: refusal 14: ", ["X begins no line"]))
        for data, place, words in cases:
            answer = self.call("settle", "--after", "sunday.sheet", input=data)
            self.assertEqual(answer.returncode, 1)
            self.assertIn(f"fireboxer: standard input, {place}", answer.stderr)
            for word in words:
                self.assertIn(word, answer.stderr)
            self.assertEqual("counts it as" in answer.stderr, data != lines("X"))

    def test_more_after_the_end(self):
        answer = self.call("settle", "--after", "sunday.sheet", input=PLAIN + b"more\n")
        self.assertEqual((answer.returncode, answer.stdout), (0, MONDAY_SHEET))
        self.assertIn("more follows the end line (line 229)", answer.stderr)

    def test_days_that_do_not_follow_are_told(self):
        for day, told in ((b"2017-02-19", False), (b"2017-02-20", False), (b"2017-02-21", True), (b"2017-02-18", True)):
            answer = self.call("settle", "--after", "sunday.sheet", input=PLAIN.replace(b"2017-02-20", day))
            words = f"standard input is of {day.decode()}, and sunday.sheet, after which it is settled, of 2017-02-19"
            self.assertEqual((answer.returncode, words in answer.stderr, bool(answer.stderr)), (0, told, told))

    def test_misuse(self):
        after = ["--after", "sunday.sheet", "monday.txt"]
        for words, reason in (([*after, MONDAY, "--join"], "--after goes with one input"),
                              (["--after", "-"], "standard input can be read once only"),
                              ([*after, "-o", "sunday.sheet"], "sunday.sheet is an input, and would be written over")):
            answer = self.call("settle", *words)
            self.assertEqual((answer.returncode, answer.stdout), (2, b""))
            self.assertIn(reason, answer.stderr)
        self.assertEqual((self.folder / "sunday.sheet").read_bytes(), SUNDAY_SHEET)

    def test_a_block_in_the_input_needs_no_word(self):
        self.settles(self.call("settle", input=lines(HEADER, BLOCK, CONTRACTS, SAMPLES, "E")), program(GOOD))
