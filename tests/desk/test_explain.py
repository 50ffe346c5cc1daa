"""explain: the lines and the rest of printed sheets against the pool's figures. It runs no program, and needs none."""
import csv
import io
import os
import re
import time
import unittest.mock

from common import DAY_SHEET, EXAMPLE, EXAMPLE_SHEET, ROOT, FrontEnd
from desk import differences, endings, printed
from desk.endings import ACCEPTED, CHANGED, REFUSED, TROUBLE
from desk.inputs import Input

SHARPEST = ROOT / "examples" / "sharpest.sheet"
SHARPEST_SHEET = SHARPEST.read_bytes()
REST_SHEET = (ROOT / "examples" / "rest.sheet").read_bytes()
PARTS = EXAMPLE_SHEET.splitlines(keepends=True)
HEAD, MIDDLE, TOTAL, (BOUNDS, *PAST) = PARTS[0], PARTS[1:5], PARTS[5], PARTS[6:]
REFUSED_SHEET = b"".join([HEAD, *MIDDLE, b"R\t229\t14\n"])
NOTHING = "in SO, IS and AK all lines and the rest add up to the pool's figures.\n"


def changed(sheet, old, new):
    """a sheet with the first occurrence of a text changed"""
    assert old in sheet
    return sheet.replace(old, new, 1)


class Explained(FrontEnd):
    """What a sheet is said to be."""

    def explained(self, sheet, *words):
        """the answer to a sheet in a file"""
        self.file("a.sheet", sheet)
        return self.call("explain", *words, "a.sheet")

    def rows(self, sheet, *words):
        """the rows of the table, by columns; those of words and figures alike"""
        answer = self.explained(sheet, *words)
        self.assertEqual((answer.returncode, answer.stderr), (ACCEPTED, ""))
        text = answer.stdout.decode()
        rule = next((line for line in text.splitlines() if line.startswith("---")), None)
        if rule is None:
            return []
        spans = [match.span() for match in re.finditer("-+", rule)]
        body = text[text.index(rule) + len(rule) + 1:].split("\n\n")[0].splitlines()
        return [[line[start:end].strip() for start, end in spans] for line in body]


class Figures(Explained):
    """The figures, and which of them are shown."""

    def test_sharpest(self):
        # the difference is 16 kWh in P and in N, above and below the pool's figure
        wanted = []
        for quarter, direction, *energies in (("0", "P", "17", "32", "1", "+16"), ("1", "N", "17", "32", "1", "+16"),
                                              ("2", "P", "16", "0", "0", "-16"), ("3", "N", "16", "0", "0", "-16")):
            for energy in ("SO asked for", "IS delivered", "AK accepted"):
                wanted.append([quarter, direction, energy, "32", *energies, "16"])
        self.assertEqual(self.rows(SHARPEST_SHEET), wanted)

    def test_all_of_sharpest(self):
        rows = self.rows(SHARPEST_SHEET, "--all")
        self.assertEqual(len(rows), 4 * 2 * 3)
        self.assertEqual([row for row in rows if row[7] != "0"], self.rows(SHARPEST_SHEET))
        self.assertIn(["0", "N", "SO asked for", "32", "0", "0", "0", "0", "16"], rows)

    def test_all_of_rest(self):
        rows = self.rows(REST_SHEET, "--all")
        self.assertEqual(rows[0], ["0", "P", "SO asked for", "2", "3,250", "3,000", "250", "0", "1"])
        self.assertEqual(rows[5], ["0", "N", "AK accepted", "0", "0", "0", "0", "0", "0"])
        self.assertEqual(len(rows), 6)

    def test_a_day_is_added_up(self):
        lines = [line.split("\t") for line in DAY_SHEET.decode().splitlines()]
        wanted = []
        for pool in (line for line in lines if line[0] == "Q"):
            own = [line for line in lines if line[0] == "K" and line[1:3] == pool[1:3]]
            for place in range(3):
                total, rest = sum(int(line[4 + place]) for line in own), int(pool[11 + place])
                difference = total + rest - int(pool[3 + place])
                self.assertLess(2 * abs(difference), len(own) + 2)
                told = f"{difference:+,}" if difference else "0"
                wanted.append([*pool[1:3], f"{int(pool[3 + place]):,}", f"{total:,}", f"{rest:,}", told])
        rows = [[*row[:2], *row[4:8]] for row in self.rows(DAY_SHEET, "--all")]
        self.assertEqual(rows, wanted)
        self.assertEqual([row[:2] + row[4:8] for row in self.rows(DAY_SHEET)], [row for row in wanted if row[5] != "0"])

    def test_bound(self):
        # twice a difference is less than the contracts and 2: the largest whole number for which that holds
        for contracts in range(33):
            bound = differences.bound(contracts)
            self.assertLess(2 * bound, contracts + 2)
            self.assertGreaterEqual(2 * (bound + 1), contracts + 2)
        self.assertEqual([differences.bound(contracts) for contracts in (0, 1, 2, 3, 8, 32)], [0, 1, 1, 2, 4, 16])


class Pages(Explained):
    """What is printed for people."""

    def test_nothing_differs(self):
        answer = self.explained(EXAMPLE_SHEET)
        self.assertEqual((answer.returncode, answer.stderr), (ACCEPTED, ""))
        self.assertEqual(answer.stdout.decode(), f"a.sheet, 2017-02-20, 1 quarter hour: {NOTHING}")

    def test_nothing_differs_in_all(self):
        text = self.explained(EXAMPLE_SHEET, "--all").stdout.decode()
        sentence, table, note = text.split("\n\n")
        self.assertTrue(sentence.endswith(NOTHING.strip()))
        self.assertEqual(len(table.splitlines()), 3 + 6)
        self.assertEqual(note, differences.NOTE)

    def test_sentence_and_note(self):
        sentence, _, note = self.explained(SHARPEST_SHEET).stdout.decode().split("\n\n")
        self.assertEqual(sentence,
                         "a.sheet, 2017-02-20, 4 quarter hours: differences in 12 of 24 figures, up to 16 kWh.")
        self.assertEqual(note, differences.NOTE)

    def test_aligned(self):
        large = changed(changed(EXAMPLE_SHEET, b"Q\t0\tP\t2500", b"Q\t0\tP\t500000"), b"A1\t1500", b"A1\t499000")
        for sheet in (SHARPEST_SHEET, DAY_SHEET, large):
            for words in ([], ["--all"]):
                table = self.explained(sheet, *words).stdout.decode().split("\n\n")[1:2]
                for part in table:
                    self.is_aligned(part.splitlines())

    def is_aligned(self, lines):
        """nothing stands in the two blanks between columns, and figures end where their column does"""
        ends = [match.end() for match in re.finditer("-+", lines[2])]
        for line in lines:
            self.assertTrue(all(line[end:end + 2].strip() == "" for end in ends), line)
            self.assertEqual(line, line.rstrip())
        for line in lines[3:]:
            self.assertTrue(all(line[end - 1].isdigit() for end in [ends[0], *ends[3:9]]), line)

    def test_rows(self):
        answer = self.explained(SHARPEST_SHEET, "--csv")
        self.assertEqual((answer.returncode, answer.stderr), (ACCEPTED, ""))
        header, *rows = csv.reader(io.StringIO(answer.stdout.decode()), delimiter=";")
        self.assertEqual(header, ["day", "quarter hour", "direction", "energy", "contracts", "pool kWh", "lines kWh",
                                  "rest kWh", "difference kWh", "bound kWh"])
        self.assertEqual(len(rows), 12)
        self.assertEqual(rows[0], ["2017-02-20", "0", "P", "SO", "32", "17", "32", "1", "16", "16"])
        self.assertEqual(rows[-1], ["2017-02-20", "3", "N", "AK", "32", "16", "0", "0", "-16", "16"])
        self.assertEqual(len(self.explained(SHARPEST_SHEET, "--csv", "--all").stdout.splitlines()), 25)
        self.assertEqual(len(self.explained(EXAMPLE_SHEET, "--csv").stdout.splitlines()), 1)
        commas = self.explained(SHARPEST_SHEET, "--csv", "--separator", ",").stdout
        self.assertEqual(commas, answer.stdout.replace(b";", b","))


class Inputs(Explained):
    """Where sheets come from."""

    def test_standard_input(self):
        wanted = self.explained(SHARPEST_SHEET).stdout.replace(b"a.sheet", b"standard input")
        for words in ([], ["-"]):
            answer = self.call("explain", *words, input=SHARPEST_SHEET)
            self.assertEqual((answer.returncode, answer.stdout, answer.stderr), (ACCEPTED, wanted, ""))
        answer = self.shell(f'while IFS= read -r line; do echo "$line"; done <"{SHARPEST}" | "$fireboxer" explain')
        self.assertEqual((answer.returncode, answer.stdout), (ACCEPTED, wanted))

    def test_a_pipe_that_does_not_block(self):
        reader, writer = os.pipe()
        os.set_blocking(reader, False)
        process = self.start("explain", stdin=reader)
        for half in (EXAMPLE_SHEET[:90], EXAMPLE_SHEET[90:]):
            time.sleep(0.1)
            os.write(writer, half)
        os.close(writer)
        page, said = process.communicate(timeout=10)
        os.close(reader)
        self.assertEqual((process.returncode, said), (ACCEPTED, b""))
        self.assertTrue(page.decode().endswith(NOTHING))

    def test_several_inputs(self):
        self.file("one", EXAMPLE_SHEET)
        self.file("two", REST_SHEET)
        self.file("three", SHARPEST_SHEET)
        answer = self.call("explain", "one", "two", "three", "one")
        self.assertEqual((answer.returncode, answer.stderr), (ACCEPTED, ""))
        sentences, table, last, note = answer.stdout.decode().split("\n\n")
        self.assertEqual([line.split(",")[0] for line in sentences.splitlines()], ["one", "two", "three"])
        self.assertEqual(len(table.splitlines()), 3 + 12)
        self.assertEqual(last + "\n", f"one, 2017-02-20, 1 quarter hour: {NOTHING}")
        self.assertEqual(note, differences.NOTE)
        rows = self.call("explain", "--csv", "three", "one", "three").stdout.splitlines()
        self.assertEqual(len(rows), 1 + 2 * 12)

    def test_several_sheets_in_one_input(self):
        text = self.explained(EXAMPLE_SHEET + REFUSED_SHEET + SHARPEST_SHEET + EXAMPLE_SHEET)
        self.assertEqual(text.returncode, REFUSED)
        names = re.findall(r"^(a\.sheet.*), 2017-02-20", text.stdout.decode(), re.M)
        self.assertEqual(names, ["a.sheet", "a.sheet from line 83", "a.sheet from line 89", "a.sheet from line 431"])

    def test_the_worst_counts_and_the_others_are_explained(self):
        self.file("good", EXAMPLE_SHEET)
        self.file("none", b"hello\n")
        self.file("refused", REFUSED_SHEET)
        self.file("changed", changed(EXAMPLE_SHEET, b"Q\t0\tP\t2500", b"Q\t0\tP\t2600"))
        for others, status in (([], ACCEPTED), (["refused"], REFUSED), (["none", "refused"], TROUBLE),
                               (["changed", "none", "refused"], CHANGED)):
            answer = self.call("explain", *others, "good")
            self.assertEqual(answer.returncode, status)
            self.assertIn(f"good, 2017-02-20, 1 quarter hour: {NOTHING}", answer.stdout.decode())

    def test_what_can_not_be_read(self):
        for word, reason in ((".", "it is a folder"), ("none", "No such file"),
                             ("/proc/self/mem", "Input/output error")):
            answer = self.call("explain", word)
            self.assertEqual((answer.returncode, answer.stdout), (TROUBLE, b""))
            self.assertIn(f"{word} can't be read: {reason}", answer.stderr)
        answer = self.shell('"$fireboxer" explain <&-')
        self.assertEqual((answer.returncode, answer.stderr), (TROUBLE, "fireboxer: standard input can't be read: "
                                                              "it is closed\n"))
        answer = self.shell(f'"$fireboxer" explain "{SHARPEST}" >/dev/full')
        self.assertEqual(answer.returncode, TROUBLE)
        self.assertIn("standard output can't be written: No space left", answer.stderr)

    def test_endless(self):
        for script in ("yes", "cat /dev/zero"):
            answer = self.shell(f'{script} | "$fireboxer" explain')
            self.assertEqual((answer.returncode, answer.stdout), (TROUBLE, b""))
            self.assertIn("standard input, line 1: no sheet begins here", answer.stderr)

    def test_head_ends_it_quietly(self):
        answer = self.shell(f'for i in $(seq 1000); do cat "{SHARPEST}"; done | "$fireboxer" explain | head -n 1; '
                            'echo "${PIPESTATUS[1]}"')
        self.assertEqual((answer.stdout.splitlines()[-1], answer.stderr), (b"141", ""))


class Refused(Explained):
    """Sheets that end in a refusal."""

    def test_after_a_quarter_hour(self):
        answer = self.explained(REFUSED_SHEET)
        self.assertEqual(answer.returncode, REFUSED)
        self.assertEqual(answer.stdout.decode(),
                         f"a.sheet, 2017-02-20, 1 quarter hour before a refusal: {NOTHING}")
        self.assertEqual(answer.stderr.splitlines(), [
            "fireboxer: a.sheet, line 6: the sheet ends in a refusal, with 1 quarter hour before it",
            "  cause: its input was refused at line 229: refusal 14: the line is ill-formed",
            "  to mend it: fireboxer inspect INPUT says what is wrong there"])

    def test_before_the_first_quarter_hour(self):
        for sheet, line in ((b"R\t1\t15\n", 1), (HEAD + b"R\t3\t12\n", 2)):
            for words in ([], ["--all"]):
                answer = self.explained(sheet, *words)
                self.assertEqual((answer.returncode, answer.stdout), (REFUSED, b""))
                self.assertIn(f"a.sheet, line {line}: the sheet ends in a refusal, with no quarter hour before it",
                              answer.stderr)

    def test_no_block_follows(self):
        answer = self.explained(REFUSED_SHEET + BOUNDS)
        self.assertEqual(answer.returncode, TROUBLE)
        self.assertIn("a.sheet, line 7: a sheet begins with a line V", answer.stderr)

    def test_a_number_that_is_not_listed(self):
        self.assertIn("refusal 99: a ground that the list of refusals lacks", self.explained(b"R\t1\t99\n").stderr)


class Changed(Explained):
    """Sheets that no program printed: a difference above the bound."""

    def test_at_the_bound_and_above(self):
        for old, new, difference in ((b"Q\t0\tP\t17", b"Q\t0\tP\t16", "+17"), (b"Q\t2\tP\t16", b"Q\t2\tP\t17", "-17")):
            answer = self.explained(changed(SHARPEST_SHEET, old, new))
            self.assertEqual(answer.returncode, CHANGED)
            rows = [line.split() for line in answer.stdout.decode().splitlines() if line.endswith("above the bound")]
            self.assertEqual([row[-5:-3] for row in rows], [[difference, "16"]])
        self.assertEqual(self.explained(SHARPEST_SHEET).returncode, ACCEPTED)

    def test_said(self):
        answer = self.explained(changed(SHARPEST_SHEET, b"Q\t1\tN\t17\t17", b"Q\t1\tN\t5\t17"))
        self.assertEqual(answer.returncode, CHANGED)
        self.assertEqual(answer.stderr.splitlines(), [
            "fireboxer: a.sheet, line 101: the sheet was changed after it was printed: 1 difference above the bound",
            "  SO of quarter hour 1, N: the pool has 5 kWh, the lines 32 and the rest 1",
            "  cause: the difference is 28 kWh, and with 32 contracts roundings make 16 kWh at most",
            "  to mend it: settle the input again, and take the sheet as it is printed"])

    def test_any_figure(self):
        for old, new in ((b"\tA1\t1500\t", b"\tA1\t1400\t"), (b"\t2489\t", b"\t2500\t"),
                         (b"\t2488\t0\t0\t0\n", b"\t2488\t0\t0\t2\n")):
            answer = self.explained(changed(EXAMPLE_SHEET, old, new), "--csv")
            self.assertEqual((answer.returncode, len(answer.stdout.splitlines())), (CHANGED, 2))
            self.assertIn("1 difference above the bound", answer.stderr)

    def test_a_line_that_was_taken_out(self):
        answer = self.explained(b"".join([HEAD, MIDDLE[0], *MIDDLE[3:], *PARTS[5:]]))
        self.assertEqual(answer.returncode, CHANGED)
        self.assertIn("3 differences above the bound", answer.stderr)
        self.assertIn("with no contract roundings make 0 kWh at most", answer.stderr)

    def test_refused_and_changed(self):
        answer = self.explained(changed(REFUSED_SHEET, b"\t2489\t", b"\t2400\t"))
        self.assertEqual(answer.returncode, CHANGED)
        self.assertIn("ends in a refusal", answer.stderr)
        self.assertIn("was changed after it was printed", answer.stderr)


# name: input, line, words of the message
NO_SHEETS = {
    "empty": (b"", 1, ["no sheet begins here", "there is nothing in it"]),
    "an input": (EXAMPLE.read_bytes(), 1, ["no sheet begins here", "D<TAB>2017-02-20", "this is an input",
                                           "settle it, and give its sheet"]),
    "a word": (b"hello\n", 1, ["no sheet begins here", "as settle prints it"]),
    "a table": (b"Settlement of 2017-02-20: 1 quarter hour, interval 4 s, minimum lot 5,000 kW\n", 1, ["--table"]),
    "bytes": (bytes(range(256)) * 4, 1, ["no sheet begins here"]),
    "a long line": (b"V\t3\t" + b"1" * 1000 + b"\n", 1, ["no sheet begins here", "(1,004 bytes)"]),
    "a long line below": (EXAMPLE_SHEET[:100] + b"1" * 10**6, 3, ["this is no line of a sheet"]),
    "format 2": (changed(EXAMPLE_SHEET, b"V\t3", b"V\t2"), 1, ["the sheet has format 2: only format 3 is read here",
                                                              "settle its input again"]),
    "format 4": (changed(EXAMPLE_SHEET, b"V\t3", b"V\t4"), 1, ["the sheet has format 4: only format 3 is read here"]),
    "format 2, as it was": (changed(b"".join(PARTS[:6]), b"V\t3", b"V\t2"), 1, ["the sheet has format 2"]),
    "format 1, as it was": (b"V\t1\t2017-02-20\t4\t5000\nQ\t0\tP\t2500\t2489\t2444\t44\t56\t44\t0\t2488\n", 1,
                            ["the sheet has format 1"]),
    "lines of format 1": (changed(EXAMPLE_SHEET, b"2488\t0\t0\t0", b"2488"), 2, ["this is no line of a sheet"]),
    "Windows line ends": (EXAMPLE_SHEET.replace(b"\n", b"\r\n"), 1, ["no sheet begins here", "Windows line ends"]),
    "Windows line end below": (EXAMPLE_SHEET[:-1] + b"\r\n", 82, ["this is no line of a sheet", "Windows line ends"]),
    "UTF-16": (EXAMPLE_SHEET.decode().encode("utf-16"), 1, ["UTF-16"]),
    "cut off after a line": (b"".join([HEAD, *MIDDLE]), 5,
                             ["is cut off after this line", "a sheet ends with its carry block, or in a line R"]),
    "cut off after V": (HEAD, 1, ["the sheet is cut off after this line"]),
    "cut off in a line": (EXAMPLE_SHEET[:100], 3, ["the sheet is cut off in this line", "line 3 (no line end)"]),
    "cut off in V": (HEAD[:12], 1, ["the sheet is cut off in this line"]),
    "cut off before the last line end": (EXAMPLE_SHEET[:-1], 82, ["the sheet is cut off in this line",
                                                                  "the carry block has 74 of 75 lines B"]),
    "cut off after T": (b"".join(PARTS[:6]), 6, ["is cut off after this line", "the carry block has no line O"]),
    "cut off in O": (b"".join(PARTS[:7])[:-3], 7, ["is cut off in this line", "the carry block has no line O"]),
    "cut off after O": (b"".join(PARTS[:7]), 7, ["is cut off after this line", "has 0 of 75 lines B"]),
    "cut off in the block": (b"".join(PARTS[:-3]), 79, ["is cut off after this line", "has 72 of 75 lines B"]),
    "cut off in the block, and another": (b"".join(PARTS[:-3]) + EXAMPLE_SHEET, 80,
                                          ["a line B comes next: the carry block has 72 of 75 lines B"]),
    "no block, and another": (b"".join(PARTS[:6]) + EXAMPLE_SHEET, 7,
                              ["a line O comes next: the carry block has no line O"]),
    "no O": (b"".join([*PARTS[:6], *PAST]), 7, ["a line O comes next: the carry block has no line O"]),
    "two O": (b"".join([*PARTS[:7], *PARTS[6:]]), 8, ["a line B comes next: the carry block has 0 of 75 lines B"]),
    "a B too many": (EXAMPLE_SHEET + PAST[0], 83, ["a line too many: the carry block has 75 of 75 lines B"]),
    "a block for another interval": (changed(EXAMPLE_SHEET, b"\t4\t5000", b"\t3\t5000"), 82,
                                     ["is cut off after this line", "the carry block has 75 of 100 lines B"]),
    "a block before T": (b"".join([HEAD, *MIDDLE, BOUNDS, TOTAL]), 6, ["the carry block stands after T"]),
    "a block alone": (BOUNDS + b"".join(PAST), 1, ["a sheet begins with a line V"]),
    "T twice": (b"".join([*PARTS[:6], TOTAL]), 7, ["a line O comes next: the carry block has no line O"]),
    "a refusal after T": (b"".join(PARTS[:6]) + b"R\t9\t14\n", 7, ["a line O comes next"]),
    "a refusal in the block": (b"".join(PARTS[:9]) + b"R\t9\t14\n", 10, ["the carry block has 2 of 75 lines B"]),
    "a bound with a decimal": (changed(EXAMPLE_SHEET, b"O\t54000000", b"O\t54000000,0"), 7, ["no line of a sheet"]),
    "one bound": (changed(EXAMPLE_SHEET, b"O\t54000000\t54000000", b"O\t54000000"), 7, ["no line of a sheet"]),
    "a bound of 12 digits": (changed(EXAMPLE_SHEET, b"O\t54000000", b"O\t540000000000"), 7, ["no line of a sheet"]),
    "a past setpoint with a sign": (EXAMPLE_SHEET[:-len(PAST[0])] + b"B\t+10000\n", 82, ["no line of a sheet"]),
    "a past setpoint that is none": (EXAMPLE_SHEET + b"B\tx\n", 83, ["no sheet begins here", "as settle prints it"]),
    "cut off, and another": (b"".join([HEAD, *MIDDLE, EXAMPLE_SHEET]), 6, ["another sheet begins here"]),
    "no V": (EXAMPLE_SHEET[len(HEAD):], 1, ["a sheet begins with a line V"]),
    "T alone": (TOTAL, 1, ["a sheet begins with a line V"]),
    "no quarter hour": (HEAD + TOTAL, 2, ["T counts 1 quarter hour, and the sheet has 0"]),
    "none counted": (HEAD + b"T\t0\t0\t0\n", 2, ["the first quarter hour comes before T"]),
    "K before Q": (HEAD + MIDDLE[1], 2, ["a line Q comes before the first line K"]),
    "no Q of N": (b"".join([HEAD, *MIDDLE[:-1], TOTAL]), 5, ["the line Q of quarter hour 0, N is missing"]),
    "no Q of N before R": (b"".join([HEAD, *MIDDLE[:-1], b"R\t9\t14\n"]), 5, ["quarter hour 0, N is missing"]),
    "Q of P missing": (HEAD + MIDDLE[-1] + TOTAL, 2, ["the next line Q is that of quarter hour 0, P"]),
    "T alone, with its block": (b"".join(PARTS[5:]), 1, ["a sheet begins with a line V"]),
    "quarter hours out of order": (changed(SHARPEST_SHEET, b"Q\t2\tP", b"Q\t3\tP"), 134,
                                   ["the next line Q is that of quarter hour 2, P"]),
    "K of another quarter hour": (changed(SHARPEST_SHEET, b"K\t1\tN\tNA", b"K\t0\tN\tNA"), 102,
                                  ["below the line Q of quarter hour 1, N stand its own lines K alone"]),
    "a 33rd contract": (changed(SHARPEST_SHEET, b"Q\t0\tN", b"K\t0\tP\tmore\t1\t1\t1\t0\t0\t0\t1\t1\t0\nQ\t0\tN"), 35,
                        ["no direction has more than 32 contracts"]),
    "T counts another number": (changed(EXAMPLE_SHEET, b"T\t1", b"T\t96"), 6,
                                ["T counts 96 quarter hours, and the sheet has 1"]),
    "an energy below 0": (changed(EXAMPLE_SHEET, b"2489", b"-2489"), 2, ["this is no line of a sheet"]),
    "a decimal": (changed(EXAMPLE_SHEET, b"2489", b"2489,0"), 2, ["this is no line of a sheet", "2489,0"]),
    "a leading zero": (changed(EXAMPLE_SHEET, b"2489", b"02489"), 2, ["this is no line of a sheet"]),
    "a field too many": (changed(EXAMPLE_SHEET, b"7904\t0", b"7904\t0\t0"), 4, ["this is no line of a sheet"]),
    "a blank line below": (EXAMPLE_SHEET + b"\n", 83, ["no sheet begins here", "line 83 is empty"]),
    "a blank line within": (changed(EXAMPLE_SHEET, b"Q\t0\tN", b"\nQ\t0\tN"), 5, ["this is no line of a sheet"]),
}


class NoSheets(Explained):
    """What is no sheet, or not a whole one, is said with the line that shows it; nothing of that sheet is printed."""

    def test_each(self):
        for name, (data, line, words) in NO_SHEETS.items():
            with self.subTest(name):
                answer = self.explained(data)
                self.assertEqual(answer.returncode, TROUBLE)
                first, *rest = answer.stderr.splitlines()
                self.assertTrue(first.startswith(f"fireboxer: a.sheet, line {line}: "), first)
                for word in words:
                    self.assertIn(word, answer.stderr)
                self.assertTrue(rest[-1].startswith("  to mend it: "), rest)
                self.assertTrue(all(sign.isprintable() or sign == "\n" for sign in answer.stderr), answer.stderr)
                before = data[:len(EXAMPLE_SHEET)] == EXAMPLE_SHEET
                self.assertEqual(answer.stdout != b"", before)

    def test_every_cut(self):
        # from the third setpoint of the block on, all goes by its line alone
        for length in (*range(len(b"".join(PARTS[:9]))), *range(len(EXAMPLE_SHEET) - 20, len(EXAMPLE_SHEET))):
            self.file("cut", EXAMPLE_SHEET[:length])
            with Input(str(self.folder / "cut")) as source, self.assertRaises(printed.NoSheet):
                list(printed.read(source))

    def test_blocks_of_any_size(self):
        self.file("two", EXAMPLE_SHEET + REST_SHEET)
        for size in (*range(1, 60), 1 << 16):
            with unittest.mock.patch("desk.inputs.BLOCK", size), Input(str(self.folder / "two")) as source:
                sheets = list(printed.read(source))
            self.assertEqual([(sheet.first, sheet.last.number) for sheet in sheets], [(1, 82), (83, 164)])
            self.assertEqual([len(sheet.parts[0].lines) for sheet in sheets], [2, 2])
            self.assertEqual([sheet.block[0].number for sheet in sheets], [7, 89])

    def test_blocks_of_each_interval(self):
        for interval, past in ((b"1", 301), (b"3", 100), (b"4", 75)):
            lines = [HEAD.replace(b"\t4\t", b"\t" + interval + b"\t"), *MIDDLE, TOTAL,
                     b"O\t10800000000\t-10800000000\n", *[b"B\t-2000000\n"] * past]
            self.assertEqual(self.explained(b"".join(lines)).returncode, ACCEPTED)
            self.assertEqual(self.explained(b"".join(lines[:-1])).returncode, TROUBLE)
            self.assertEqual(self.explained(b"".join([*lines, lines[-1]])).returncode, TROUBLE)


class Words(FrontEnd):
    """Misuse and help."""

    def test_misuse(self):
        for words in (["-x"], ["-", "-"], ["--separator", ","], ["--csv", "--separator", "x"], ["--table"], ["--al"]):
            answer = self.call("explain", *words)
            self.assertEqual((answer.returncode, answer.stdout), (TROUBLE, b""), words)
            self.assertTrue(answer.stderr.startswith("fireboxer: "), answer.stderr)
            self.assertEqual(answer.stderr.count("\n"), 1, answer.stderr)

    def test_help(self):
        for words in (["explain", "--help"], ["help", "explain"]):
            answer = self.call(*words)
            self.assertEqual((answer.returncode, answer.stderr), (ACCEPTED, ""))
            for part in (endings.table(), differences.NOTE):
                self.assertIn(part, answer.stdout.decode())
        self.assertIn("  explain         say where", self.call("help").stdout.decode())

    def test_readme(self):
        text = (ROOT / "README.md").read_text(encoding="utf-8")
        printed_page = self.call("explain", "examples/sharpest.sheet", cwd=ROOT).stdout.decode()
        listing = "".join(f"    {line}".rstrip() + "\n" for line in printed_page.splitlines())
        self.assertIn("    ./fireboxer explain examples/sharpest.sheet\n\n" + listing, text)
