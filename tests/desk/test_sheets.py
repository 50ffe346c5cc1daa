"""A sheet people can read, what follows the end line, and what is in an input."""
import csv
import io
import os
import re
import unittest

from common import (CONTRACTS, DAY, DAY_SHEET, EXAMPLE, EXAMPLE_SHEET, GOOD, HEADER, MONDAY, ROOT, SAMPLES, SUNDAY,
                    FrontEnd, lines)
from desk import sheets
from desk.endings import Trouble

REST = ROOT / "examples" / "rest.txt"
BOTH = lines(HEADER, "C\tP\tA1\t2000000\t9999999", "C\tN\tB1\t2000000\t-9999999",
             ["S\t2000000\t1000000"] * 100, ["S\t-2000000\t-1900000"] * 125, "E")


class Table(FrontEnd):
    """--table"""

    def test_example(self):
        answer = self.call("settle", "--table", EXAMPLE)
        self.assertEqual((answer.returncode, answer.stderr), (0, ""))
        text = answer.stdout.decode()
        for row in ("Settlement of 2017-02-20: 1 quarter hour, interval 4 s, minimum lot 5,000 kW",
                    "Positive (P): extra infeed", "Negative (N): extra offtake",
                    "In all: fees 15,404 cent, penalties 0 cent."):
            self.assertIn(row, text)
        rows = [line.split() for line in text.splitlines()]
        short = ["quarter", "SO", "IS", "AK", "ME", "MI", "ZU", "UN", "AB"]
        self.assertIn([*short, "rest", "of", "SO", "rest", "of", "IS", "rest", "of", "AK"], rows)
        pool, no_rest = ["pool", "2,500", "2,489", "2,444", "44", "56", "44", "0", "2,488"], ["0", "0", "0"]
        self.assertIn(["0", *pool, *no_rest], rows)
        self.assertIn(["0", "A2", "1,000", "989", "944", "56", "44", "0", "988", "7,904", "0"], rows)
        self.assertIn(["sum", *pool, "15,404", "0", *no_rest], rows)

    def test_rest(self):
        text = self.call("settle", "--table", REST).stdout.decode()
        self.assertIn("The rest is what lies above the awards of all contracts together", text)
        rows = [line.split() for line in text.splitlines()]
        pool, rest = ["pool", "3,250", "3,250", "3,250", "0", "0", "0", "0", "3,000"], ["250", "250", "250"]
        self.assertIn(["0", *pool, *rest], rows)
        self.assertIn(["0", "A2", "1,500", "1,500", "1,500", "0", "0", "0", "1,500", "12,000", "0"], rows)
        self.assertIn(["sum", *pool, "19,500", "0", *rest], rows)

    def test_aligned(self):
        self.file("both.txt", BOTH)
        for path in (DAY, "both.txt"):
            parts = self.call("settle", "--table", path).stdout.decode().split("\n\n")
            for part in parts[2], parts[4]:
                rule = next(line for line in part.splitlines() if line.startswith("---"))
                ends = [match.end() for match in re.finditer("-+", rule)]
                for line in part.splitlines():
                    # nothing stands in the two blanks between columns
                    self.assertTrue(all(line[end:end + 2].strip() == "" for end in ends), line)

    def test_sums_of_a_day_are_those_of_the_sheet(self):
        text = self.call("settle", "--table", DAY).stdout.decode()
        sums = [line.split() for line in text.splitlines() if line.split()[:1] == ["sum"]]
        rows = [line.split("\t") for line in DAY_SHEET.decode().splitlines()]
        for direction, told in zip("PN", sums):
            pool = [row for row in rows if row[0] == "Q" and row[2] == direction]
            contracts = [row for row in rows if row[0] == "K" and row[2] == direction]
            wanted = [sum(int(row[place]) for row in pool) for place in range(3, 11)]
            wanted += [sum(int(row[place]) for row in contracts) for place in (11, 12)]
            wanted += [sum(int(row[place]) for row in pool) for place in (11, 12, 13)]
            self.assertEqual(told[2:], [f"{number:,}" for number in wanted])
        # the day asks for more than is awarded, in one direction
        self.assertEqual([told[-3:] == ["0", "0", "0"] for told in sums], [False, True])

    def test_refused_gives_no_table(self):
        for form in ("--table", "--csv"):
            answer = self.call("settle", form, input=GOOD[:-1])
            self.assertEqual((answer.returncode, answer.stdout), (1, b""))


class Csv(FrontEnd):
    """--csv"""

    def rows(self, *words, delimiter=";", **options):
        answer = self.call("settle", "--csv", *words, **options)
        self.assertEqual((answer.returncode, answer.stderr), (0, ""))
        return list(csv.reader(io.StringIO(answer.stdout.decode()), delimiter=delimiter))

    def test_every_line_and_no_decimals(self):
        header, *rows = self.rows(DAY)
        self.assertEqual(header[:7], ["line", "day", "interval s", "lot kW", "quarter hour", "direction", "contract"])
        self.assertEqual(header[7:10], ["SO kWh", "IS kWh", "AK kWh"])
        self.assertEqual(header[14:], ["AB kWh", "fee cent", "penalty cent", "rest of SO kWh", "rest of IS kWh",
                                       "rest of AK kWh"])
        self.assertTrue(all(len(row) == len(header) for row in rows))
        sheet = [line.split("\t") for line in DAY_SHEET.decode().splitlines()]
        # the carry block is passed over
        self.assertEqual([line[0] for line in sheet[-76:]], ["O"] + ["B"] * 75)
        del sheet[-76:]
        self.assertEqual([row[0] for row in rows], [line[0] for line in sheet[1:]])
        for row, line in zip(rows, sheet[1:]):
            figures = [cell for cell in row[7:] if cell]
            self.assertEqual(figures, {"Q": line[3:], "K": line[4:], "T": line[2:]}[line[0]])
            self.assertEqual(row[1:4], ["2017-02-20", "4", "5000"])

    def test_rest_stands_last_and_on_pool_rows_alone(self):
        _, positive, first, second, negative, total = self.rows(REST)
        self.assertEqual(positive[-5:], ["", "", "250", "250", "250"])
        self.assertEqual(first[-5:], ["7500", "0", "", "", ""])
        self.assertEqual(second[-5:], ["12000", "0", "", "", ""])
        self.assertEqual(negative[-5:], ["", "", "0", "0", "0"])
        self.assertEqual(total[-5:], ["19500", "0", "", "", ""])

    def test_separator(self):
        self.assertEqual(self.rows("--separator", ",", EXAMPLE, delimiter=","), self.rows(EXAMPLE))

    def test_joined_has_one_header(self):
        rows = self.rows("--join", EXAMPLE, EXAMPLE)
        self.assertEqual([row[0] for row in rows], ["line"] + ["Q", "K", "K", "Q", "T"] * 2)

    def test_folder(self):
        self.assertEqual(self.call("settle", "--csv", EXAMPLE, "-o", ".").returncode, 0)
        self.assertEqual(self.call("settle", "--table", EXAMPLE, "-o", ".").returncode, 0)
        self.assertEqual(sorted(os.listdir(self.folder)), ["example.csv", "example.table"])


class Explained(FrontEnd):
    """What settle prints can be explained, joined or refused as it may be."""

    def test_from_a_pipe(self):
        answer = self.shell('"$fireboxer" settle --join "$example" "$day" | "$fireboxer" explain')
        self.assertEqual((answer.returncode, answer.stderr), (0, ""))
        names = re.findall(r"^standard input(.*), 2017-02-20", answer.stdout.decode(), re.M)
        self.assertEqual(names, ["", " from line 83"])

    def test_refused(self):
        for data in (b"", GOOD[:1000], GOOD[:-2]):
            sheet = self.call("settle", input=data).stdout
            answer = self.call("explain", input=sheet)
            self.assertEqual(answer.returncode, 1)
            self.assertIn("the sheet ends in a refusal", answer.stderr)


class Format(unittest.TestCase):
    """A sheet of another format would have its figures in other columns."""

    def test_format(self):
        self.assertEqual(sheets.read(EXAMPLE_SHEET).quarters, 1)
        for other in (b"V\t1\t", b"V\t2\t", b"V\t33\t"):
            with self.assertRaisesRegex(Trouble, "only format 3 is read here"):
                sheets.read(EXAMPLE_SHEET.replace(b"V\t3\t", other))

    def test_block_is_passed_over(self):
        without = EXAMPLE_SHEET[:EXAMPLE_SHEET.index(b"O\t")]
        self.assertEqual(sheets.read(EXAMPLE_SHEET), sheets.read(without))


class AfterEnd(FrontEnd):
    """What follows the end line is not read, and that is said."""

    def test_said(self):
        words = ": more follows the end line (line 229), and is not read"
        self.file("two.txt", GOOD + GOOD)
        answer = self.call("settle", "two.txt")
        self.assertEqual((answer.returncode, answer.stderr.count("\n")), (0, 1))
        self.assertIn(f"two.txt{words}", answer.stderr)
        self.assertIn(f"standard input{words}", self.call("settle", input=GOOD + b"\n").stderr)
        answer = self.shell('(cat "$example"; sleep 0.05; echo) | "$fireboxer" settle')
        self.assertIn(f"standard input{words}", answer.stderr)

    def test_a_long_rest_in_a_pipe(self):
        answer = self.shell('(cat "$day"; yes) | "$fireboxer" settle')
        self.assertEqual((answer.returncode, answer.stdout), (0, DAY_SHEET))
        self.assertIn("more follows the end line (line 21618)", answer.stderr)

    def test_nothing_follows(self):
        self.assertEqual(self.call("settle", input=GOOD).stderr, "")


class Inspect(FrontEnd):
    """inspect"""

    def test_accepted(self):
        answer = self.call("inspect", DAY)
        self.assertEqual((answer.returncode, answer.stderr), (0, ""))
        text = answer.stdout.decode()
        for words in ("accepted", "2017-02-20", "4 s, 225 samples a quarter hour",
                      "5,000 kW (the header has -, the usual lot)", "P: 8 (SRL-A1, ", "82,243 kW awarded",
                      "start      no carry block: as if the first setpoint had always stood",
                      "-1,980 to 8,945 cent per MWh", "samples    21,600", "1,440 minutes, 96 quarter hours",
                      "line 21,618"):
            self.assertIn(words, text)
        self.assertNotIn("\nQ", text)

    def test_lot_of_the_header_and_no_contract(self):
        text = self.call("inspect", input=lines("D\t2017-02-20\t4\t1000\t1", SAMPLES, "E", "E")).stdout.decode()
        for words in ("1,000 kW (from the header)", "P: none", "N: none", "15 minutes, 1 quarter hour\n",
                      "more follows that is not read"):
            self.assertIn(words, text)

    def test_block(self):
        text = self.call("inspect", MONDAY).stdout.decode()
        self.assertIn("start      a carry block on lines 2 to 77: OGA 54,000,000 and UGA 14,000,000 units\n", text)
        self.assertIn("samples    225\n", text)

    def test_one_contract(self):
        text = self.call("inspect", input=lines(HEADER, CONTRACTS[0], SAMPLES, "E")).stdout.decode()
        self.assertIn("P: 1 (A1), 6,000 kW awarded, 5,000 cent per MWh", text)


class Readme(FrontEnd):
    """The README's listings and messages are those that a run gives."""

    def setUp(self):
        super().setUp()
        self.text = (ROOT / "README.md").read_text(encoding="utf-8")

    def test_sheets(self):
        without_block = re.sub(rb"[OB]\t.*\n", b"", MONDAY.read_bytes())
        printed = self.call("settle", "--join", EXAMPLE, ROOT / "examples" / "negative.txt", REST, MONDAY, "-",
                            input=without_block).stdout
        shown = re.findall(r"^    ([VQKT]\|\S*)", self.text, re.M)
        self.assertEqual(len(shown), 14)
        self.assertLessEqual(set(shown), set(printed.decode().replace("\t", "|").splitlines()))

    def test_block(self):
        shown = re.findall(r"^    ([OB]\|\S*)", self.text, re.M)
        sunday, example = (self.call("settle", path).stdout.decode().replace("\t", "|") for path in (SUNDAY, EXAMPLE))
        for sheet, (bounds, *past), counts in ((sunday, shown[:3], (50, 25)), (example, shown[3:], (75,))):
            setpoints = "".join(f"{line}\n" * count for line, count in zip(past, counts))
            self.assertTrue(sheet.endswith(f"\n{bounds}\n{setpoints}"))

    def test_message(self):
        self.file("day.txt", lines(HEADER, CONTRACTS[0], "C\tP\tA2\t6000\t80,00"))
        said = self.call("settle", "day.txt").stderr
        self.assertIn("".join(f"    {line}\n" for line in said.splitlines()), self.text)
