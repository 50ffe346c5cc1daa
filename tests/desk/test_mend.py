"""Recordings: mended as the proved program does it, put into inputs that settle, and refused in words."""
import os
import random

from common import CONTRACTS, HEADER, ROOT, FrontEnd, lines, program

from desk import messages, programs, refusals
from desk.inputs import Input

ARCHIVE = ROOT / "examples" / "archive.txt"
MARKS = ROOT / "examples" / "archive.marks"
LIST = ROOT / "examples" / "contracts.txt"

# one line for each sample of a quarter hour at an interval of 4 seconds; its place is the actual
LINES = [f"G\t{4 * place}\t10000\t{place}" for place in range(225)]
SAMPLES = [f"S\t10000\t{place}" for place in range(225)]
WHOLE = lines(HEADER, LINES, "E")
# samples 10 and 11 are missing, that of second 48 comes twice, and one line has a second between two samples
HOLED = lines(HEADER, LINES[:10], LINES[12], LINES[12], "G\t49\t0\t0", LINES[13:], "E")
HOLED_SAMPLES = [*SAMPLES[:10], SAMPLES[9], SAMPLES[9], *SAMPLES[12:]]


def without(first, count):
    """the lines of the archive without so many of them"""
    return LINES[:first] + LINES[first + count:]


# name: recording, number, line, words of the message
GROUNDS = {
    "1 no header": (lines(LINES), 1, 1, ["this one begins with G", "put the D line first"]),
    "1 second header": (lines(HEADER, LINES[:3], HEADER), 1, 5, ["a second header", "a recording of its own"]),
    "2": (lines("D\t2017-02-20\t2\t-\t1"), 2, 1, ["field 3 (interval in seconds): 2", "write 1, 3 or 4"]),
    "3": (lines("D\t2017-02-20\t4\t0\t1"), 3, 1, ["field 4 (lot in kW): 0"]),
    "4": (lines("D\t2017-02-29\t4\t-\t1"), 4, 1, ["does not exist", "month 2017-02 has no day 29"]),
    "5": (lines("D\t2017-02-20\t4\t-\t101"), 5, 1, ["field 5 (number of quarter hours): 101"]),
    "13 setpoint": (lines(HEADER, LINES[:3], "G\t12\t2000001\t0"), 13, 5, ["field 3 (setpoint in kW): 2000001"]),
    "13 actual": (lines(HEADER, LINES[:3], "G\t12\t0\t-2000001"), 13, 5, ["field 4 (actual in kW): -2000001"]),
    "13 of a line that is dropped": (lines(HEADER, "G\t-1\t2000001\t0"), 13, 2, ["field 3 (setpoint in kW)"]),
    "14": (lines(HEADER, LINES[:3], "Y"), 14, 5, ["Y begins no line", "begin the line with D, G or E and a tab"]),
    "14 second": (lines(HEADER, "G\t00:00:04\t0\t0"), 14, 2, ["field 2 (second): 00:00:04", "no whole number"]),
    "14 fields": (lines(HEADER, "G\t0\t0"), 14, 2,
        ["too few fields: 3, and 4 are wanted", "G<TAB>second<TAB>setpoint<TAB>actual"]),
    "14 an input": (lines(HEADER, SAMPLES), 14, 2, ["S begins a line of an input, not of a recording"]),
    "14 a sheet": (lines("V\t3\t2017-02-20\t4\t5000"), 14, 1, ["V begins a line of a sheet, not of a recording"]),
    "14 semicolons": (WHOLE.replace(b"\t", b";"), 14, 1, ["semicolons for tabs"]),
    "14 Windows line ends": (WHOLE.replace(b"\n", b"\r\n"), 14, 1, ["Windows line ends"]),
    "15 empty": (b"", 15, 1, ["the input is empty"]),
    "15 no end": (WHOLE[:-2], 15, 227, ["the recording ends after second 896", "echo E >>FILE"]),
    "15 cut in a line": (WHOLE[:500], 15, 36, ["ends after second 132: it may be cut off"]),
    "15 nothing recorded": (lines(HEADER), 15, 2, ["ends before the first line of the archive"]),
    "15 end without line end": (WHOLE[:-1], 15, 227, ["the last line says E and has no line end"]),
    "19 nothing recorded": (lines(HEADER, "E"), 19, 2, ["the recording ends here, and no line for second 0"]),
    "19 a later second": (lines(HEADER, LINES[1:]), 19, 2,
        ["field 2 (second): 4", "it has second 4, and no line for second 0 stands before it", "the start of the"]),
    "19 after a dropped one": (lines(HEADER, "G\t-4\t0\t0", "G\t1\t0\t0", LINES[2:]), 19, 4, ["it has second 8"]),
    "20": (lines(HEADER, without(100, 16), "E"), 20, 102,
        ["field 2 (second): 464", "this line has second 464, and the last good line before it, line 101, has second "
         "396: 16 samples of 4 s are missing, 64 seconds", "get the missing lines"]),
    "20 after a dropped one": (lines(HEADER, LINES[:5], "G\t17\t0\t0", LINES[30:]), 20, 8, ["line 6, has second 16"]),
    "20 at the end": (lines(HEADER, LINES[:-16], "E"), 20, 211,
        ["the last sample is that of second 896, and the last good line before it, line 210, has second 832"]),
    "21": (lines(HEADER, LINES[:3], LINES[1]), 21, 5,
        ["second 4 after second 8 of line 4", "the order of their seconds"]),
    "21 after one past the end": (lines(HEADER, LINES[:3], "G\t900\t0\t0", LINES[3]), 21, 6,
        ["second 12 after second 900 of line 5"]),
}


class Mended(FrontEnd):
    """What is printed for a recording that is accepted."""

    def mends(self, answer, data, name, count):
        self.assertEqual((answer.returncode, answer.stdout), (0, program(data, "mend")))
        self.assertEqual(answer.stderr, f"fireboxer: {name}: {count}\n")

    def test_whole(self):
        self.file("a.txt", WHOLE)
        answer = self.call("mend", "a.txt")
        self.mends(answer, WHOLE, "a.txt", "225 good, 0 filled, 0 repeated, 0 dropped")
        self.assertEqual(answer.stdout, lines(SAMPLES))

    def test_holes(self):
        self.file("a.txt", HOLED)
        answer = self.call("mend", "a.txt")
        self.mends(answer, HOLED, "a.txt", "223 good, 2 filled, 1 repeated, 1 dropped")
        self.assertEqual(answer.stdout, lines(SAMPLES[:10], "X\t40\tM", SAMPLES[9], "X\t44\tM", SAMPLES[9], SAMPLES[12],
                                              "X\t48\tT", "X\t49\tO", SAMPLES[13:]))

    def test_a_day(self):
        counted = "85,742 good, 658 filled, 128 repeated, 6 dropped"
        answer = self.call("mend", ARCHIVE)
        self.mends(answer, ARCHIVE.read_bytes(), ARCHIVE, counted)
        marks = [line for line in answer.stdout.splitlines(True) if line.startswith(b"X")]
        self.assertEqual(b"".join(marks), MARKS.read_bytes())
        readme = (ROOT / "README.md").read_text(encoding="utf-8")
        self.assertTrue(f"    fireboxer: examples/archive.txt: {counted}\n" in readme)

    def test_standard_input(self):
        for words in (["mend"], ["mend", "-"]):
            self.mends(self.call(*words, input=HOLED), HOLED, "standard input",
                       "223 good, 2 filled, 1 repeated, 1 dropped")

    def test_file_is_whole(self):
        self.file("a.txt", HOLED)
        answer = self.call("mend", "a.txt", "-o", "a.mended")
        self.assertEqual((answer.returncode, answer.stdout), (0, b""))
        self.assertEqual((self.folder / "a.mended").read_bytes(), program(HOLED, "mend"))
        self.assertEqual(sorted(os.listdir(self.folder)), ["a.mended", "a.txt"])

    def test_what_follows_the_end_is_told(self):
        answer = self.call("mend", input=WHOLE + b"G\n")
        self.assertEqual((answer.returncode, answer.stdout), (0, lines(SAMPLES)))
        self.assertIn("more follows the end line (line 227)", answer.stderr)

    def test_a_pipe_that_stays_open_is_not_waited_for(self):
        for data, status in ((lines(HEADER, "Y"), 1), (WHOLE, 0)):
            process = self.start("mend")
            process.stdin.write(data)
            process.stdin.flush()
            self.assertEqual(process.wait(timeout=10), status)
            process.communicate()


class Into(FrontEnd):
    """A recording and contracts to an input that settles."""

    def setUp(self):
        super().setUp()
        self.file("a.txt", HOLED)
        self.file("contracts.txt", lines(CONTRACTS))

    def test_input(self):
        answer = self.call("mend", "--into", "contracts.txt", "a.txt")
        wanted = lines(HEADER, CONTRACTS, HOLED_SAMPLES, "E")
        self.assertEqual((answer.returncode, answer.stdout), (0, wanted))
        self.assertEqual(answer.stderr, "fireboxer: a.txt: 223 good, 2 filled, 1 repeated, 1 dropped\n")
        self.assertEqual(self.call("settle", input=wanted).returncode, 0)
        self.call("mend", "a.txt", "--into", "contracts.txt", "-o", "day.txt")
        self.assertEqual((self.folder / "day.txt").read_bytes(), wanted)

    def test_a_day_in_a_pipe(self):
        answer = self.call("-c", f'"{ROOT}/fireboxer" mend --into "{LIST}" "{ARCHIVE}" | "{ROOT}/fireboxer" settle',
                           command="bash")
        self.assertEqual(answer.returncode, 0)
        self.assertIn(b"\nT\t96\t", answer.stdout)
        self.assertEqual(answer.stdout.count(b"\nK\t"), 96 * 16)

    def test_no_contracts(self):
        self.file("none.txt", b"")
        self.assertEqual(self.call("mend", "--into", "none.txt", "a.txt").stdout, lines(HEADER, HOLED_SAMPLES, "E"))

    def test_a_list_without_its_last_line_end(self):
        self.file("contracts.txt", lines(CONTRACTS)[:-1])
        answer = self.call("mend", "--into", "contracts.txt", "a.txt")
        self.assertEqual(answer.stdout, lines(HEADER, CONTRACTS, HOLED_SAMPLES, "E"))

    def test_other_lines_are_no_contracts(self):
        for bad, line in ((HEADER, 1), ("", 3), ("S\t0\t0", 3)):
            self.file("contracts.txt", lines(bad, CONTRACTS) if line == 1 else lines(CONTRACTS, bad))
            answer = self.call("mend", "--into", "contracts.txt", "a.txt")
            self.assertEqual((answer.returncode, answer.stdout), (2, b""))
            self.assertIn(f"contracts.txt, line {line}: this is no contract", answer.stderr)

    def test_refused_prints_nothing(self):
        self.file("a.txt", lines(HEADER, LINES[:3], "E"))
        answer = self.call("mend", "--into", "contracts.txt", "a.txt")
        self.assertEqual((answer.returncode, answer.stdout), (1, b""))
        self.assertIn("a.txt, line 5: refusal 20", answer.stderr)

    def test_misuse(self):
        for words, said in ((["-", "--into", "-"], "standard input can be read once only"),
                            (["a.txt", "--into", "nothing"], "nothing can't be read"),
                            (["nothing"], "nothing can't be read"), (["a.txt", "b.txt"], "see fireboxer help"),
                            (["a.txt", "-o", "a.txt"], "a.txt is an input, and would be written over"),
                            (["a.txt", "--into", "contracts.txt", "-o", "contracts.txt"], "would be written over"),
                            (["a.txt", "-o", "nowhere/b"], "can't be written")):
            answer = self.call("mend", *words)
            self.assertEqual((answer.returncode, answer.stdout), (2, b""), answer.stderr)
            self.assertIn(said, answer.stderr)
        self.assertEqual((self.folder / "a.txt").read_bytes(), HOLED)


class Refused(FrontEnd):
    """Every mistake is made in a file, and the message is read."""

    def test_each_ground(self):
        for name, (data, number, line, words) in GROUNDS.items():
            with self.subTest(name):
                self.file("bad.txt", data)
                answer = self.call("mend", "bad.txt")
                self.assertEqual((answer.returncode, answer.stdout), (1, program(data, "mend")))
                first, *rest = answer.stderr.splitlines()
                self.assertEqual(first, f"fireboxer: bad.txt, line {line}: refusal {number}: {refusals.ground(number)}")
                for word in words:
                    self.assertIn(word, answer.stderr)
                self.assertTrue(rest[-1].startswith("  to mend it: "), rest)
        self.assertEqual({case[1] for case in GROUNDS.values()}, {*range(1, 6), *range(13, 16), *range(19, 22)})

    def test_far_down(self):
        data = b"".join(ARCHIVE.read_bytes().splitlines(True)[:-12]) + b"E\n"
        for answer in (self.call("mend", self.file("a.txt", data)), self.call("mend", input=data)):
            self.assertEqual(answer.returncode, 0)
        answer = self.call("mend", input=data.replace(b"\nG\t80000\t", b"\nG\t70000\t"))
        self.assertIn("refusal 21", answer.stderr)
        self.assertIn("second 70,000 after second 79,999 of line", answer.stderr)

    def test_what_was_there_stays(self):
        self.file("bad.txt", lines(HEADER, "E"))
        self.file("a.mended", b"before")
        answer = self.call("mend", "bad.txt", "-o", "a.mended")
        self.assertEqual(answer.returncode, 1)
        self.assertIn("a.mended is not written, since the recording was refused", answer.stderr)
        self.assertEqual((self.folder / "a.mended").read_bytes(), b"before")
        self.assertEqual(sorted(os.listdir(self.folder)), ["a.mended", "bad.txt"])

    def test_damaged_recordings(self):
        chance = random.Random(3)
        for _ in range(200):
            path = self.folder / "bad.txt"
            path.write_bytes(self.damaged(chance))
            with Input(str(path)) as source:
                refused = programs.run("mend", source, lambda printed: None)
                if refused:
                    said = messages.refusal(source, refused, "mend")
                    self.assertIn(f"line {refused.line}: refusal {refused.number}: ", said)
                    self.assertTrue(all(sign.isprintable() or sign == "\n" for sign in said), said)

    def damaged(self, chance):
        parts = HOLED.decode().splitlines()
        for _ in range(chance.randint(1, 2)):
            place = chance.randrange(chance.choice([2, 8, len(parts)]))
            fields = parts[place].split("\t")
            odd = ["", "-", "0", "01", "D", "E", "-4", "ä", "\r", "1,5", "9" * chance.randint(1, 12)]
            fields[chance.randrange(len(fields))] = chance.choice(odd)
            parts[place] = chance.choice(["\t", "\t", "\t", ";", " "]).join(fields)
            if chance.random() < 0.3:
                start = chance.randrange(len(parts))
                del parts[start:start + chance.randint(1, 30)]
        data = "\n".join(parts).encode() + b"\n"
        return data[:chance.randrange(len(data))] if chance.random() < 0.2 else data
