"""The operator's shares: behind an input or in a file of their own, with the proved verdict, in words, and refused."""
import random

from common import BLOCK, ROOT, FrontEnd, lines, program

from desk import messages, programs, refusals
from desk.behind import Behind

GAPS, OPERATOR, ROWS = (ROOT / "examples" / name for name in ("gaps.txt", "operator.txt", "operator.csv"))
INPUT = GAPS.read_bytes()
HEADER, *_ = INPUT.decode().splitlines()
# ours are 0, 18, 17 and 9, the gaps 0, 28, 28 and 14, and 44 kWh are handed out
SHARES = ["U\t0\tP\tA1\t0", "U\t0\tP\tA2\t17", "U\t0\tP\tA3\t18", "U\t0\tP\tA4\t9"]
HOLD = ": the shares of 1 quarter hour hold\n"


def behind(*shares):
    """the input with shares behind it"""
    return INPUT + lines(*shares)


def given(*shares):
    """the input with these shares for A1 to A4"""
    return behind([f"U\t0\tP\tA{number}\t{share}" for number, share in enumerate(shares, 1)])


# name: input with shares, number, line, words of the message
GROUNDS = {
    "1 U first": (lines(SHARES), 1, 1, ["this one begins with U", "put the D line first"]),
    "1 a sample too many": (lines(INPUT.decode().splitlines()[:-1], "S\t0\t0", "E"), 1, 231, ["sample 226 of 225"]),
    "1 E twice": (behind("E"), 1, 232, ["a line E after E, where U lines alone stand", "take the line out"]),
    "1 a header behind": (behind(SHARES, HEADER), 1, 236, ["a line D after E"]),
    "1 a sample behind": (behind(SHARES[:2], "S\t0\t0"), 1, 234, ["a line S after E"]),
    "7 identifier": (behind(SHARES[:1], "U\t0\tP\tA_2\t0"), 7, 233,
        ["field 4 (identifier): A_2", "the sign _ is in it"]),
    "7 of a contract": (lines(HEADER, "C\tP\tA_2\t1\t1"), 7, 2, ["field 3 (identifier): A_2"]),
    "14 fields": (behind("U\t0\tP\tA1"), 14, 232,
        ["too few fields: 4, and 5 are wanted", "U<TAB>quarter hour<TAB>direction<TAB>identifier<TAB>share"]),
    "14 share": (behind("U\t0\tP\tA1\t0,5"), 14, 232, ["field 5 (share in kWh): 0,5", "a decimal comma"]),
    "14 letter": (behind("Y"), 14, 232, ["Y begins no line", "D, O, B, C, S, E or U"]),
    "14 a sheet": (behind("K\t0\tP\tA1\t0\t0"), 14, 232, ["K begins a line of a sheet, not of an input with shares"]),
    "15": (INPUT[:-2], 15, 231, ["all samples are there, and no line E follows"]),
    "17": (lines(HEADER, BLOCK[:9], SHARES), 17, 11, ["8 of 75 B lines"]),
    "22 none": (INPUT, 22, 232, ["the next share is that of quarter hour 0, P, A1, and no line follows"]),
    "22 the last is missing": (behind(SHARES[:3]), 22, 235, ["quarter hour 0, P, A4, and no line follows"]),
    "22 the last has no line end": (behind(SHARES)[:-1], 22, 235, ["quarter hour 0, P, A4, and no line follows"]),
    "22 surplus": (behind(SHARES, SHARES[3]), 22, 236, ["all shares are there: 4 U lines", "there twice"]),
    "22 out of order": (behind(SHARES[1::-1], SHARES[2:]), 22, 232, ["the next share is that of quarter hour 0, P"]),
    "22 another quarter hour": (behind("U\t1\tP\tA1\t0"), 22, 232, ["the next share is that of quarter hour 0, P, A1"]),
    "22 before E": (lines(HEADER, SHARES), 22, 2, ["a share before E", "put the U lines behind it"]),
}


class Verdicts(FrontEnd):
    """Shares that hold, and shares that do not."""

    def test_accepted(self):
        for words, name in (([OPERATOR], OPERATOR), ([GAPS, ROWS], ROWS)):
            answer = self.call("shares", *words)
            self.assertEqual((answer.returncode, answer.stdout), (0, b"A\t1\n"))
            self.assertEqual(answer.stderr, f"fireboxer: {name}{HOLD}")
        self.assertEqual(OPERATOR.read_bytes(), behind(SHARES))
        for words in ([], ["-"]):
            answer = self.call("shares", *words, input=behind(SHARES))
            self.assertEqual((answer.returncode, answer.stdout, answer.stderr),
                             (0, b"A\t1\n", f"fireboxer: standard input{HOLD}"))

    def test_what_does_not_hold(self):
        cases = {
            (0, 18, 18, 9): ["they sum to 45 kWh, and 44 kWh are handed out: 1 kWh too much"],
            (0, 17, 17, 9): ["they sum to 43 kWh, and 44 kWh are handed out: 1 kWh too little"],
            (0, 19, 16, 9): ["A2 (line 233): 19 kWh, and its part is 28 × 44 / 70 = 17.60 kWh: 1.40 kWh from it",
                             "A3 (line 234): 16 kWh, and its part is 28 × 44 / 70 = 17.60 kWh: 1.60 kWh from it"],
            (1, 17, 17, 9): ["A1 (line 232): 1 kWh, and its gap is 0 kWh: 1 kWh above it"],
            (-1, 18, 18, 9): ["A1 (line 232): -1 kWh, and no share is below 0"],
        }
        for shares, words in cases.items():
            data = given(*shares)
            answer = self.call("shares", input=data)
            self.assertEqual((answer.returncode, answer.stdout), (6, program(data, "checker")))
            first, *rest, last = answer.stderr.splitlines()
            self.assertEqual(first, "fireboxer: standard input: the shares of quarter hour 0, P do not hold")
            self.assertEqual(len(rest), len(words), rest)
            for word in words:
                self.assertIn(word, answer.stderr)
            self.assertEqual(last, "  to mend it: ask the operator how the surplus was shared; our shares are "
                             "A1 0, A2 18, A3 17, A4 9 kWh")

    def test_the_readme_shows_it(self):
        self.file("operator.csv", ROWS.read_bytes().replace(b"A2;17", b"A2;19").replace(b"A3;18", b"A3;16"))
        self.file("gaps.txt", INPUT)
        said = self.call("shares", "gaps.txt", "operator.csv").stderr
        readme = (ROOT / "README.md").read_text(encoding="utf-8")
        self.assertTrue(all(f"    {line}\n" in readme for line in said.splitlines()), said)

    def test_the_first_that_does_not_hold(self):
        two = lines("D\t2017-02-20\t4\t-\t2", INPUT.decode().splitlines()[1:-1] + ["C\tN\tB1\t1\t1"])
        two = two.replace(b"C\tN\tB1\t1\t1\n", b"").replace(b"S\t", b"C\tN\tB1\t1\t1\nS\t", 1)
        two += lines(["S\t10000\t9500"] * 225, "E")
        quarters = [[share.replace("U\t0", f"U\t{quarter}") for share in shares]
                    for quarter, shares in ((0, SHARES), (1, [share[:share.rindex("\t")] + "\t0" for share in SHARES]))]
        none = ["U\t0\tN\tB1\t0", "U\t1\tN\tB1\t0"]
        good = two + lines(quarters[0], none[0], quarters[1], none[1])
        self.assertEqual(self.call("shares", input=good).stdout, b"A\t2\n")
        bad = two + lines(quarters[0], "U\t0\tN\tB1\t1", quarters[1], "U\t1\tN\tB1\t-1")
        answer = self.call("shares", input=bad)
        self.assertEqual((answer.returncode, answer.stdout), (6, b"F\t0\tN\n"))
        self.assertIn("B1 (line 462): 1 kWh, and its gap is 0 kWh: 1 kWh above it", answer.stderr)
        bad = two + lines(quarters[0], none[0], quarters[1], "U\t1\tN\tB1\t-1")
        answer = self.call("shares", input=bad)
        self.assertEqual((answer.returncode, answer.stdout), (6, b"F\t1\tN\n"))
        self.assertIn("B1 (line 467): -1 kWh, and no share is below 0", answer.stderr)

    def test_our_own_shares_of_a_day(self):
        day = ROOT / "examples" / "day.txt"
        sheet = (ROOT / "examples" / "day.sheet").read_text().splitlines()
        rows = [line.split("\t") for line in sheet if line.startswith("K")]
        own = lines([";".join([*row[1:4], row[8]]) for row in rows])
        answer = self.call("shares", day, self.file("own.csv", own))
        self.assertEqual((answer.returncode, answer.stdout), (0, b"A\t96\n"))
        shared = next(place for place, row in enumerate(rows) if row[8] != "0")
        off = rows[:shared] + [[*rows[shared][:8], str(int(rows[shared][8]) + 1)]] + rows[shared + 1:]
        off = lines([";".join([*row[1:4], row[8]]) for row in off])
        answer = self.call("shares", day, self.file("own.csv", off))
        self.assertEqual((answer.returncode, answer.stdout), (6, "F\t{}\t{}\n".format(*rows[shared][1:3]).encode()))
        self.assertIn("1 kWh too much", answer.stderr)


class Files(FrontEnd):
    """The shares in a file of their own."""

    def accepts(self, rows):
        answer = self.call("shares", GAPS, self.file("rows.csv", rows))
        self.assertEqual((answer.returncode, answer.stdout), (0, b"A\t1\n"))
        self.assertEqual(answer.stderr, f"fireboxer: rows.csv{HOLD}")

    def test_forms(self):
        rows = ROWS.read_bytes()
        bare = rows.partition(b"\n")[2]
        for data in (rows, bare, bare[:-1], bare.replace(b";", b","), bare.replace(b";", b"\t"), lines(SHARES),
                     rows.replace(b"\n", b"\r\n"), b"\xef\xbb\xbf" + rows, b"\xef\xbb\xbf" + bare, bare + b"\n\n",
                     bare.replace(b"A1", b'"A1"'), bare.replace(b"0;", b"U;0;").replace(b";U;", b";")):
            with self.subTest(data):
                self.accepts(data)

    def test_refusals_have_the_place_in_the_file(self):
        rows = ROWS.read_bytes()
        for data, line, words in ((rows.replace(b"A2", b"A3", 1), 3, ["the next share is that of quarter hour 0, P, A2",
                                                                      "U<TAB>0<TAB>P<TAB>A3<TAB>17"]),
                                  (rows.rpartition(b"0;P;A4")[0], 5, ["quarter hour 0, P, A4, and no line follows"]),
                                  (b"", 1, ["quarter hour 0, P, A1, and no line follows"]),
                                  (rows + b"0;P;A5;0\n", 6, ["all shares are there"])):
            answer = self.call("shares", GAPS, self.file("rows.csv", data))
            self.assertEqual(answer.returncode, 1)
            self.assertIn(f"fireboxer: rows.csv, line {line}: refusal 22", answer.stderr)
            self.assertIn("(the program, which read the shares behind line 231, counts it as line", answer.stderr)
            for word in words:
                self.assertIn(word, answer.stderr)
        answer = self.call("shares", GAPS, self.file("rows.csv", rows.replace(b";17", b";17.5")))
        self.assertIn("rows.csv, line 3: refusal 14", answer.stderr)
        self.assertIn("field 5 (share in kWh): 17.5", answer.stderr)

    def test_an_input_that_stops_short_stays_so(self):
        for data in (b"", INPUT[:-1], INPUT[:-2], INPUT[:100]):
            answer = self.call("shares", self.file("a.txt", data), ROWS)
            refusal = program(data, "checker") if not data.endswith(b"\n") else program(data + lines(SHARES), "checker")
            self.assertEqual((answer.returncode, answer.stdout), (1, refusal))
            self.assertIn("a.txt, line" if not data.endswith(b"\n") else "refusal 22", answer.stderr)

    def test_misuse(self):
        self.file("rows.csv", b"0;P;A1\n")
        for words, said in ((["-", "-"], "standard input can be read once only"),
                            (["nothing"], "nothing can't be read"),
                            ([GAPS, "nothing"], "nothing can't be read"), ([GAPS, ROWS, ROWS], "see fireboxer help"),
                            ([GAPS, "rows.csv"], "rows.csv, line 1: this row has not the four cells")):
            answer = self.call("shares", *words)
            self.assertEqual((answer.returncode, answer.stdout), (2, b""))
            self.assertIn(said, answer.stderr)


class Refused(FrontEnd):
    """Every mistake is made in a file, and the message is read."""

    def test_each_ground(self):
        for name, (data, number, line, words) in GROUNDS.items():
            with self.subTest(name):
                self.file("bad.txt", data)
                answer = self.call("shares", "bad.txt")
                self.assertEqual((answer.returncode, answer.stdout), (1, program(data, "checker")))
                first, *rest = answer.stderr.splitlines()
                self.assertEqual(first, f"fireboxer: bad.txt, line {line}: refusal {number}: {refusals.ground(number)}")
                for word in words:
                    self.assertIn(word, answer.stderr)
                self.assertTrue(rest[-1].startswith("  to mend it: "), rest)

    def test_settle_knows_no_shares(self):
        answer = self.call("settle", input=lines(HEADER, SHARES))
        self.assertIn("U begins a line of the operator's shares, not of an input", answer.stderr)
        self.assertEqual(self.call("settle", OPERATOR).stdout, (ROOT / "examples" / "gaps.sheet").read_bytes())

    def test_damaged_inputs(self):
        chance = random.Random(5)
        for _ in range(200):
            path = self.folder / "bad.txt"
            path.write_bytes(self.damaged(chance))
            with Behind(str(path)) as source:
                refused = programs.run("checker", source, lambda printed: None)
                if refused:
                    said = messages.refusal(source, refused, "checker")
                    self.assertIn(f"line {refused.line}: refusal {refused.number}: ", said)
                    self.assertTrue(all(sign.isprintable() or sign == "\n" for sign in said), said)

    def damaged(self, chance):
        parts = behind(SHARES).decode().splitlines()
        for _ in range(chance.randint(1, 2)):
            place = chance.randrange(len(parts) - chance.choice([6, len(parts)]), len(parts))
            fields = parts[place].split("\t")
            odd = ["", "-", "0", "01", "D", "E", "U", "N", "A1", "ä", "\r", "1,5", "9" * chance.randint(1, 12)]
            fields[chance.randrange(len(fields))] = chance.choice(odd)
            parts[place] = chance.choice(["\t", "\t", "\t", ";", " "]).join(fields)
            if chance.random() < 0.3:
                parts.insert(chance.randrange(len(parts)), parts[chance.randrange(len(parts))])
        data = "\n".join(parts).encode() + b"\n"
        return data[:chance.randrange(len(data))] if chance.random() < 0.2 else data
