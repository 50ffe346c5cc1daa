"""Refusals that can be mended from the message: each ground, each cause, and the one list."""
import random
import re

from common import BLOCK, CONTRACTS, GOOD, HEADER, ROOT, SAMPLES, FrontEnd, lines, program

from desk import endings, messages, programs, refusals
from desk.inputs import Input

FOUR = HEADER[:-1] + "4"
MANY = [f"C\tP\tA{number}\t100\t5000" for number in range(33)]


def changed(line, *now):
    """the good input with other lines in place of one, which counts from 1"""
    parts = GOOD.decode().splitlines()
    return lines(parts[:line - 1], list(now), parts[line:])


# name: input, number, line, words of the message
GROUNDS = {
    "1 contract after a sample": (lines(HEADER, SAMPLES[:3], CONTRACTS), 1, 5,
        ["C<TAB>P<TAB>A1", "a contract after 3 of 225 samples of quarter hour 0", "move the C lines up"]),
    "1 second header": (lines(HEADER, HEADER), 1, 2,
        ["a second header, before the first sample", "an input of its own"]),
    "1 second day": (lines(HEADER, SAMPLES, HEADER), 1, 227,
        ["a second header, after 225 of 225 samples of quarter hour 0"]),
    "1 no header": (lines(CONTRACTS), 1, 1,
        ["the first line has to be the header, and this one begins with C", "put the D line first"]),
    "1 end alone": (lines("E"), 1, 1, ["this one begins with E"]),
    "1 one sample too few": (lines(FOUR, CONTRACTS, SAMPLES * 3, SAMPLES[1:], "E"), 1, 903,
        ["E after 224 of 225 samples of quarter hour 3", "4 quarter hours, which", "900 samples", "1 sample is missing"]),
    "1 one sample too many": (lines(FOUR, CONTRACTS, SAMPLES * 4, "S\t1\t1", "E"), 1, 904,
        ["sample 226 of 225 of quarter hour 3, the last", "900 samples in all", "there twice"]),
    "1 a quarter hour too few": (lines(FOUR, SAMPLES * 3, "E"), 1, 677,
        ["E after 225 of 225 samples of quarter hour 2", "225 samples are missing"]),
    "1 no sample": (lines(HEADER, "E"), 1, 2, ["E before the first sample", "225 samples are missing"]),
    "1 O after a contract": (lines(HEADER, CONTRACTS, BLOCK), 1, 4,
        ["O<TAB>54000000<TAB>54000000", "an O line after a contract: a carry block stands directly after the D line",
         "move the O line and its B lines up"]),
    "1 O after a sample": (lines(HEADER, SAMPLES[:3], BLOCK), 1, 5, ["an O line after 3 of 225 samples"]),
    "1 O first": (lines(BLOCK), 1, 1, ["this one begins with O", "put the D line first"]),
    "1 O twice": (lines(HEADER, BLOCK[:1], BLOCK), 1, 3,
        ["a second O line, after 0 of 75 B lines", "leave one block"]),
    "1 two blocks": (lines(HEADER, BLOCK, BLOCK), 1, 78, ["a second O line, after 75 of 75 B lines"]),
    "1 B without O": (lines(HEADER, BLOCK[1:]), 1, 2, ["no O line directly after the D line", "put the O line"]),
    "1 B after a contract": (lines(HEADER, BLOCK, CONTRACTS, BLOCK[1]), 1, 80,
        ["a B line after the carry block, which has its 75 B lines", "take the line out"]),
    "1 B after a sample": (lines(HEADER, SAMPLES, BLOCK[1]), 1, 227, ["no O line directly after the D line"]),
    "1 header in a block": (lines(HEADER, BLOCK[:9], HEADER), 1, 11,
        ["a second header, after 8 of 75 B lines of the carry block"]),
    "1 end in a block": (lines(HEADER, BLOCK[:9], "E"), 1, 11,
        ["E after 8 of 75 B lines of the carry block", "225 samples are missing"]),
    "1 end after a block": (lines(HEADER, BLOCK, "E"), 1, 78, ["E before the first sample"]),
    "2": (changed(1, "D\t2017-02-20\t2\t-\t1"), 2, 1,
        ["interval not 1, 3 or 4", "field 3 (interval in seconds): 2", "write 1, 3 or 4"]),
    "3": (changed(1, "D\t2017-02-20\t4\t0\t1"), 3, 1, ["lot not 1 to 1,000,000 kW", "field 4 (lot in kW): 0"]),
    "4 no such day": (changed(1, "D\t2017-02-29\t4\t-\t1"), 4, 1,
        ["field 2 (date): 2017-02-29", "does not exist", "month 2017-02 has no day 29"]),
    "4 no such month": (changed(1, "D\t2017-13-01\t4\t-\t1"), 4, 1, ["does not exist", "no month 13"]),
    "4 day 0": (changed(1, "D\t2017-01-00\t4\t-\t1"), 4, 1, ["does not exist", "no day 00"]),
    "4 before 2000": (changed(1, "D\t1999-12-31\t4\t-\t1"), 4, 1, ["out of range: 2000-01-01 to 2099-12-31"]),
    "4 year 0": (changed(1, "D\t0000-12-31\t4\t-\t1"), 4, 1, ["out of range"]),
    "5": (changed(1, "D\t2017-02-20\t4\t-\t101"), 5, 1,
        ["not 1 to 100 quarter hours", "field 5 (number of quarter hours): 101", "a day has 96"]),
    "6": (lines(HEADER, MANY), 6, 34, ["a 33rd contract", "direction P has 32 contracts already", "at most 32"]),
    "7 sign": (changed(2, "C\tP\tA_1\t6000\t5000"), 7, 2, ["field 3 (identifier): A_1", "the sign _ is in it"]),
    "7 umlaut": (changed(2, "C\tP\tÄ1\t6000\t5000"), 7, 2, ["the sign Ä is in it"]),
    "7 space": (changed(2, "C\tP\tA 1\t6000\t5000"), 7, 2, ["the sign <SPACE> is in it"]),
    "7 empty": (changed(2, "C\tP\t\t6000\t5000"), 7, 2, ["field 3 (identifier): empty", "the identifier is empty"]),
    "7 long": (changed(2, "C\tP\tABCDEFGHIJKLMNOPQ\t6000\t5000"), 7, 2, ["it has 17 bytes, and at most 16"]),
    "8": (changed(3, "C\tN\tA1\t6000\t5000"), 8, 3, ["A1 stands on line 2 already, direction P", "of its own"]),
    "9": (changed(2, "C\tP\tA1\t0\t5000"), 9, 2, ["award not 1 to 2,000,000 kW", "field 4 (award in kW): 0"]),
    "10": (changed(3, "C\tP\tA2\t1994001\t8000"), 10, 3,
        ["6,000 kW before this line and 2,000,001 kW with it; 2,000,000 kW are the limit", "1,994,000 kW are left"]),
    "11": (changed(2, "C\tP\tA1\t6000\t10000000"), 11, 2,
        ["price not -9,999,999 to 9,999,999", "field 5 (price in cent per MWh): 10000000"]),
    "12": (changed(3, "C\tP\tA2\t6000\t-4999"), 12, 3,
        ["the contract before it in direction P, A1 on line 2, has 5,000 cent per MWh, and this one -4,999",
         "the cheapest first"]),
    "13 setpoint": (changed(10, "S\t2000001\t0"), 13, 10, ["field 2 (setpoint in kW): 2000001"]),
    "13 actual": (changed(10, "S\t0\t-2000001"), 13, 10, ["field 3 (actual in kW): -2000001"]),
    "14": (changed(10, "X"), 14, 10, ["the line is ill-formed", "X begins no line", "D, O, B, C, S or E"]),
    "15 end without line end": (GOOD[:-1], 15, 229,
        ["line 229 (no line end): E", "the last line says E and has no line end", "put a line end behind E"]),
    "15 empty": (b"", 15, 1, ["the input is empty"]),
    "15 no end": (GOOD[:-2], 15, 229, ["all samples are there", "no line E follows"]),
    "15 cut between lines": (lines(FOUR, SAMPLES, SAMPLES[:100]), 15, 327,
        ["ends after 100 of 225 samples of quarter hour 1", "may be cut off"]),
    "15 cut in a line": (GOOD[:1000], 15, 76, ["no line end and is not E", "after 72 of 225 samples"]),
    "15 cut in a block": (lines(HEADER, BLOCK[:9]), 15, 11,
        ["ends after 8 of 75 B lines of the carry block", "may be cut off"]),
    "15 cut in a line of a block": (lines(HEADER, BLOCK[:9])[:-3], 15, 10,
        ["is not E, after 7 of 75 B lines of the carry block", "may be cut off"]),
    "17 one too few": (lines(HEADER, BLOCK[:-1], CONTRACTS), 17, 77,
        ["C<TAB>P<TAB>A1", "the carry block has 74 of 75 B lines where this line comes", "75 B lines at an interval"]),
    "17 none": (lines(HEADER, BLOCK[:1], SAMPLES), 17, 3, ["0 of 75 B lines"]),
    "17 one too many": (lines(HEADER, BLOCK, BLOCK[1]), 17, 78,
        ["the carry block has its 75 B lines, as many as an interval of 4 s wants", "there twice"]),
    "17 another interval": (lines("D\t2017-02-20\t3\t-\t1", BLOCK, CONTRACTS), 17, 78,
        ["75 of 100 B lines", "so many has one at an interval of 4 s"]),
    "18 OGA": (lines(HEADER, "O\t10800000001\t0"), 18, 2, ["field 2 (OGA in units): 10800000001", "copy the block"]),
    "18 UGA": (lines(HEADER, "O\t0\t-10800000001"), 18, 2, ["field 3 (UGA in units): -10800000001"]),
    "18 setpoint": (lines(HEADER, BLOCK[:9], "B\t2000001"), 18, 11, ["field 2 (setpoint in kW): 2000001"]),
    "18 newest": (lines(HEADER, BLOCK[:-1], "B\t10001"), 18, 77,
        ["the newest setpoint, 10,001 kW, is 54,005,400 units, and the O line has UGA 54,000,000 and OGA 54,000,000"]),
}

CAUSES = {
    "Windows line ends": (GOOD.replace(b"\n", b"\r\n"), 14, 1,
        ["D<TAB>2017-02-20<TAB>4<TAB>-<TAB>1<CR>", "Windows line ends", "save the file with Unix line ends"]),
    "Windows line end at E": (GOOD[:-1] + b"\r\n", 14, 229, ["E<CR>", "Windows line ends"]),
    "E, Windows line ends, no line end": (GOOD[:-1] + b"\r", 15, 229, ["E<CR>", "says E and has no line end"]),
    "CR alone": (GOOD.replace(b"\n", b"\r"), 15, 1, ["line ends of CR alone"]),
    "byte order mark": (b"\xef\xbb\xbf" + GOOD, 14, 1,
        ["<BOM>D<TAB>", "a byte order mark stands before the first sign"]),
    "UTF-16": (GOOD.decode().encode("utf-16"), 14, 1, ["UTF-16", "save it as plain text"]),
    "UTF-16, big end first": (b"\xfe\xff" + GOOD.decode().encode("utf-16-be"), 14, 1, ["UTF-16"]),
    "UTF-16 without mark": (GOOD.decode().encode("utf-16-le"), 14, 1, ["D<NUL>", "UTF-16"]),
    "spaces for tabs": (GOOD.replace(b"\t", b" "), 14, 1, ["D 2017-02-20 4 - 1", "spaces for tabs"]),
    "many spaces for tabs": (GOOD.replace(b"\t", b"   "), 14, 1, ["spaces for tabs"]),
    "a space for one tab": (changed(2, "C P\tA1\t6000\t5000"), 14, 2, ["spaces for tabs"]),
    "semicolons for tabs": (GOOD.replace(b"\t", b";"), 14, 1, ["semicolons for tabs"]),
    "commas for tabs": (GOOD.replace(b"\t", b","), 14, 1, ["commas for tabs"]),
    "bars for tabs": (GOOD.replace(b"\t", b"|"), 14, 1, ["vertical bars for tabs"]),
    "decimal comma": (changed(2, "C\tP\tA1\t6000\t50,00"), 14, 2,
        ["field 5 (price in cent per MWh): 50,00", "a decimal comma", "50.00 EUR per MWh are 5000 cent"]),
    "decimal point": (changed(10, "S\t10000\t9600.5"), 14, 10, ["field 3 (actual in kW): 9600.5", "a decimal point"]),
    "thousands": (changed(10, "S\t10 000\t9600"), 14, 10,
        ["field 2 (setpoint in kW): 10 000", "separators for thousands"]),
    "leading zero": (changed(2, "C\tP\tA1\t06000\t5000"), 14, 2, ["field 4 (award in kW): 06000", "a leading zero"]),
    "leading plus": (changed(10, "S\t+10000\t9600"), 14, 10, ["field 2 (setpoint in kW): +10000", "a leading plus"]),
    "minus zero": (changed(10, "S\t-0\t9600"), 14, 10, ["minus zero", "write 0"]),
    "typographic minus": (changed(10, "S\t\u2212100\t9600"), 14, 10, ["a minus or dash that is not the plain sign"]),
    "minus behind": (changed(10, "S\t100-\t9600"), 14, 10, ["a minus after the number"]),
    "ten digits": (changed(10, "S\t1000000000\t0"), 14, 10, ["more than 9 digits"]),
    "twelve digits of a bound": (lines(HEADER, "O\t0\t-100000000000"), 14, 2,
        ["field 3 (UGA in units): -100000000000", "more than 11 digits", "copy the O line"]),
    "a bound with a point": (lines(HEADER, "O\t54.0\t0"), 14, 2, ["field 2 (OGA in units): 54.0", "a decimal point"]),
    "too few bounds": (lines(HEADER, "O\t54"), 14, 2, ["too few fields: 2, and 3 are wanted", "O<TAB>OGA<TAB>UGA"]),
    "ten digits of a past setpoint": (lines(HEADER, BLOCK[:3], "B\t1000000000"), 14, 5, ["more than 9 digits"]),
    "unit": (changed(10, "S\t100kW\t0"), 14, 10, ["a unit behind the number"]),
    "power of ten": (changed(10, "S\t1e4\t0"), 14, 10, ["a power of ten"]),
    "space beside a number": (changed(10, "S\t100 \t0"), 14, 10, ["100<SPACE>", "a space before or after the number"]),
    "quotation marks": (changed(10, "S\t\"100\"\t0"), 14, 10, ["quotation marks"]),
    "hyphen for a number": (changed(1, "D\t2017-02-20\t-\t-\t1"), 14, 1, ["only the lot may be left out"]),
    "a word for a number": (changed(10, "S\tnone\t0"), 14, 10, ["this is no whole number"]),
    "empty number": (changed(10, "S\t\t0"), 14, 10, ["field 2 (setpoint in kW): empty", "the field is empty"]),
    "German date": (changed(1, "D\t20.02.2017\t4\t-\t1"), 14, 1,
        ["field 2 (date): 20.02.2017", "a date in German form", "write 2017-02-20"]),
    "short German date": (changed(1, "D\t1.2.17\t4\t-\t1"), 14, 1, ["a date in German form", "write 2017-02-01"]),
    "date with slashes": (changed(1, "D\t2017/2/20\t4\t-\t1"), 14, 1, ["write 2017-02-20"]),
    "date with time": (changed(1, "D\t2017-02-20T00:00\t4\t-\t1"), 14, 1, ["write 2017-02-20 alone"]),
    "no date": (changed(1, "D\ttoday\t4\t-\t1"), 14, 1, ["this is no date"]),
    "trailing tab": (changed(10, "S\t10000\t9600\t"), 14, 10,
        ["S<TAB>10000<TAB>9600<TAB>", "field 4 (one too many): empty", "a trailing tab"]),
    "trailing tab at E": (GOOD[:-1] + b"\t\n", 14, 229, ["a trailing tab"]),
    "two tabs": (changed(10, "S\t\t10000\t9600"), 14, 10, ["two tabs in a row"]),
    "too few fields": (changed(10, "S\t10000"), 14, 10,
        ["too few fields: 2, and 3 are wanted", "S<TAB>setpoint<TAB>actual"]),
    "too many fields": (changed(10, "S\t1\t2\t3"), 14, 10, ["too many fields: 4, and 3 are wanted"]),
    "blank line": (changed(10, ""), 14, 10, ["line 10 is empty", "a blank line", "take the line out"]),
    "line of blanks": (changed(10, " \t "), 14, 10, ["a line of blanks alone"]),
    "blank line at the top": (b"\n" + GOOD, 14, 1, ["a blank line"]),
    "lower case": (changed(10, "s\t1\t1"), 14, 10, ["the letter in lower case", "write S"]),
    "space beside E": (GOOD[:-1] + b" \n", 14, 229, ["E<SPACE>", "a space beside the letter"]),
    "direction in lower case": (changed(2, "C\tp\tA1\t6000\t5000"), 14, 2, ["field 2 (direction): p", "write P"]),
    "direction in words": (changed(2, "C\tpos\tA1\t6000\t5000"), 14, 2,
        ["pos is no direction", "write P for positive"]),
    "direction missing": (changed(2, "C\t\tA1\t6000\t5000"), 14, 2, ["the direction is missing"]),
    "space beside the direction": (changed(2, "C\tP \tA1\t6000\t5000"), 14, 2, ["a space beside the direction"]),
    "comment": (b"# a day\n" + GOOD, 14, 1, ["a comment"]),
    "a sheet": (program(GOOD), 14, 1, ["V begins a line of a sheet"]),
    "a recording": (lines(HEADER, "G\t0\t10000\t9600"), 14, 2,
        ["G begins a line of a recording, not of an input", "fireboxer mend --into CONTRACTS RECORDING"]),
    "a mark": (changed(10, "X\t24\tM"), 14, 10, ["X begins a line of a mended recording, not of an input", "--into"]),
    "long line": (changed(10, "S\t1\t" + "1" * 1000), 14, 10, ["1,004 bytes, and at most 80 are read"]),
    "control signs": (changed(10, "S\x1b[31m\t\x00\t\x7f"), 14, 10,
        ["S<0x1B>[31m<TAB><NUL><TAB><0x7F>", "a zero byte in the line"]),
    "other bytes": (b"\xe4\n", 14, 1, ["<0xE4>"]),
}

# The causes whose message has a command: it is run, and what it makes is settled.
WITH_COMMAND = ("Windows line ends", "CR alone", "byte order mark", "UTF-16", "spaces for tabs", "many spaces for tabs",
                "semicolons for tabs", "commas for tabs", "bars for tabs")


class Words(FrontEnd):
    """Every mistake is made in a file, and the message is read."""

    def check(self, cases):
        for name, (data, number, line, words) in cases.items():
            with self.subTest(name):
                self.file("bad.txt", data)
                answer = self.call("settle", "bad.txt")
                self.assertEqual((answer.returncode, answer.stdout), (1, program(data)))
                first, *rest = answer.stderr.splitlines()
                self.assertEqual(first, f"fireboxer: bad.txt, line {line}: refusal {number}: {refusals.ground(number)}")
                for word in words:
                    self.assertIn(word, answer.stderr)
                self.assertTrue(rest[-1].startswith("  to mend it: "), rest)
                self.assertTrue(all(sign.isprintable() or sign == "\n" for sign in answer.stderr), answer.stderr)

    def test_each_ground(self):
        self.check(GROUNDS)
        self.assertEqual({case[1] for case in GROUNDS.values()}, {*range(1, 16), 17, 18})

    def test_each_cause(self):
        self.check(CAUSES)

    def test_commands_in_messages_mend(self):
        for name in WITH_COMMAND:
            with self.subTest(name):
                self.file("bad.txt", CAUSES[name][0])
                said = self.call("settle", "bad.txt").stderr
                command = re.search(r"to mend it: (?:.*or: )?(.*MENDED)", said)[1]
                self.shell(command.replace("FILE", "bad.txt").replace("MENDED", "mended.txt"))
                self.assertEqual((self.folder / "mended.txt").read_bytes(), GOOD)

    def test_the_missing_line_end_is_put_by_the_command(self):
        self.file("bad.txt", GOOD[:-1])
        self.assertIn("or: echo >>FILE", self.call("settle", "bad.txt").stderr)
        self.shell("echo >>bad.txt")
        self.assertEqual((self.folder / "bad.txt").read_bytes(), GOOD)

    def test_same_words_for_pipes_and_inspect(self):
        for data, *_ in list(GROUNDS.values())[::5]:
            self.file("bad.txt", data)
            said = self.call("settle", "bad.txt").stderr
            self.assertEqual(self.call("settle", input=data).stderr, said.replace("bad.txt", "standard input"))
            answer = self.call("inspect", "bad.txt")
            self.assertEqual((answer.returncode, answer.stdout, answer.stderr), (1, b"", said))

    def test_far_down_in_a_pipe(self):
        header = "D\t2017-02-20\t1\t-\t100"
        samples = ["S\t1234567\t-1234567"] * 89999
        data = lines(header, CONTRACTS, samples, "E")
        answer = self.call("settle", input=data)
        self.assertIn(f"standard input, line {len(samples) + 4}: refusal 1", answer.stderr)
        self.assertIn("E after 899 of 900 samples of quarter hour 99", answer.stderr)
        answer = self.call("settle", input=lines(header, CONTRACTS, samples[:80000], "S\t1,5\t0", samples))
        self.assertIn("standard input, line 80004: refusal 14", answer.stderr)
        self.assertIn("field 2 (setpoint in kW): 1,5", answer.stderr)


ODD = ("", "-", "0", "01", "P", "N", "A1", "D", "E", "2017-02-30", "ä", "\r", "1,5")


class Guesses(FrontEnd):
    """Whatever is refused, the message has the program's number and line, and nothing that a terminal would obey."""

    def test_damaged_inputs(self):
        chance = random.Random(11)
        for _ in range(300):
            path = self.folder / "bad.txt"
            path.write_bytes(self.damaged(chance))
            with Input(str(path)) as source:
                refused = programs.run("settle", source, lambda printed: None)
                if refused:
                    said = messages.refusal(source, refused)
                    self.assertIn(f"line {refused.line}: refusal {refused.number}: ", said)
                    self.assertTrue(all(sign.isprintable() or sign == "\n" for sign in said), said)

    def damaged(self, chance):
        parts = GOOD.decode().splitlines()
        if chance.random() < 0.5:
            parts[1:1] = BLOCK
        for _ in range(chance.randint(1, 2)):
            place = chance.randrange(chance.choice([4, 8, 80, len(parts)]))
            fields = parts[place].split("\t")
            fields[chance.randrange(len(fields))] = chance.choice([*ODD, "9" * chance.randint(1, 12)])
            parts[place] = chance.choice(["\t", "\t", "\t", ";", " "]).join(fields)
            if chance.random() < 0.3:
                parts.insert(chance.randrange(len(parts)), parts[chance.randrange(len(parts))])
        data = "\n".join(parts).encode() + b"\n"
        return data[:chance.randrange(len(data))] if chance.random() < 0.2 else data


class OneList(FrontEnd):
    """The list of refusals, the enum of the code and the README's table say the same."""

    def test_enum(self):
        files = sorted((ROOT / "crates" / "vocabulary" / "src").rglob("*.rt"))
        code = "".join(path.read_text(encoding="utf-8") for path in files)
        numbers = {(case, int(number)) for case, number in re.findall(r"Refusal::(\w+) => (\d+)", code)}
        self.assertEqual(numbers, {(refusal.case, refusal.number) for refusal in refusals.REFUSALS})
        self.assertIn("Ok(()) => 0,", code, "where nothing is refused the number is 0")

    def test_readme(self):
        rows = re.findall(r"^\|.*\|$", (ROOT / "README.md").read_text(encoding="utf-8"), re.M)
        for table in (refusals.readme_table(), endings.readme_table()):
            wanted = table.splitlines()
            first = rows.index(wanted[0])
            self.assertEqual(rows[first:first + len(wanted)], wanted)

    def test_in_order(self):
        numbers = [refusal.number for refusal in refusals.REFUSALS]
        self.assertEqual(numbers, sorted(set(numbers)))
