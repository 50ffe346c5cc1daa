#!/usr/bin/env python3
"""Settles inputs and their mirrors, and compares: the sheet of the mirror has to be the mirror of the sheet.

  mirror.py COMMAND COUNT [FIRST_SEED]

COMMAND reads an input on standard input and prints a sheet; it may have arguments and is given in quotes. The inputs are
the examples and those of `generate SEED`, the seeds from FIRST_SEED (1) on, sound and damaged ones. In the mirror of an
input every setpoint and actual is negated and P and N are exchanged on the contracts; of a carry block O's two fields
are exchanged and negated, and its setpoints negated. What is ill-formed stays. In the mirror of a sheet the P lines of
each quarter hour are the N lines and the other way round; O and B lines are mirrored as above, V, T and R lines stay.
What differs is kept in the folder named by DIFFERING (differing, in the folder the script is called in): the inputs, the
sheets, and the sheet that was expected. The exit status is 0 if all agree, 1 if any differ or if the inputs leave
something untried, 2 if nothing could be run."""
import collections
import itertools
import os
import pathlib
import re
import subprocess
import sys

from join import HERE, built, settled

# numbers as they are read: those of O have up to 11 digits, the others up to 9
NUMBER = re.compile(rb"0|-?[1-9][0-9]{0,8}")
BOUND = re.compile(rb"0|-?[1-9][0-9]{0,10}")
OTHER = {b"P": b"N", b"N": b"P"}


def negated(number):
    """the number with its sign changed"""
    if number == b"0":
        return number
    return number[1:] if number.startswith(b"-") else b"-" + number


def mirrored_line(line):
    """a line of an input, or of a carry block"""
    kind, *fields = line.split(b"\t")
    if kind == b"C" and len(fields) == 4 and fields[0] in OTHER:
        fields[0] = OTHER[fields[0]]
    elif kind == b"O" and len(fields) == 2 and all(map(BOUND.fullmatch, fields)):
        fields = [negated(field) for field in reversed(fields)]
    elif (kind, len(fields)) in ((b"S", 2), (b"B", 1)) and all(map(NUMBER.fullmatch, fields)):
        fields = [negated(field) for field in fields]
    return b"\t".join([kind, *fields])


def mirrored(text):
    """an input; what follows its last LF is no line"""
    *lines, rest = text.split(b"\n")
    return b"\n".join([*map(mirrored_line, lines), rest])


def quarter_of(line):
    """the quarter hour of a Q or K line, None of any other line"""
    kind, *fields = line.split(b"\t")
    return fields[0] if kind in (b"Q", b"K") else None


def exchanged(lines):
    """the Q and K lines of a quarter hour: those of N come first, as P's, and each direction keeps its order"""
    rows = [line.split(b"\t") for line in lines]
    for row in rows:
        row[2] = OTHER[row[2]]
    return [b"\t".join(row) for letter in (b"P", b"N") for row in rows if row[2] == letter]


def mirrored_sheet(sheet):
    """what the mirror of the input has to print"""
    *lines, rest = sheet.split(b"\n")
    made = []
    for quarter, some in itertools.groupby(lines, quarter_of):
        made += map(mirrored_line, some) if quarter is None else exchanged(some)
    return b"\n".join([*made, rest])


def kinds_of(text, sheet, expected):
    """what an input tries"""
    lines = sheet.splitlines()
    accepted = any(line.startswith(b"T\t") for line in lines)
    yield "accepted" if accepted else "refused"
    if accepted and text.split(b"\n", 2)[1].startswith(b"O\t"):
        yield "accepted with a block"
    if not accepted and any(line.startswith(b"Q\t") for line in lines):
        yield "refused after a quarter hour"
    if sheet != expected:
        yield "not their own mirror"


def compare(command, text):
    """Settles an input and its mirror. Answers whether they agree, what is worth keeping, and what the input tries."""
    found = {"input.txt": text, "mirror.txt": mirrored(text)}
    try:
        found["input.sheet"] = settled(command, found["input.txt"])
        found["mirror.sheet"] = settled(command, found["mirror.txt"])
    except subprocess.SubprocessError:
        return False, found, []
    found["expected.sheet"] = mirrored_sheet(found["input.sheet"])
    agree = found["mirror.sheet"] == found["expected.sheet"]
    return agree, found, list(kinds_of(text, found["input.sheet"], found["expected.sheet"]))


def keep(name, found):
    """keeps what differs"""
    folder = pathlib.Path(os.environ.get("DIFFERING", "differing"))
    folder.mkdir(parents=True, exist_ok=True)
    for ending, text in found.items():
        (folder / f"mirror-{name}-{ending}").write_bytes(text)
    return folder


def inputs(count, first):
    """the examples by name, and the generated inputs by seed"""
    for sheet in sorted((HERE.parent / "examples").glob("*.sheet")):
        yield sheet.stem, sheet.with_suffix(".txt").read_bytes()
    generate = built(HERE / "generate")
    for seed in range(first, first + count):
        yield seed, subprocess.run([generate, str(seed)], stdout=subprocess.PIPE, check=True).stdout


def main(command, count, first="1"):
    differ, done, tried = 0, 0, collections.Counter()
    for done, (name, text) in enumerate(inputs(int(count), int(first)), 1):
        agree, found, kinds = compare(command, text)
        tried.update(kinds)
        if mirrored(found["mirror.txt"]) != text:
            print(f"{name}: mirrored twice it is another input")
            agree = False
        if not agree:
            differ += 1
            print(f"{name}: the sheet of the mirror is not the mirror of the sheet; see {keep(name, found)}")
        if done % 100 == 0:
            print(f"{done}: {differ} differ", flush=True)
    wanted = ("accepted", "accepted with a block", "refused", "refused after a quarter hour", "not their own mirror")
    print(f"{done - differ} of {done} agree: the examples and seeds {first} to {int(first) + int(count) - 1}; "
          + ", ".join(f"{tried[kind]} {kind}" for kind in wanted))
    return 1 if differ or not all(tried[kind] for kind in wanted) else 0


if __name__ == "__main__":
    if len(sys.argv) not in (3, 4):
        sys.exit(print(__doc__, file=sys.stderr) or 2)
    sys.exit(main(*sys.argv[1:]))
