#!/usr/bin/env python3
"""Cuts runs in two at a quarter hour, settles the parts one after the other, the second with the carry block that the
first printed, and compares with the run over both.

  join.py COMMAND COUNT [FIRST_SEED]

COMMAND reads an input on standard input and prints a sheet; it may have arguments and is given in quotes. `second` is
the second program. The runs are those of `generate join SEED PART`, the seeds from FIRST_SEED (1) on. The Q and K lines
have to be those of the run over both, apart from the numbers of the quarter hours, T has to have the sums, and the
second part's carry block has to be that of the run over both. What differs is kept in the folder named by DIFFERING
(differing, in the folder the script is called in): the inputs and the sheets. The exit status is 0 if all agree, 1 if
any differ, 2 if nothing could be run."""
import collections
import json
import os
import pathlib
import shlex
import subprocess
import sys

HERE = pathlib.Path(__file__).resolve().parent
# how many B lines a block has, by the interval
PAST = {"1": 301, "3": 100, "4": 75}

# the Q and K lines without their quarter hours, those quarter hours, the numbers of T, the lines of the block
Sheet = collections.namedtuple("Sheet", "figures quarters total block")


def built(package):
    """builds a package of Rust and answers where its program is"""
    subprocess.run(["cargo", "build", "--release", "--offline", "--quiet", "--jobs", "1"], cwd=package, check=True)
    told = subprocess.run(["cargo", "metadata", "--format-version", "1", "--no-deps", "--offline"], cwd=package,
                          check=True, stdout=subprocess.PIPE).stdout
    return pathlib.Path(json.loads(told)["target_directory"]) / "release" / package.name


def settled(command, text):
    """what the program prints"""
    return subprocess.run(["bash", "-c", command], input=text, stdout=subprocess.PIPE, timeout=60, check=True).stdout


def taken_apart(sheet, interval):
    """the parts of the sheet of an accepted run; ValueError where it is none"""
    head, *lines = sheet.decode().splitlines()
    past = PAST[interval] + 1
    rows, block = [line.split("\t") for line in lines[:-past]], lines[-past:]
    if not head.startswith("V\t3\t") or [line[:2] for line in block] != ["O\t"] + ["B\t"] * (past - 1):
        raise ValueError("no sheet of an accepted run")
    *rows, (letter, *total) = rows
    if letter != "T" or any(row[0] not in ("Q", "K") for row in rows):
        raise ValueError("no T before the block")
    return Sheet([row[:1] + row[2:] for row in rows], [int(row[1]) for row in rows], [*map(int, total)], block)


def joined(first, second):
    """the sheet that the run over both has to print"""
    quarters = first.quarters + [quarter + first.total[0] for quarter in second.quarters]
    total = [one + other for one, other in zip(first.total, second.total)]
    return Sheet(first.figures + second.figures, quarters, total, second.block)


def compare(command, parts):
    """Settles the parts, and puts the block into the second. Answers whether they meet, and the sheets."""
    sheets = {}
    header, _, rest = parts["second"].partition(b"\n")
    interval = header.decode().split("\t")[2]
    try:
        sheets["first"] = settled(command, parts["first"])
        first = taken_apart(sheets["first"], interval)
        parts["second"] = b"\n".join([header, *(line.encode() for line in first.block), rest])
        sheets["second"] = settled(command, parts["second"])
        sheets["both"] = settled(command, parts["both"])
        second, both = (taken_apart(sheets[name], interval) for name in ("second", "both"))
    except (ValueError, IndexError, subprocess.SubprocessError):
        return False, sheets
    return joined(first, second) == both, sheets


def keep(seed, parts, sheets):
    """keeps what differs"""
    folder = pathlib.Path(os.environ.get("DIFFERING", "differing"))
    folder.mkdir(parents=True, exist_ok=True)
    for ending, texts in ((".txt", parts), (".sheet", sheets)):
        for name, text in texts.items():
            (folder / f"join-{seed}-{name}{ending}").write_bytes(text)
    return folder


def main(command, count, first="1"):
    generate = built(HERE / "generate")
    if command == "second":
        command = shlex.quote(str(built(HERE.parent / "second")))
    seeds = range(int(first), int(first) + int(count))
    differ, with_block, quarters = 0, 0, 0
    for done, seed in enumerate(seeds, 1):
        parts = {name: subprocess.run([generate, "join", str(seed), name], stdout=subprocess.PIPE, check=True).stdout
                 for name in ("first", "second", "both")}
        agree, sheets = compare(command, parts)
        with_block += parts["first"].split(b"\n")[1].startswith(b"O\t")
        quarters += int(parts["both"].split(b"\n")[0].split(b"\t")[4])
        if not agree:
            differ += 1
            print(f"seed {seed}: the run over both differs; see {keep(seed, parts, sheets)}")
        if done % 100 == 0:
            print(f"{done} of {len(seeds)}: {differ} differ", flush=True)
    print(f"{len(seeds) - differ} of {len(seeds)} joins agree: seeds {seeds[0]} to {seeds[-1]}, "
          f"{quarters} quarter hours, {with_block} of the first parts begin with a block")
    return 1 if differ else 0


if __name__ == "__main__":
    if len(sys.argv) not in (3, 4):
        sys.exit(print(__doc__, file=sys.stderr) or 2)
    sys.exit(main(*sys.argv[1:]))
