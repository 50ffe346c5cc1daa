#!/usr/bin/env python3
"""Settles inputs, makes the shares of their own sheets into U lines, and has them checked: they have to be accepted.

  own_shares.py COMMAND SETTLE COUNT [FIRST_SEED]

COMMAND reads an input with shares on standard input and prints the verdict, SETTLE reads an input and prints a sheet;
both may have arguments and are given in quotes, and the word `second` is the second program. The inputs are the
examples and COUNT that are settled to the end, those of `generate checker SEED` from FIRST_SEED (1) on; damaged ones
are passed over. What is not accepted is kept in the folder named by DIFFERING (differing, in the folder the script is
called in). The exit status is 0 if all are accepted, 1 if not, 2 if nothing could be run."""
import itertools
import os
import pathlib
import shlex
import subprocess
import sys

from join import HERE, built, settled


def share_lines(sheet):
    """the U lines that say what the K lines of a sheet say"""
    rows = (line.split(b"\t") for line in sheet.splitlines())
    return [b"\t".join([b"U", *row[1:4], row[8]]) + b"\n" for row in rows if row[0] == b"K"]


def quarters_of(sheet):
    """the number of quarter hours of a sheet that goes to the end, else None"""
    totals = [line.split(b"\t")[1] for line in sheet.splitlines() if line.startswith(b"T\t")]
    return totals[0] if totals else None


def inputs(first):
    """the examples by name, and the generated inputs by seed"""
    for sheet in sorted((HERE.parent / "examples").glob("*.sheet")):
        yield sheet.stem, sheet.with_suffix(".txt").read_bytes()
    generate = built(HERE / "generate")
    for seed in itertools.count(first):
        yield seed, subprocess.run([generate, "checker", str(seed)], stdout=subprocess.PIPE, check=True).stdout


def up_to_end(text):
    """an input without what follows its end line"""
    before, _, _ = text.partition(b"\nE\n")
    return before + b"\nE\n"


def keep(name, text):
    """keeps what is not accepted"""
    folder = pathlib.Path(os.environ.get("DIFFERING", "differing"))
    folder.mkdir(parents=True, exist_ok=True)
    (folder / f"own-shares-{name}.txt").write_bytes(text)
    return folder


def main(command, settle, count, first="1"):
    second = shlex.quote(str(built(HERE.parent / "second")))
    command = f"{second} checker" if command == "second" else command
    settle = second if settle == "second" else settle
    count, done, wrong, lines, above = int(count), 0, 0, 0, 0
    for name, text in inputs(int(first)):
        sheet = settled(settle, text)
        quarters = quarters_of(sheet)
        if quarters is None:
            continue
        shares = share_lines(sheet)
        lines += len(shares)
        above += sum(not line.endswith(b"\t0\n") for line in shares)
        whole = up_to_end(text) + b"".join(shares)
        verdict = settled(command, whole)
        if verdict != b"A\t" + quarters + b"\n":
            wrong += 1
            print(f"{name}: our own shares give {verdict!r}; see {keep(name, whole)}")
        done += isinstance(name, int)
        if done and done % 100 == 0:
            print(f"{done} of {count}: {wrong} not accepted", flush=True)
        if done == count:
            break
    print(f"{done} inputs up to seed {name} and the examples: {wrong} not accepted, {lines} shares, {above} of them "
          "above 0")
    return 1 if wrong or not above else 0


if __name__ == "__main__":
    if len(sys.argv) not in (4, 5):
        sys.exit(print(__doc__, file=sys.stderr) or 2)
    sys.exit(main(*sys.argv[1:]))
