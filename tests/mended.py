#!/usr/bin/env python3
"""Mends recordings and looks at what comes out: a whole run of samples, that are the good lines and no others but for
the marked ones, and that settles.

  mended.py COMMAND SETTLE COUNT [FIRST_SEED]

COMMAND reads a recording on standard input and prints it mended, SETTLE reads an input and prints a sheet; both may
have arguments and are given in quotes, and the word `second` is the second program. The recordings are the example and
those of `generate mend SEED`, the seeds from FIRST_SEED (1) on. Where one is mended to the end, its S lines have to be
as many as its header asks for; without those marked M they have to be the good lines in order, those marked M have to
repeat the sample before, and put between the contracts of an example and E they have to settle. The mended example has
to be the day that it was made from, but for its marks. What fails is kept in the folder named by DIFFERING (differing,
in the folder the script is called in). The exit status is 0 if all is so, 1 if not, 2 if nothing could be run."""
import os
import pathlib
import shlex
import subprocess
import sys

from join import HERE, built, settled

ARCHIVE, CONTRACTS = (HERE.parent / "examples" / f"{name}.txt" for name in ("archive", "contracts"))


def good_lines(recording):
    """the setpoint and actual of each line that is neither outside the stretch nor there already, by its second"""
    header, *lines = recording.split(b"\n")
    interval, quarters = (int(header.split(b"\t")[place]) for place in (2, 4))
    good = {}
    for line in lines[:lines.index(b"E")]:
        _, second, *powers = line.split(b"\t")
        if 0 <= int(second) < 900 * quarters and int(second) % interval == 0:
            good.setdefault(int(second), powers)
    return good, range(0, 900 * quarters, interval)


def fault(recording, printed):
    """what is wrong with the samples of a recording that was mended to the end, or None"""
    good, seconds = good_lines(recording)
    marks, samples, missing = [], [], False
    for line in printed.splitlines():
        kind, *fields = line.split(b"\t")
        if kind == b"S":
            marks.append(missing)
            samples.append(fields)
        # a mark M stands just before its sample, and the others have none
        missing = kind == b"X" and fields[1] == b"M"
        if missing and int(fields[0]) != len(samples) * seconds.step:
            return "a mark M has another second than its sample"
    if len(samples) != len(seconds):
        return f"{len(samples)} samples, and {len(seconds)} are wanted"
    if [sample for sample, marked in zip(samples, marks) if not marked] != list(good.values()):
        return "without the marked ones the samples are not the good lines"
    if any(marked and samples[place] != samples[place - 1] for place, marked in enumerate(marks)):
        return "a marked sample has other values than the one before"
    return None


def whole_input(recording, printed):
    """the mended samples between the contracts and E"""
    header = recording.partition(b"\n")[0] + b"\n"
    samples = (line for line in printed.splitlines(keepends=True) if line.startswith(b"S"))
    return b"".join([header, CONTRACTS.read_bytes(), *samples, b"E\n"])


def settles(settle, text):
    """whether an input is settled to the end"""
    return any(line.startswith(b"T\t") for line in settled(settle, text).splitlines())


def day_fault(generate, printed):
    """what is wrong with the mended example, by the day that it was made from"""
    day = subprocess.run([generate, "day", "1", "8"], stdout=subprocess.PIPE, check=True).stdout
    day = [line for line in day.splitlines() if line.startswith(b"S")]
    lines = printed.splitlines()
    marked = {int(line.split(b"\t")[1]) for line in lines if line.endswith(b"\tM")}
    samples = [line for line in lines if line.startswith(b"S")]
    differing = [second for second, pair in enumerate(zip(day, samples)) if pair[0] != pair[1]]
    return None if len(day) == len(samples) and marked.issuperset(differing) else "the example is another day"


def keep(name, recording, printed):
    """keeps what fails"""
    folder = pathlib.Path(os.environ.get("DIFFERING", "differing"))
    folder.mkdir(parents=True, exist_ok=True)
    (folder / f"mended-{name}.txt").write_bytes(recording)
    (folder / f"mended-{name}.mended").write_bytes(printed)
    return folder


def main(command, settle, count, first="1"):
    generate, second = built(HERE / "generate"), shlex.quote(str(built(HERE.parent / "second")))
    command = f"{second} mend" if command == "second" else command
    settle = second if settle == "second" else settle
    seeds = range(int(first), int(first) + int(count))
    wrong, mended = 0, 0
    for done, name in enumerate(["archive", *seeds]):
        recording = ARCHIVE.read_bytes() if name == "archive" else subprocess.run(
            [generate, "mend", str(name)], stdout=subprocess.PIPE, check=True).stdout
        printed = settled(command, recording)
        if not printed.splitlines()[-1].startswith(b"R"):
            mended += 1
            why = fault(recording, printed) or (name == "archive" and day_fault(generate, printed))
            if not why and not settles(settle, whole_input(recording, printed)):
                why = "the samples do not settle"
            if why:
                wrong += 1
                print(f"{name}: {why}; see {keep(name, recording, printed)}")
        if done and done % 100 == 0:
            print(f"{done} of {len(seeds)}: {wrong} fail", flush=True)
    refused = len(seeds) + 1 - mended
    print(f"{mended - wrong} of {mended} mended recordings are whole and settle, {refused} were refused: "
          f"the example and seeds {seeds[0]} to {seeds[-1]}")
    return 1 if wrong or not mended or not refused else 0


if __name__ == "__main__":
    if len(sys.argv) not in (4, 5):
        sys.exit(print(__doc__, file=sys.stderr) or 2)
    sys.exit(main(*sys.argv[1:]))
