"""What the benchmarks share: the programs that are measured, the stopwatch, and the places in docs/SPEED.md."""
import functools
import json
import os
import pathlib
import subprocess
import sys

ROOT = pathlib.Path(__file__).resolve().parents[1]
SPEED = ROOT / "docs" / "SPEED.md"


@functools.cache
def built(package, native=False):
    """builds a package of Rust, for the processor at hand where asked for; answers its program"""
    told = subprocess.run(["cargo", "metadata", "--format-version", "1", "--no-deps", "--offline"], cwd=ROOT / package,
                          check=True, stdout=subprocess.PIPE).stdout
    target = pathlib.Path(json.loads(told)["target_directory"]) / ("native" if native else "")
    flags = {"RUSTFLAGS": "-C target-cpu=native"} if native else {}
    subprocess.run(["cargo", "build", "--release", "--offline", "--quiet", "--jobs", "1", "--target-dir", target],
                   cwd=ROOT / package, check=True, env={**os.environ, **flags})
    return os.path.relpath(target / "release" / pathlib.Path(package).name, ROOT)


def settle():
    """the settling program, proved and built where it is not fresh"""
    if os.uname().machine != "x86_64":
        sys.exit("the settling program is made for x86-64: under an emulator a time says nothing")
    subprocess.run(["./fireboxer", "settle", "examples/example.txt"], cwd=ROOT, check=True, stdout=subprocess.DEVNULL)
    return "crates/settle/out/settle"


def generate(*words):
    """what the generator of tests writes"""
    return printed(f"{built('tests/generate')} {' '.join(map(str, words))}", os.devnull)


def printed(command, path):
    """what a command prints for a file"""
    with open(path, "rb") as file:
        return subprocess.run(command.split(), cwd=ROOT, check=True, stdin=file, stdout=subprocess.PIPE).stdout


def compare(commands, paths):
    """has all commands print the same for each file, or ends; answers what they print"""
    sheets = []
    for path in paths:
        first, *others = (printed(command, path) for command in commands)
        if any(sheet != first for sheet in others):
            sys.exit(f"the sheets of {path} differ: {', '.join(commands)}")
        sheets.append(first)
    return sheets


def times(rounds, commands, paths):
    """for each file the best time of each command in nanoseconds"""
    return _measured(["time", str(rounds)], commands, paths)


def memory(commands, paths):
    """for each file the most memory of each command in KiB"""
    return _measured(["memory"], commands, paths)


def _measured(words, commands, paths):
    told = subprocess.run([built("bench"), *words, *commands, "--", *map(str, paths)], cwd=ROOT, check=True,
                          stdout=subprocess.PIPE).stdout.decode()
    return [[int(number) for number in line.split("\t")] for line in told.splitlines()]


def row(*cells):
    """a line of a table"""
    return f"| {' | '.join(map(str, cells))} |\n"


def head(*cells):
    """the first lines of a table"""
    return row(*cells) + "|" + "---|" * len(cells) + "\n"


def machine():
    """what was measured on, in words"""
    told = pathlib.Path("/proc/cpuinfo").read_text(encoding="utf-8")
    model = next((line.partition(": ")[2] for line in told.splitlines() if line.startswith("model name")), "unknown")
    return f"{model}, {len(os.sched_getaffinity(0))} processors"


def put(mark, text):
    """puts figures into their place in docs/SPEED.md"""
    page = SPEED.read_text(encoding="utf-8")
    begin, end = f"<!-- {mark} -->\n", f"<!-- end of {mark} -->\n"
    before, _, rest = page.partition(begin)
    _, found, after = rest.partition(end)
    if not found:
        sys.exit(f"{SPEED} has no place for {mark}")
    SPEED.write_text(f"{before}{begin}{text}{end}{after}", encoding="utf-8")
