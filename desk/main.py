"""The command line: finds the command, runs it, and turns every way that it can end in into an exit status."""
import importlib
import os
import signal
import sys

from desk import endings, signals, streams
from desk.commands import COMMANDS
from desk.endings import ACCEPTED, ReaderGone, Trouble
from desk.inputwords import inputs_alone
from desk.visible import visible

ABOUT = """Fireboxer settles a pool's secondary control energy, by programs that are proved.

usage: fireboxer COMMAND [WORD ..]

commands:
{commands}
  help [COMMAND]  this text, or that of a command; so does COMMAND --help
  --version       commit, toolchain, and whether what runs is built from what is there

  ./fireboxer settle examples/example.txt

The first time, and after a source changed, the program is proved before it is built, which takes some minutes.

{statuses}
"""


def main(words):
    """runs the command line, and ends the process"""
    streams.hold_closed_streams()
    signals.watch()
    try:
        sys.exit(_run(words))
    except Trouble as trouble:
        streams.say(trouble)
        sys.exit(trouble.status)
    except OSError as error:
        streams.say(error)
        sys.exit(endings.TROUBLE)
    except ReaderGone:
        signals.end_by(signal.SIGPIPE)
    except signals.Stopped as stopped:
        signals.end_by(stopped.number)


def _run(words):
    command, *rest = words or ["help"]
    if command in ("help", "--help", "-h"):
        return _run([rest[0], "--help"]) if rest else _help()
    if command == "--version":
        from desk.version import tell
        return tell()
    if command not in COMMANDS:
        raise Trouble(f"there is no command {visible(os.fsencode(command))}; see fireboxer help")
    module = importlib.import_module(f"desk.commands.{command}")
    return module.run(inputs_alone(module, rest) or _parsed(command, module, rest))


def _parsed(command, module, words):
    # imported here, since reading words by argparse takes longer than all else that is done at the start
    from desk.parsing import Parser
    parser = Parser(prog=f"fireboxer {command}", description=COMMANDS[command], epilog=endings.table())
    module.arguments(parser)
    return parser.parse_args(words)


def _help():
    commands = "\n".join(f"  {name:<14}  {summary}" for name, summary in COMMANDS.items())
    streams.print_out(ABOUT.format(commands=commands, statuses=endings.table()).encode())
    return ACCEPTED
