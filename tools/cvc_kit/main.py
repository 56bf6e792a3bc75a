"""The program: finds the subcommand, and turns whatever goes wrong into a line and a status."""

import argparse
import os
import sys
from typing import Dict, List

from . import diff, lint, prepare, review, start, waive
from .text import KitError, warn

COMMANDS: Dict[str, object] = {"lint": lint, "start": start, "review": review, "diff": diff, "waive": waive, "prepare": prepare}
ABOUT = "Companions of the checker cvc. They read its files and its report; none of them is proved, and none changes what cvc says."


def usage() -> str:
    """The help of the program as a whole."""
    rows = [f"  {name:8} {command.SUMMARY}" for name, command in COMMANDS.items()]
    return "\n".join(["usage: cvc-kit COMMAND ..", "", ABOUT, "", *rows, "", "cvc-kit COMMAND --help has more. docs/KIT.md has examples."])


def main(words: List[str]) -> int:
    """Runs one subcommand and answers its exit status."""
    for stream in (sys.stdout, sys.stderr):
        stream.reconfigure(encoding="utf-8", errors="surrogateescape", newline="\n")
    if words[:1] in (["--help"], ["-h"], ["help"]):
        print(usage())
        return 0
    command = COMMANDS.get(words[0]) if words else None
    if command is None:
        print(usage(), file=sys.stderr)
        return 2
    form = argparse.RawDescriptionHelpFormatter
    parser = argparse.ArgumentParser(f"cvc-kit {words[0]}", description=command.__doc__, epilog=command.EXIT, formatter_class=form)
    command.configure(parser)
    return guarded(command, parser.parse_intermixed_args(words[1:]))


def guarded(command: object, args: argparse.Namespace) -> int:
    """Runs a subcommand; a fault is a line on standard error and status 2."""
    try:
        status = command.run(args)
        sys.stdout.flush()
        return status
    except KitError as fault:
        warn(str(fault))
    except BrokenPipeError:
        os.dup2(os.open(os.devnull, os.O_WRONLY), sys.stdout.fileno())
    except OSError as fault:
        warn(fault.strerror or str(fault))
    except MemoryError:
        warn("no memory")
    except KeyboardInterrupt:
        warn("interrupted")
    return 2
