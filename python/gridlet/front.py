"""The front program `gridlet-sheet`, and what its subcommands share."""
from __future__ import annotations

import argparse
import io
import os
import sys
from typing import List, Optional

from . import __version__
from .commands import check, difference, fill, importing, opening, saved, showing
from .errors import GridletError, Refused, Spent

COMMANDS = (check, showing, importing, fill, saved, difference, opening)
DESCRIPTION = "Works on sheets that are kept as scripts of Gridlet."
STATUSES = """Exit status: 0 where all is well, 1 where something was refused, differs or does not
fit, 2 for wrong arguments, files that cannot be read and programs that fail. The program that
answers is $GRIDLET, else gridlet on the path, beside this one, or of this checkout."""


def parser() -> argparse.ArgumentParser:
    """The words that the program takes."""
    whole = argparse.ArgumentParser(
        prog="gridlet-sheet", description=DESCRIPTION, epilog=STATUSES)
    whole.add_argument("--version", action="version", version=f"gridlet-sheet {__version__}")
    whole.add_argument("--program", metavar="FILE", help="the built program gridlet")
    parts = whole.add_subparsers(title="subcommands", metavar="SUBCOMMAND", dest="subcommand")
    for command in COMMANDS:
        command.add_to(parts)
    return whole


def main(words: Optional[List[str]] = None) -> int:
    """Runs a subcommand, and tells the exit status."""
    arguments = parser().parse_args(words)
    if not arguments.subcommand:
        parser().print_help(sys.stderr)
        return 2
    for stream in (sys.stdout, sys.stderr):
        if isinstance(stream, io.TextIOWrapper):
            stream.reconfigure(encoding="utf-8", errors="backslashreplace")
    try:
        status = arguments.call(arguments)
        sys.stdout.flush()
        return int(status)
    except (Refused, Spent) as error:
        file = getattr(arguments, "file", None)
        named = f"{file}: " if file and not str(error).startswith(str(file)) else ""
        print(f"gridlet-sheet: {named}{error}", file=sys.stderr)
        return 1
    except GridletError as error:
        print(f"gridlet-sheet: {error}", file=sys.stderr)
        return 2
    except OSError as error:
        # The output cannot be written, so the interpreter must not try to write the rest.
        os.dup2(os.open(os.devnull, os.O_WRONLY), sys.stdout.fileno())
        if isinstance(error, BrokenPipeError):
            return 141
        name = error.filename or "standard output"
        print(f"gridlet-sheet: {name}: {error.strerror}", file=sys.stderr)
        return 2
    except KeyboardInterrupt:
        return 130
