"""`gridlet-sheet open`: a prompt over a sheet, or a range that is shown at each change."""
from __future__ import annotations

import argparse
import os
import sys
import time
from pathlib import Path
from typing import Any, Callable, Optional, Tuple

from .. import terminal
from ..addresses import Range, read_range
from ..completion import keep, prepare
from ..errors import BadInput, GridletError
from ..manual import manual
from ..prompt import Prompt, loop
from ..sheet import Sheet
from ..snapshot import Opened, open_sheet, used

SECONDS = 0.2


def add_to(parts: Any) -> None:
    """Adds the subcommand's words."""
    it = parts.add_parser(
        "open", help="a prompt with history, completion, a grid, help and save",
        description="Opens a sheet at a prompt: its commands, a grid behind view, help WORD and "
                    "save. With --watch, shows a range again whenever the file changes.")
    it.add_argument("file", metavar="FILE", nargs="?")
    it.add_argument("range", metavar="RANGE", nargs="?", help="with --watch, what to show")
    it.add_argument("--watch", action="store_true",
                    help="show the file's grid again whenever it changes")
    it.set_defaults(call=run)


def run(arguments: argparse.Namespace) -> int:
    """Opens the prompt, or watches."""
    if arguments.watch:
        if not arguments.file:
            raise BadInput("--watch wants a file")
        return watch(arguments.file, arguments.range, arguments.program)
    if arguments.range:
        raise BadInput("a range goes with --watch alone")
    file = Path(arguments.file) if arguments.file else None
    is_new = file is None or not file.exists()
    opened = Opened(Sheet(program=arguments.program), b"", []) if is_new else open_sheet(
        str(file), arguments.program)
    prompt = Prompt(opened.sheet, manual(), file, opened.answers)
    try:
        if sys.stdin.isatty():
            named = f"{file} is new. " if file and is_new else f"{file} is open. " if file else ""
            print(f"{named}help says what there is; quit leaves.")
            prepare(prompt)
        loop(prompt)
        if sys.stdin.isatty():
            keep()
        return prompt.status
    finally:
        prompt.sheet.close()


def watch(file: str, where: Optional[str], program: Optional[str],
          go_on: Callable[[], bool] = lambda: True) -> int:
    """Shows a range now and at each change of the file, until it is stopped."""
    found = read_range(where) if where else None
    if where and not found:
        raise BadInput(f"{where}: no range such as A1:B3")
    seen: Any = ()
    while go_on():
        now = stamp(file)
        if now != seen:
            seen = now
            if sys.stdout.isatty():
                print("\x1b[2J\x1b[H", end="")
            print(f"{file}, {time.strftime('%H:%M:%S')}")
            try:
                show(file, found, program)
            except GridletError as error:
                print(error)
            sys.stdout.flush()
        time.sleep(SECONDS)
    return 0


def stamp(file: str) -> Optional[Tuple[int, int, int]]:
    """What changes when a file does; None where there is none."""
    try:
        it = os.stat(file)
        return it.st_mtime_ns, it.st_size, it.st_ino
    except OSError:
        return None


def show(file: str, where: Optional[Range], program: Optional[str]) -> None:
    """The grid of a file as it stands."""
    with open_sheet(file, program).sheet as sheet:
        found = where or used(sheet)
        if found:
            covers = {at: it for it in sheet.oracle() if it.permitted for at in it.area.cells()}
            print("\n".join(terminal.grid(found, sheet.view(found), covers,
                                          terminal.has_colours())))
