"""`gridlet-sheet save`: a script becomes the shortest one that makes its sheet."""
from __future__ import annotations

import argparse
import sys
from pathlib import Path
from typing import Any, List

from ..errors import BadInput
from ..saving import check, save_sheet, script_of, state
from ..scripts import head_comments, line_behind_quit
from ..snapshot import Opened, open_sheet


def add_to(parts: Any) -> None:
    """Adds the subcommand's words."""
    it = parts.add_parser(
        "save", help="write a sheet as the shortest script that makes it, and never lose it",
        description="Writes the script that makes the sheet of FILE: its list, or its registers "
                    "where it is a replica. It takes the place of OUT, or of FILE, in one step, "
                    "and only once it reads back equal. Comments at the head are kept, others "
                    "are not. A script with a refused command is left as it is, status 1.")
    it.add_argument("file", metavar="FILE")
    it.add_argument("out", metavar="OUT", nargs="?", help="where to write it; - is the output")
    it.add_argument("--force", action="store_true",
                    help="save what a script makes although some of it was refused")
    it.set_defaults(call=run)


def run(arguments: argparse.Namespace) -> int:
    """Saves, or says why not."""
    opened = open_sheet(arguments.file, arguments.program)
    with opened.sheet:
        unread = line_behind_quit(opened.script)
        if unread and not arguments.force:
            print(f"{arguments.file}:{unread}: what stands behind quit would be lost, so nothing "
                  "was saved", file=sys.stderr)
            return 1
        if opened.is_refused and not arguments.force:
            print(f"gridlet-sheet: {arguments.file}: nothing was saved", file=sys.stderr)
            return 1
        comments, dropped = head_comments(opened.script)
        if dropped and not arguments.out:
            print(f"gridlet-sheet: {arguments.file}: {dropped} comments behind the first command "
                  "are not kept", file=sys.stderr)
        _write(arguments, opened, comments)
    return 0


def _write(arguments: argparse.Namespace, opened: Opened, comments: List[bytes]) -> None:
    sheet = opened.sheet
    if (arguments.out or arguments.file) == "-":
        made = script_of(sheet, comments)
        check(made, state(sheet), arguments.program)
        sys.stdout.buffer.write(made)
        return
    out = Path(arguments.out or arguments.file)
    if out.is_dir():
        raise BadInput(f"{out}: Is a directory")
    save_sheet(sheet, out, comments, None if arguments.out else opened.script)
