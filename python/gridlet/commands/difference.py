"""`gridlet-sheet diff`: contents that differ, and cells that show otherwise."""
from __future__ import annotations

import argparse
from typing import Any, Dict, List

from ..addresses import Address, address_of
from ..errors import Spent
from ..sheet import Sheet
from ..snapshot import open_sheet


def add_to(parts: Any) -> None:
    """Adds the subcommand's words."""
    it = parts.add_parser(
        "diff", help="print the contents that differ, and the cells that show otherwise",
        description="Prints a line - and + for contents that differ, and a line ~ for each cell "
                    "that shows otherwise with the same content or with none. Status 1 where "
                    "something differs.")
    it.add_argument("before", metavar="A")
    it.add_argument("after", metavar="B")
    it.add_argument("--contents", action="store_true", help="compare contents alone")
    it.set_defaults(call=run)


def run(arguments: argparse.Namespace) -> int:
    """Prints the differences."""
    one = open_sheet(arguments.before, arguments.program)
    with one.sheet:
        other = open_sheet(arguments.after, arguments.program)
        with other.sheet:
            lines = differences(one.sheet, other.sheet, arguments.contents)
    if lines:
        print(f"--- {arguments.before}\n+++ {arguments.after}")
    for line in lines:
        print(line)
    if one.is_refused or other.is_refused:
        return 2
    return 1 if lines else 0


def differences(one: Sheet, other: Sheet, is_short: bool) -> List[str]:
    """The lines that tell the difference, in the order of rows."""
    before, after = one.list(), other.list()
    made = [] if one.version == other.version else [
        f"-version {one.version}", f"+version {other.version}"]
    where = places(one, other)
    shows: List[Dict[str, str]] = [{} if is_short else shown(it, where) for it in (one, other)]
    for place in map(str, where):
        old, new = before.get(place), after.get(place)
        was, now = (it.get(place) for it in shows)
        if old != new:
            made += [f"-set {place} {old}"] if old is not None else []
            made += [f"+set {place} {new}"] if new is not None else []
        elif was != now:
            made.append(f"~{place}{f' ({new})' if new else ''} {was} -> {now}")
    return made


def places(*sheets: Sheet) -> List[Address]:
    """Where a sheet has content, or an array spills."""
    found = set()
    for sheet in sheets:
        found.update(map(address_of, sheet.list()))
        try:
            found.update(at for it in sheet.oracle() if it.permitted for at in it.area.cells())
        except Spent:
            # Such a sheet has no arrays, and each of its cells shows what is spent.
            pass
    return sorted(found)


def shown(sheet: Sheet, where: List[Address]) -> Dict[str, str]:
    """The text that each of these cells shows."""
    answers = sheet.run(f"show {it}" for it in where)
    return {str(at): reply.lines[0] for at, (_, reply) in zip(where, answers)}
