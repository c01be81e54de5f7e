"""`gridlet-sheet fill`: a formula written out for each cell of a range."""
from __future__ import annotations

import argparse
import re
from typing import Any, Iterator

from ..addresses import Address, address_of, column_of, letters, read_range
from ..errors import BadInput

# Texts are passed over, so that an address within one stays; so is any longer word.
PIECE = re.compile(
    r'"(?:[^"\\]|\\.)*"|(?<![A-Za-z0-9_$])(\$?)([A-Z]{1,2})(\$?)([1-9][0-9]{0,3})(?![A-Za-z0-9_(])')


def add_to(parts: Any) -> None:
    """Adds the subcommand's words."""
    it = parts.add_parser(
        "fill", help="print a formula for each cell of a range, its references moved",
        description="Prints set lines for the cells of a range, with the formula as it stands "
                    "for the first of them. References move along; a $ keeps a column or a row.",
        epilog="example: gridlet-sheet fill 'E2:E25 =(G1*$B$2)/12' >> loan.gridlet")
    it.add_argument("fills", metavar="'RANGE =FORMULA'", nargs="+")
    it.set_defaults(call=run)


def run(arguments: argparse.Namespace) -> int:
    """Prints the lines, or none where a reference leaves the grid."""
    lines = [line for it in arguments.fills for line in filled(it)]
    for line in lines:
        print(line)
    return 0


def filled(text: str) -> Iterator[str]:
    """The commands that write a content into each cell of a range."""
    where, _, content = text.partition(" ")
    found = read_range(where)
    if found is None or not content or "\n" in content:
        raise BadInput(f"{text}: no range with a formula behind it, such as 'E2:E25 =G1*$B$2'")
    for cell in found.cells():
        rows, columns = cell.row - found.first.row, cell.column - found.first.column
        yield f"set {cell} {moved(content, rows, columns, cell)}"


def moved(content: str, rows: int, columns: int, cell: Address) -> str:
    """The content with its references so many rows below and columns to the right."""
    if not content.startswith("="):
        return content

    def reference(piece: "re.Match[str]") -> str:
        """A reference where it comes to stand; a text and a longer word as they are."""
        if piece[2] is None:
            return piece[0]
        column = column_of(piece[2]) + (0 if piece[1] else columns)
        row = int(piece[4]) + (0 if piece[3] else rows)
        there = address_of(piece[2] + piece[4]).moved(
            row - int(piece[4]), column - column_of(piece[2]))
        if there is None:
            raise BadInput(f"{cell}: the reference {piece[0]} leaves the grid")
        return letters(there.column) + str(there.row)

    return PIECE.sub(reference, content)
