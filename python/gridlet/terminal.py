"""A grid in a terminal, with colours where the terminal has them."""
from __future__ import annotations

import os
import shutil
import sys
import unicodedata
from typing import Dict, List

from .addresses import Address, Range, letters
from .values import Array, CellError, Rows, SheetValue, Value, literal

WIDEST = 24
COLOURS = {"dim": "2", "bad": "31", "spill": "36", "bold": "1"}


def has_colours() -> bool:
    """Whether standard output is a terminal that wants colours."""
    return sys.stdout.isatty() and "NO_COLOR" not in os.environ and (
        os.environ.get("TERM") != "dumb")


def painted(text: str, colour: str, is_coloured: bool) -> str:
    """A text in a colour."""
    return f"\x1b[{COLOURS[colour]}m{text}\x1b[0m" if is_coloured and text.strip() else text


def face(value: Value) -> str:
    """The text on a cell, cut where it is long. Texts have no quotes here."""
    if value is None:
        return ""
    if isinstance(value, bool):
        return "TRUE" if value else "FALSE"
    text = literal(value)[1:-1].replace('\\"', '"').replace("\\\\", "\\") if isinstance(
        value, str) else str(value)
    return text if len(text) <= WIDEST else text[:WIDEST - 1] + "~"


def width_of(text: str) -> int:
    """How many places a text takes in a terminal."""
    if text.isascii():
        return len(text)
    return sum(0 if unicodedata.combining(it) else 2 if unicodedata.east_asian_width(it) in "WF"
               else 1 for it in text)


def colour_of(value: Value, is_spilled: bool) -> str:
    """The colour of a cell, empty where it has none."""
    if isinstance(value, CellError):
        return "bad"
    if is_spilled:
        return "spill"
    return "dim" if isinstance(value, SheetValue) else ""


def grid(found: Range, rows: Rows, covers: Dict[Address, Array],
         is_coloured: bool, width: int = 0) -> List[str]:
    """The lines of a grid: letters above, numbers at the left, texts left and all else right."""
    width = width or shutil.get_terminal_size((1000, 24)).columns
    edge = len(str(found.last.row))
    columns, names, sizes = list(zip(*rows)), [], []
    for number, column in enumerate(columns, found.first.column):
        size = max(len(letters(number)), *(width_of(face(it)) for it in column))
        if names and edge + sum(sizes) + 2 * len(sizes) + 2 + size > width:
            break
        names.append(letters(number))
        sizes.append(size)
    head = " " * edge + "".join("  " + name.center(size) for name, size in zip(names, sizes))
    lines = [painted(head.rstrip(), "dim", is_coloured)]
    for row, values in enumerate(rows, found.first.row):
        cells = [_cell(value, size, Address(row, column) in covers, is_coloured)
                 for column, (value, size) in enumerate(zip(values, sizes), found.first.column)]
        lines.append(painted(str(row).rjust(edge), "dim", is_coloured)
                     + "".join("  " + it for it in cells).rstrip())
    if len(names) < len(columns):
        lines.append(f"({len(columns) - len(names)} more columns, up to "
                     f"{letters(found.last.column)}, are wider than this terminal)")
    return lines


def _cell(value: Value, size: int, is_spilled: bool, is_coloured: bool) -> str:
    text = face(value)
    room = " " * (size - width_of(text))
    text = text + room if isinstance(value, str) else room + text
    colour = colour_of(value, is_spilled)
    return painted(text, colour, is_coloured) if colour else text
