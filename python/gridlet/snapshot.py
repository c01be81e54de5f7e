"""What a sheet shows at one time: the box of all that is in it, its arrays and its values."""
from __future__ import annotations

import sys
from dataclasses import dataclass
from pathlib import Path
from typing import Dict, Iterable, List, NamedTuple, Optional, Union

from .addresses import Address, Range, address_of
from .program import Answer
from .scripts import read_bytes
from .sheet import Sheet
from .values import Array, Rows


def box(places: Iterable[Range]) -> Optional[Range]:
    """The least range that holds all of these; None where there is none."""
    found = list(places)
    if not found:
        return None
    first = Address(min(it.first.row for it in found), min(it.first.column for it in found))
    last = Address(max(it.last.row for it in found), max(it.last.column for it in found))
    return Range(first, last)


def used(sheet: Sheet) -> Optional[Range]:
    """The box of all contents and of all arrays that spill."""
    return box([*(Range(it, it) for it in map(address_of, sheet.list())),
                *(it.area for it in sheet.oracle() if it.permitted)])


@dataclass
class Snapshot:
    """The cells of a range with what they show, hold and belong to."""

    range: Range
    rows: Rows
    contents: Dict[str, str]
    arrays: List[Array]
    permits: Dict[Address, str]
    forecast: str

    def covers(self) -> Dict[Address, Array]:
        """The array that spills into each address, of those that do."""
        return {at: array for array in self.arrays if array.permitted
                for at in array.area.cells()}


def take(sheet: Sheet, where: Optional[Range] = None) -> Snapshot:
    """A snapshot of a range, or of the box of all that is in the sheet."""
    sheet.calc()
    found = where or used(sheet) or Range(Address(1, 1), Address(1, 1))
    arrays = sheet.oracle()
    permits = {it.root: str(sheet.why(it.root)) for it in arrays}
    return Snapshot(found, sheet.view(found), sheet.list(), arrays, permits, str(sheet.flow()))


class Opened(NamedTuple):
    """The sheet of a file, its script, and the replies to that."""

    sheet: Sheet
    script: bytes
    answers: List[Answer]

    @property
    def is_refused(self) -> bool:
        """Whether some command was."""
        return any(reply.refusal is not None for _, reply in self.answers)


def open_sheet(file: Union[str, Path], program: Optional[str]) -> Opened:
    """The sheet of a file; what is refused is named on standard error."""
    script = read_bytes(file)
    sheet = Sheet(program=program)
    try:
        answers = sheet.load_script(script, file)
    except BaseException:
        sheet.close()
        raise
    for item, reply in answers:
        if reply.refusal is not None:
            print(f"{item.place}{reply.lines[0]}: {item.command}", file=sys.stderr)
    return Opened(sheet, script, answers)
