"""What replies are made of, as values of Python, and the texts of cells and of contents."""
from __future__ import annotations

import re
from dataclasses import dataclass
from operator import index
from typing import List, Optional, Tuple, Union

from .addresses import Address, Range, area

_ESCAPE = re.compile(r"\\(x[0-9A-Fa-f]{2}|.)")
_ESCAPES = {"n": "\n", "r": "\r", "t": "\t"}
_LITERALS = {"\\": "\\\\", '"': '\\"', "\n": "\\n", "\r": "\\r", "\t": "\\t"}
_NEEDS_ESCAPE = re.compile(r'[\\"\x00-\x1f\x7f]')


@dataclass(frozen=True)
class CellError:
    """An error that a cell shows, such as `#REF!`; `#CYCLE!` and `#SPILL!` among them."""

    name: str

    def __str__(self) -> str:
        return self.name


@dataclass(frozen=True)
class SheetValue:
    """A copy of a region that a cell holds. Only its region is told."""

    region: str

    def __str__(self) -> str:
        return f"sheet({self.region})"


Value = Union[None, int, bool, str, CellError, SheetValue]


@dataclass(frozen=True)
class Array:
    """An array that a formula comes to: its root, its size, and whether it spills."""

    root: Address
    rows: int
    columns: int
    permitted: bool

    @property
    def area(self) -> Range:
        """The cells that it covers, or would cover."""
        return area(self.root, self.rows, self.columns)


@dataclass(frozen=True)
class Permit:
    """The reply of `why`: `none`, `permitted`, `edge`, or `content` or `root` with an address."""

    kind: str
    obstacle: Optional[Address] = None

    def __str__(self) -> str:
        return f"{self.kind} {self.obstacle}" if self.obstacle else self.kind


@dataclass(frozen=True)
class Note:
    """A line of an explanation: what a cell, a cell of a copy or a settling comes to."""

    kind: str
    place: str
    outcome: str


@dataclass(frozen=True)
class Explanation:
    """The reply of `explain`: notes, each by those before it, loops, and the checker's word."""

    notes: Tuple[Note, ...]
    loops: Tuple[Note, ...]
    shown: Value
    accepted: bool


@dataclass(frozen=True)
class Forecast:
    """The reply of `flow`: `yes` with a height, or `circle` or `unknown` with an address."""

    kind: str
    height: Optional[int] = None
    address: Optional[Address] = None

    def __str__(self) -> str:
        return f"{self.kind} {self.address if self.height is None else self.height}"


@dataclass(frozen=True)
class Edit:
    """A register of a replica: the latest edit of an address, None where it was cleared."""

    time: int
    site: int
    address: Address
    content: Optional[str]


Rows = List[List[Value]]


def read_value(shown: str) -> Value:
    """The value that a cell shows."""
    if shown == ".":
        return None
    if shown.startswith('"'):
        return _ESCAPE.sub(_unescaped, shown[1:-1])
    if shown in ("TRUE", "FALSE"):
        return shown == "TRUE"
    if shown.startswith("#"):
        return CellError(shown)
    return SheetValue(shown[6:-1]) if shown.startswith("sheet(") else int(shown)


def _unescaped(found: "re.Match[str]") -> str:
    what = found[1]
    return chr(int(what[1:], 16)) if len(what) == 3 else _ESCAPES.get(what, what)


def literal(text: str) -> str:
    """The literal of a text."""
    return '"' + _NEEDS_ESCAPE.sub(
        lambda it: _LITERALS.get(it[0], f"\\x{ord(it[0]):02x}"), text) + '"'


def content(value: object) -> str:
    """The text of a content: a formula where a text begins with `=`, else by the value's type."""
    if isinstance(value, bool):
        return "TRUE" if value else "FALSE"
    if isinstance(value, str):
        return value if value.startswith("=") else literal(value)
    if hasattr(value, "__index__"):
        return str(index(value))  # of other libraries' integers too
    raise TypeError(f"a cell holds an int, a bool or a str, and no {type(value).__name__}")
