"""Files of values that are parted by commas, made into commands; what does not fit is named."""
from __future__ import annotations

import csv
import io
import re
from dataclasses import dataclass
from typing import Dict, Iterable, Iterator, List, Optional, Sequence, Set

from .addresses import Address, Range, ROWS, column_of
from .errors import BadInput
from .scripts import read_bytes
from .values import literal

TEXT_LIMIT = 4096
LEAST, GREATEST = -2 ** 63, 2 ** 63 - 1
INTEGER = re.compile(r"-?(0|[1-9][0-9]*)")
AMOUNT = re.compile(r"([-+]?)([0-9]+|[0-9]{1,3}(?:,[0-9]{3})+|(?=\.))(?:\.([0-9]{0,2}))?")
# Whoever writes this means a number, which the language does not read as one.
LOOKS_LIKE_A_NUMBER = re.compile(r"\s*[-+]?(?:[0-9][0-9,]*(?:\.[0-9]*)?|\.[0-9]+)%?\s*")
SWAPPED = str.maketrans(",.", ".,")


@dataclass(frozen=True)
class Misfit:
    """A field that did not become what it seems to be."""

    line: int
    text: str


@dataclass
class Reader:
    """How the fields of a file are read."""

    texts: Set[int]
    cents: Set[int]
    names: List[str]
    misfits: List[Misfit]
    has_decimal_comma: bool = False

    def content(self, line: int, column: int, field: str, is_head: bool) -> Optional[str]:
        """The content of a field; None where it is empty or cannot be held."""
        if field == "":
            return None
        if len(field.encode("utf-8")) > TEXT_LIMIT:
            return self._lost(line, column, f"a text of more than {TEXT_LIMIT} bytes is left out")
        if column in self.texts:
            return literal(field)
        if column in self.cents:
            return self._cents(line, column, field, is_head)
        if field in ("TRUE", "FALSE"):
            return field
        if INTEGER.fullmatch(field):
            if LEAST <= int(field) <= GREATEST:
                return field
            self._lost(line, column, f"{brief(field)} is outside 64 bits and stays a text")
        elif LOOKS_LIKE_A_NUMBER.fullmatch(field) and not field.isdigit():
            self._lost(line, column, f"{brief(field)} stays a text, which sums pass over; "
                                     f"--cents makes it whole, --text says that it is one")
        return literal(field)

    def _cents(self, line: int, column: int, field: str, is_head: bool) -> str:
        text = field.translate(SWAPPED) if self.has_decimal_comma else field
        found = AMOUNT.fullmatch(text.strip())
        if found and (found[2] or found[3]):
            whole, part = found[2].replace(",", "") or "0", (found[3] or "").ljust(2, "0")
            number = int(whole + part)
            if number <= GREATEST:
                return str(-number if found[1] == "-" else number)
        if not is_head:
            self._lost(line, column, f"{brief(field)} is no amount of at most two decimals, "
                                     "and stays a text")
        return literal(field)

    def _lost(self, line: int, column: int, text: str) -> None:
        name = self.names[column] if column < len(self.names) else ""
        named = f" ({brief(name)})" if name else ""
        self.misfits.append(Misfit(line, f"column {column + 1}{named}: {text}"))


def brief(text: str) -> str:
    """A text on one line, cut where it is long."""
    return "".join(it if it.isprintable() else ascii(it)[1:-1]
                   for it in (text if len(text) <= 40 else text[:39] + "~"))


def read_text(file: str) -> str:
    """The text of a file in UTF-8, less a byte order mark at its head."""
    data = read_bytes(file)
    try:
        return data.decode("utf-8-sig")
    except UnicodeDecodeError as error:
        line = data.count(b"\n", 0, error.start) + 1
        raise BadInput(f"{file}:{line}: not UTF-8") from None


class Records:
    """The records of a file, each with the line on which it begins."""

    def __init__(self, file: str, delimiter: str) -> None:
        self.file, self.text = file, read_text(file)
        self._delimiter = delimiter

    def __iter__(self) -> Iterator["tuple[int, List[str]]"]:
        csv.field_size_limit(1 << 24)
        reader = csv.reader(io.StringIO(self.text, newline=""), delimiter=self._delimiter,
                            strict=True)
        begun = 1
        try:
            for record in reader:
                yield begun, record
                begun = reader.line_num + 1
        except csv.Error as error:
            raise BadInput(f"{self.file}:{begun}: {error}") from None


def column_number(name: str, names: Sequence[str], at: Address) -> int:
    """The column, from 0, that a name, a number from 1 or the letters of the sheet say."""
    if name in names:
        return list(names).index(name)
    if name.isdigit() and int(name) > 0:
        return int(name) - 1
    if re.fullmatch("[A-Z]{1,2}", name) and column_of(name) >= at.column:
        return column_of(name) - at.column
    raise BadInput(f"{name}: no column of the file has this name, number or letters")


def commands(records: Iterable["tuple[int, List[str]]"], reader: Reader,
             at: Address) -> Iterator[str]:
    """The commands that set the fields. An empty record keeps its row."""
    for row, (line, fields) in enumerate(records):
        kept: Dict[int, str] = {}
        for column, field in enumerate(fields):
            content = reader.content(line, column, field, row == 0)
            if content is not None:
                kept[column] = content
        for column, content in kept.items():
            place = at.moved(row, column)
            if place is None:
                reader.misfits.append(Misfit(line, f"column {column + 1} lies off the grid"))
                continue
            yield f"set {place} {content}"


def room(at: Address, columns: int) -> Range:
    """The columns of a file, down to the last row of the grid."""
    last = at.moved(0, columns - 1) or Address(at.row, column_of("ZZ"))
    return Range(at, Address(ROWS, last.column))


def guessed_delimiter(text: str) -> Optional[str]:
    """The character that seems to part the fields where no comma does."""
    line = text.split("\n", 1)[0]
    if "," in line:
        return None
    return next((it for it in ";\t|" if it in line), None)
