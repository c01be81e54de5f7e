"""Addresses and ranges of the grid, as rows and columns that count from 1."""
from __future__ import annotations

import re
from typing import Iterator, NamedTuple, Optional

COLUMNS = 702
ROWS = 9999

_ADDRESS = re.compile(r"([A-Z]{1,2})([1-9][0-9]{0,3})")


def letters(column: int) -> str:
    """The letters of a column: A for 1, AA for 27."""
    text = ""
    while column:
        column, rest = divmod(column - 1, 26)
        text = chr(65 + rest) + text
    return text


def column_of(text: str) -> int:
    """The number of the column with these letters."""
    number = 0
    for letter in text:
        number = number * 26 + ord(letter) - 64
    return number


class Address(NamedTuple):
    """A cell's place. Sorted by rows, as every reply is."""

    row: int
    column: int

    def __str__(self) -> str:
        return letters(self.column) + str(self.row)

    def moved(self, rows: int, columns: int) -> Optional["Address"]:
        """The address so many rows below and columns to the right; None off the grid."""
        there = Address(self.row + rows, self.column + columns)
        return there if 1 <= there.row <= ROWS and 1 <= there.column <= COLUMNS else None


class Range(NamedTuple):
    """A rectangle of cells, by its first and its last."""

    first: Address
    last: Address

    def __str__(self) -> str:
        return str(self.first) if self.first == self.last else f"{self.first}:{self.last}"

    @property
    def rows(self) -> int:
        """How many rows it has."""
        return self.last.row - self.first.row + 1

    @property
    def columns(self) -> int:
        """How many columns it has."""
        return self.last.column - self.first.column + 1

    def cells(self) -> Iterator[Address]:
        """Its addresses, row by row."""
        for row in range(self.first.row, self.last.row + 1):
            for column in range(self.first.column, self.last.column + 1):
                yield Address(row, column)

    def parts(self, size: int) -> Iterator["Range"]:
        """Its rows, in ranges of at most so many cells, but of a row at least."""
        step = max(1, size // self.columns)
        for row in range(self.first.row, self.last.row + 1, step):
            yield Range(Address(row, self.first.column),
                        Address(min(row + step - 1, self.last.row), self.last.column))

    def __contains__(self, address: object) -> bool:
        return (isinstance(address, Address)
                and self.first.row <= address.row <= self.last.row
                and self.first.column <= address.column <= self.last.column)


def read_address(text: str) -> Optional[Address]:
    """The address that a text names; None where it names none."""
    found = _ADDRESS.fullmatch(text)
    return Address(int(found[2]), column_of(found[1])) if found else None


def address_of(text: str) -> Address:
    """The address that a text names; a ValueError where it names none."""
    found = read_address(text)
    if found is None:
        raise ValueError(f"{text!r} is no address such as A1")
    return found


def read_range(text: str) -> Optional[Range]:
    """The range that a text names; None where it names none or its corners are out of order."""
    first, colon, last = text.partition(":")
    one, other = read_address(first), read_address(last if colon else first)
    if not one or not other or other.row < one.row or other.column < one.column:
        return None
    return Range(one, other)


def area(root: Address, rows: int, columns: int) -> Range:
    """The cells that an array of this size covers from its root on, cut at the grid's edge."""
    last = Address(min(root.row + rows - 1, ROWS), min(root.column + columns - 1, COLUMNS))
    return Range(root, last)
