"""The forms of commands and replies. No other module knows them.

A script is a list of items: a line, with the payload behind it where it is an import. Each item
but a comment and an empty line has one reply, whose first line says how many more it has.
"""
from __future__ import annotations

import re
from typing import Callable, Iterator, List, NamedTuple, Optional, Tuple

from .addresses import Address, address_of, read_address, read_range
from .errors import ProgramFailed, Refused, Spent
from .values import Array, Edit, Explanation, Forecast, Note, Permit, read_value

LINE_LIMIT = 32_768
PAYLOAD_LIMIT = 1_048_576

_SAYS_OK = frozenset((
    b"set", b"clear", b"import", b"undo", b"redo", b"site", b"edit", b"gridlet"))
_WIDEST = 24
_CELL = re.compile(r'"(?:[^"\\]|\\.)*"|[^" ]+')
_IMPORT = re.compile(rb"import [^ ]+ (0|[1-9][0-9]{0,6})")


class Item(NamedTuple):
    """A line of a script without its end, with its payload and what is missing of it."""

    text: bytes
    payload: bytes = b""
    missing: int = 0
    line: int = 0
    file: str = ""

    @property
    def is_silent(self) -> bool:
        """Whether it has no reply: a comment or an empty line."""
        return self.text[:1] in (b";", b"") and len(self.text) <= LINE_LIMIT

    @property
    def command(self) -> str:
        """The line as people read it, cut where it is long."""
        text = self.text[:400].decode("utf-8", "backslashreplace")
        text = text if len(text) <= 100 else text[:99] + "~"
        return "".join(it if it.isprintable() else ascii(it)[1:-1] for it in text)

    @property
    def place(self) -> str:
        """`FILE:LINE: `, or nothing for a command that stands in no file."""
        return f"{self.file}:{self.line}: " if self.file else ""

    @property
    def whole(self) -> bytes:
        """The bytes that a program reads, which drops one CR before LF."""
        return self.text + (b"\r\n" if self.text[-1:] == b"\r" else b"\n") + self.payload


def payload_due(text: bytes) -> int:
    """How many bytes of payload stand behind a line."""
    if not text.startswith(b"import ") or len(text) > LINE_LIMIT:
        return 0
    found = _IMPORT.fullmatch(text)
    if not found or int(found[1]) > PAYLOAD_LIMIT:
        return 0
    try:
        text.decode("utf-8")
    except UnicodeDecodeError:
        return 0
    return int(found[1])


def items(script: bytes, file: str = "") -> Iterator[Item]:
    """The items of a script, up to its end or with its first `quit`."""
    at, number = 0, 1
    while at < len(script):
        end = script.find(b"\n", at)
        text = script[at:] if end < 0 else script[at:end]
        at = len(script) if end < 0 else end + 1
        text = text[:-1] if text.endswith(b"\r") else text
        due = payload_due(text)
        payload = script[at:at + due] if due else b""
        yield Item(text, payload, due - len(payload), number, file)
        if text == b"quit":
            return
        number += 1 + payload.count(b"\n")
        at += len(payload)


class Reply(NamedTuple):
    """The lines that answer a command."""

    lines: Tuple[str, ...]

    @property
    def refusal(self) -> Optional[str]:
        """The word of a refused command."""
        return self.lines[0][6:] if self.lines[0].startswith("error ") else None

    @property
    def spent(self) -> Optional[str]:
        """The budget that is spent where the sheet does not settle."""
        return self.lines[0][6:] if self.lines[0].startswith("spent ") else None

    def accepted(self, item: Item) -> Tuple[str, ...]:
        """The lines of a reply that says neither."""
        if self.refusal is not None:
            raise Refused(self.refusal, item.command, item.place)
        if self.spent is not None:
            raise Spent(self.spent, item.command, item.place)
        return self.lines


_OK = Reply(("ok",))


def is_edit(item: Item, reply: Reply) -> bool:
    """Whether a command was accepted that changes the sheet, or how it is read."""
    return reply.lines == _OK.lines and item.text.split(b" ", 1)[0] in _SAYS_OK


def place_set(item: Item) -> Optional[str]:
    """The address that a `set` or an `edit` names; None for another command."""
    pieces = item.text.decode("utf-8", "replace").split(" ", 4)
    where = {"set": 1, "edit": 3}.get(pieces[0])
    return pieces[where] if where and where < len(pieces) else None


class Pairing:
    """Reads the reply to each command from a source of lines, which is empty behind its last."""

    def __init__(self, next_line: Callable[[], Optional[bytes]]) -> None:
        self.version = 1
        self._next_line = next_line

    def reply_to(self, item: Item) -> Reply:
        """The whole reply to an item that has one."""
        first = self._line(item)
        if first == "ok" and item.text.split(b" ", 1)[0] in _SAYS_OK:
            self.version = 2 if item.text == b"gridlet 2" else self.version
            return _OK
        try:
            count = self._behind(item.text, first)
        except (ValueError, IndexError):
            raise ProgramFailed(
                f"{item.place}the program gave no such reply as {first[:60]!r} to: "
                f"{item.command}") from None
        return Reply((first, *(self._line(item, "its whole reply to") for _ in range(count))))

    def _line(self, item: Item, what: str = "a reply to") -> str:
        line = self._next_line()
        if line is None:
            raise ProgramFailed(f"{item.place}the program ended before {what}: {item.command}")
        return line.decode("utf-8", "replace")

    def _behind(self, text: bytes, first: str) -> int:
        """How many lines stand behind the first one of a reply."""
        word, _, rest = text.partition(b" ")
        if first.startswith(("error ", "spent ")):
            return 0
        found = read_range(rest.decode()) if word == b"view" else None
        if found:
            return found.rows - 1
        if word in (b"list", b"oracle", b"export", b"explain"):
            numbers = [int(it) for it in first.split(" ")[1:]]
            if word == b"explain":
                return numbers[0] + numbers[1] + 2
            return numbers[0] + (word == b"list" and self.version == 2)
        if word in _SAYS_OK or first == "ok":
            raise ValueError(first)
        return 0


def read_list(lines: Tuple[str, ...]) -> List[Tuple[Address, str]]:
    """The contents of a reply to `list`, by address."""
    pieces = (line.split(" ", 2) for line in lines[1:] if line.startswith("set "))
    return [(address_of(it[1]), it[2]) for it in pieces]


def read_oracle(lines: Tuple[str, ...]) -> List[Array]:
    """The arrays of a reply to `oracle`."""
    found = []
    for line in lines[1:]:
        root, size, permit = line.split(" ")
        rows, columns = size.split("x")
        found.append(Array(address_of(root), int(rows), int(columns), permit == "permitted"))
    return found


def read_row(line: str) -> List[Optional[str]]:
    """The shown texts of a row of `view`, None for each that the table cuts.

    A text may hold spaces, so it is read to its closing quote. One that is cut has none within
    its first characters, and so none that is near enough.
    """
    made: List[Optional[str]] = []
    at = 0
    while at < len(line):
        if line[at] == " ":
            at += 1
            continue
        found = _CELL.match(line, at)
        is_cut = found is None or found.end() - at > _WIDEST
        made.append(None if found is None or is_cut else found[0])
        at = at + _WIDEST if found is None or is_cut else found.end()
    return made


def read_permit(line: str) -> Permit:
    """The reply to `why`."""
    kind, _, address = line.partition(" ")
    return Permit(kind, read_address(address))


def read_forecast(line: str) -> Forecast:
    """The reply to `flow`."""
    kind, _, rest = line.partition(" ")
    return Forecast(kind, height=int(rest)) if kind == "yes" else Forecast(
        kind, address=address_of(rest))


def read_export(lines: Tuple[str, ...]) -> List[Edit]:
    """The registers of a reply to `export`."""
    pieces = (line.split(" ", 4) for line in lines[1:])
    return [Edit(int(it[1]), int(it[2]), address_of(it[3]), it[4] if len(it) > 4 else None)
            for it in pieces]


def read_explanation(lines: Tuple[str, ...]) -> Explanation:
    """The reply to `explain`."""
    count = int(lines[0].split(" ")[1])
    notes = tuple(_note(line) for line in lines[1:-2])
    return Explanation(notes[:count], notes[count:], read_value(lines[-2][len("shown "):]),
                       lines[-1] == "accepted")


def _note(line: str) -> Note:
    first, _, rest = line.partition(" ")
    if first in ("copy", "settle"):
        place, _, outcome = rest.partition(" ")
        return Note(first, place, outcome)
    return Note("cell", first, rest)


def edit_line(edit: Edit) -> str:
    """The command that brings an edit."""
    text = "" if edit.content is None else f" {edit.content}"
    return f"edit {edit.time} {edit.site} {edit.address}{text}"
