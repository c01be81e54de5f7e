"""`gridlet-sheet check`: what a script has refused, where."""
from __future__ import annotations

import argparse
from dataclasses import dataclass
from typing import Any, Dict, Iterator, List

from ..addresses import address_of
from ..errors import Spent
from ..program import Answer
from ..replies import Item, is_edit, items, place_set
from ..scripts import read_bytes
from ..sheet import Sheet
from ..tables import LOOKS_LIKE_A_NUMBER
from ..values import CellError, read_value


@dataclass(frozen=True)
class Finding:
    """Something wrong, and where."""

    file: str
    line: int
    text: str

    def written(self, form: str) -> str:
        """As compilers write it, or as GitHub reads it."""
        if form == "plain":
            return f"{self.file}:{self.line}: {self.text}"
        text = self.text.replace("%", "%25").replace("\r", "%0D").replace("\n", "%0A")
        file = self.file.replace("%", "%25").replace(":", "%3A").replace(",", "%2C")
        return f"::error file={file},line={self.line}::{text}"


def add_to(parts: Any) -> None:
    """Adds the subcommand's words."""
    it = parts.add_parser("check", help="name each refused command with its file and line",
                          description="Runs scripts and names what they have refused.")
    it.add_argument("files", metavar="FILE", nargs="+", help="a script; - is standard input")
    it.add_argument("--cells", action="store_true",
                    help="also cells that show an error, and a sheet that does not settle")
    it.add_argument("--texts", action="store_true",
                    help="also texts that look like numbers, which sums pass over")
    it.add_argument("--format", choices=("plain", "github"), default="plain")
    it.set_defaults(call=run)


def run(arguments: argparse.Namespace) -> int:
    """Prints the findings of all files."""
    count = 0
    for file in arguments.files:
        for finding in findings(file, arguments):
            print(finding.written(arguments.format))
            count += 1
    return 1 if count else 0


def findings(file: str, arguments: argparse.Namespace) -> List[Finding]:
    """All that is wrong with one file."""
    told = list(items(read_bytes(file), file))
    is_cut = any(it.missing for it in told)
    with Sheet(program=arguments.program) as sheet:
        answers = sheet.run((it for it in told if it.text != b"quit"), is_end=is_cut)
        found = [Finding(file, item.line, text) for item, text in refused(answers)]
        if not is_cut and (arguments.cells or arguments.texts):
            lines = Lines(answers)
            if arguments.cells:
                found += [Finding(file, lines.of(at), text) for at, text in bad_cells(sheet)]
            if arguments.texts:
                found += [Finding(file, lines.of(at), text) for at, text in texts(sheet)]
    return found


def refused(answers: List[Answer]) -> Iterator[Any]:
    """The commands that were refused, or found that the sheet does not settle."""
    for item, reply in answers:
        if reply.refusal is not None or reply.spent is not None:
            yield item, f"{reply.lines[0]}: {item.command}{hint(item)}"


def hint(item: Item) -> str:
    """What the program's one word does not say."""
    if item.text.startswith(b"\xef\xbb\xbf"):
        return " (a byte order mark stands before it)"
    if item.text == b"gridlet 2":
        return " (this has to be the first line, before comments too)"
    return f" ({item.missing} bytes of its payload are missing)" if item.missing else ""


class Lines:
    """The line that last set each address; an import stands for those that no line names."""

    def __init__(self, answers: List[Answer]) -> None:
        self._of: Dict[str, int] = {}
        self._other = 1
        for item, reply in answers:
            place = place_set(item)
            if is_edit(item, reply) and place:
                self._of[place] = item.line
            elif is_edit(item, reply) and item.payload:
                self._other = item.line

    def of(self, place: str) -> int:
        """The line to look at for an address."""
        return self._of.get(place, self._other)


def bad_cells(sheet: Sheet) -> Iterator[Any]:
    """The addresses that show an error, each with the formula that it comes from."""
    try:
        sheet.calc()
    except Spent as error:
        yield error.what.split(" ")[-1], f"spent {error.what}"
        return
    contents, roots = sheet.list(), {}
    for array in sheet.oracle():
        if array.permitted:
            roots.update(dict.fromkeys(map(str, array.area.cells()), str(array.root)))
    places = sorted({*contents, *roots}, key=address_of)
    for (_, reply), place in zip(sheet.run(f"show {it}" for it in places), places):
        value = read_value(reply.lines[0])
        if isinstance(value, CellError):
            root = roots.get(place, place)
            of = "" if root == place else f" of {root}"
            yield root, f"{place} shows {value}: {contents.get(root, '')}{of}"


def texts(sheet: Sheet) -> Iterator[Any]:
    """The addresses whose content is a text that looks like a number."""
    for place, content in sheet.list().items():
        value = read_value(content) if content.startswith('"') else None
        if isinstance(value, str) and not value.isdigit() and LOOKS_LIKE_A_NUMBER.fullmatch(value):
            yield place, f"{place} holds the text {content}, which sums pass over"
