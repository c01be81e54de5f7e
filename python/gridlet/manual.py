"""What the language's own page says of a word, for a person at a prompt."""
from __future__ import annotations

import re
from pathlib import Path
from typing import Dict, List, NamedTuple, Optional

from .program import CHECKOUT

PLACES = (Path(__file__).parent / "LANGUAGE.md", CHECKOUT / "docs" / "LANGUAGE.md")
CODE = re.compile(r"`([^`]*)`")
FUNCTION = re.compile(r"([A-Z]+)\(")


class Entry(NamedTuple):
    """A row of a table: its section and its cells."""

    section: str
    cells: List[str]

    def codes(self) -> List[str]:
        """What its first cell says as code."""
        return CODE.findall(self.cells[0])

    def plain(self) -> str:
        """As lines of text."""
        return "\n    ".join(plain(it) for it in self.cells if it)


def plain(text: str) -> str:
    """Without the marks of Markdown."""
    return CODE.sub(r"\1", text).replace("**", "").replace("*Each*", "Each").strip()


class Manual:
    """The page, by sections and by the rows of its tables."""

    def __init__(self, text: str) -> None:
        self.entries: List[Entry] = []
        self.sections: Dict[str, List[str]] = {}
        section = ""
        for line in text.split("\n"):
            if line.startswith("#"):
                section = line.strip("# ")
                self.sections[section] = []
            elif line.startswith("| "):
                entry = Entry(section, [it.strip() for it in line.strip("|").split("|")])
                self.entries += [entry] if entry.cells[0].startswith("`") else []
                self.sections[section].append(entry.plain())
            elif section and not line.startswith("|-"):
                self.sections[section].append(plain(line))

    def commands(self) -> List[str]:
        """The words of commands."""
        return sorted({code.split(" ")[0] for it in self.entries if it.section == "Commands"
                       for code in it.codes()})

    def functions(self) -> List[str]:
        """The names of functions."""
        return sorted({found[1] for it in self.entries for code in it.codes()
                       for found in [FUNCTION.match(code)] if found})

    def about(self, word: str) -> List[str]:
        """What the page says of a word: rows of its tables, else a section."""
        rows = [it.plain() for it in self.entries
                if any(_names(code, word) for code in it.codes())]
        if rows:
            return rows
        for name, lines in self.sections.items():
            if word and name.lower().startswith(word.lower()):
                return [name, *lines]
        return []

    def refusal(self, word: str) -> Optional[str]:
        """What the word of a refused command means."""
        for it in self.entries:
            if it.section == "Refusals" and word in it.codes():
                # A row of many words says what each means, in their order.
                meanings = plain(it.cells[1]).rpartition("the formula: ")[2].split("; ")
                is_each = len(meanings) == len(it.codes())
                return meanings[it.codes().index(word)] if is_each else plain(it.cells[1])
        return None

    def budget(self, what: str) -> Optional[str]:
        """What it means that a budget is spent, as in `rounds A1`."""
        head = "spent " + what.split(" ")[0]
        found = [it.cells[1] for it in self.entries if it.cells[0].startswith(f"`{head}")]
        return plain(found[0]) if found else None


def _names(code: str, word: str) -> bool:
    """Whether a piece of code begins with this word, in whatever case."""
    head = re.split(r"[ (]", code, maxsplit=1)[0]
    return head.lower() == word.lower() or code.lower() == word.lower()


def manual() -> Manual:
    """The page that came with this package, or an empty one."""
    for place in PLACES:
        if place.is_file():
            return Manual(place.read_text("utf-8"))
    return Manual("")
