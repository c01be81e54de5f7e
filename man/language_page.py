#!/usr/bin/env python3
"""Makes the manual page gridlet(5) of docs/LANGUAGE.md: language_page.py LANGUAGE.md > gridlet.5"""
from __future__ import annotations

import re
import sys
from typing import Iterator, List

HEAD = """'\\" t
.\\" Made from docs/LANGUAGE.md.
.TH GRIDLET 5 "" "Gridlet" "The language of Gridlet"
.SH NAME
gridlet \\- the language of scripts of sheets
.SH DESCRIPTION
"""
TAIL = """.SH SEE ALSO
.BR gridlet (1),
.BR gridlet\\-sheet (1)
"""
MARK = re.compile(r"`([^`]*)`|\*\*([^*]+)\*\*|\*([^*]+)\*|\[([^\]]*)\]\([^)]*\)")


def plain(text: str) -> str:
    """A text as troff prints it."""
    text = text.replace("\\", "\\e").replace("-", "\\-").replace("'", "\\(aq")
    text = text.replace("`", "\\(ga").replace("^", "\\(ha").replace("~", "\\(ti")
    return "\\&" + text if text.startswith((".", "'")) else text


def marked(text: str) -> str:
    """A text with its code and its strong words in bold, others in italics."""
    made, at = [], 0
    for found in MARK.finditer(text):
        made.append(plain(text[at:found.start()]))
        code, strong, other, link = found.groups()
        if other is not None:
            made.append(f"\\fI{plain(other)}\\fR")
        elif link is not None:
            made.append(plain(link))
        else:
            made.append(f"\\fB{plain(code if code is not None else strong)}\\fR")
        at = found.end()
    line = "".join([*made, plain(text[at:])])
    return "\\&" + line if line.startswith((".", "'")) else line


def table(rows: List[str]) -> Iterator[str]:
    """A table, each cell of which may fill several lines."""
    cells = [[it.strip() for it in row.strip().strip("|").split("|")] for row in rows]
    cells = [it for number, it in enumerate(cells) if number != 1 and any(it)]
    width = max(map(len, cells))
    columns = ["lx"] * width if width < 3 else ["l", *["lx"] * (width - 1)]
    yield from (".PP", ".TS", "allbox;", " ".join(columns) + ".")
    for row in cells:
        row += [""] * (width - len(row))
        yield "\t".join(f"T{{\n{marked(it)}\nT}}" for it in row)
    yield from (".TE", ".sp")


def blocks(lines: List[str]) -> Iterator[List[str]]:
    """The runs of lines that belong together: paragraphs, code, tables, lists."""
    held: List[str] = []
    kind = ""
    for line in [*lines, ""]:
        now = ("code" if line.startswith("    ") else "table" if line.startswith("|")
               else "head" if line.startswith("#") else "item" if line.startswith("- ") else "text")
        now = "" if not line.strip() else now
        if kind and (now != kind or now in ("head", "item")) and not (kind == "code" and not line):
            while held and not held[-1].strip():
                held.pop()
            yield [kind, *held]
            held = []
        if now or held:
            held.append(line)
        kind = now or ("code" if held and kind == "code" else "")
    if held and kind:
        yield [kind, *(it for it in held if it.strip())]


def page(text: str) -> Iterator[str]:
    """The lines of the manual page."""
    yield HEAD.rstrip("\n")
    for kind, *lines in blocks(text.split("\n")[1:]):
        if kind == "head":
            yield ".SH " + plain(lines[0].strip("# ").upper())
        elif kind == "code":
            yield from (".PP", ".in +4n", ".nf")
            yield from (plain(it[4:]) or "\\&" for it in lines)
            yield from (".fi", ".in")
        elif kind == "table":
            yield from table(lines)
        elif kind == "item":
            yield from (".IP \\(bu 2", marked(" ".join(it.strip() for it in lines)[2:]))
        else:
            yield from (".PP", marked(" ".join(lines)))
    yield TAIL.rstrip("\n")


if __name__ == "__main__":
    with open(sys.argv[1], encoding="utf-8") as source:
        print("\n".join(page(source.read())))
