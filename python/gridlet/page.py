"""A sheet as one page of HTML, with nothing from elsewhere. All that a sheet says is escaped."""
from __future__ import annotations

import base64
import hashlib
from html import escape
from pathlib import Path
from typing import Dict, List

from .addresses import Address, letters
from .replies import items
from .snapshot import Snapshot
from .values import Array, CellError, SheetValue, Value, literal

ASSETS = Path(__file__).parent / "assets"
COLOURS = 8
OPEN_LINES = 60
# Control characters have no place in a page: their pictures stand for them.
PICTURES = {it: 0x2400 + it for it in range(32) if chr(it) not in "\n\t"}
PICTURES[127] = 0x2421
POLICY = ("default-src 'none'; base-uri 'none'; form-action 'none'; "
          "style-src 'sha256-{}'; script-src 'sha256-{}'")
FORECASTS = {
    "yes": "The sheet surely settles, and no cell shows #CYCLE!.",
    "circle": "The cell rests on itself if every branch of every formula counts.",
    "unknown": "The cell makes copies, of which the forecast says nothing.",
    "": "None was asked for."}


def told(text: object) -> str:
    """A text as it may stand in a page, in an attribute too."""
    return escape(str(text).translate(PICTURES))


def kind_of(value: Value) -> str:
    """The class of a cell: text, integer, truth value, error or sheet value."""
    if isinstance(value, bool):
        return "b"
    names = {str: "t", int: "i", CellError: "e", SheetValue: "s"}
    return names.get(type(value), "")


def face(value: Value) -> str:
    """What a cell has on its face: a text without its quotes."""
    if isinstance(value, bool):
        return "TRUE" if value else "FALSE"
    return "" if value is None else str(value)


class Grid:
    """The table of a snapshot, with a class and a title for each cell."""

    def __init__(self, snapshot: Snapshot) -> None:
        self.snapshot, self.covers = snapshot, snapshot.covers()
        spilled = [it for it in snapshot.arrays if it.permitted]
        self.colours = {it.root: index % COLOURS for index, it in enumerate(spilled)}
        self.wanted = {at: it for it in snapshot.arrays if not it.permitted
                       for at in it.area.cells()}

    def lines(self) -> List[str]:
        """The lines of the table."""
        found = self.snapshot.range
        columns = range(found.first.column, found.last.column + 1)
        heads = "".join(f"<th>{letters(it)}</th>" for it in columns)
        made = [f'<table class="grid"><thead><tr><th></th>{heads}</tr></thead><tbody>']
        for row, values in enumerate(self.snapshot.rows, found.first.row):
            cells = "".join(self.cell(Address(row, column), value)
                            for column, value in zip(columns, values))
            made.append(f"<tr><th>{row}</th>{cells}</tr>")
        return [*made, "</tbody></table>"]

    def cell(self, at: Address, value: Value) -> str:
        """One cell."""
        array, names = self.covers.get(at), [kind_of(value)]
        if array:
            last = array.area.last
            names += ["a", f"c{self.colours[array.root]}"]
            names += [name for name, here in (
                ("u", at.row == array.root.row), ("d", at.row == last.row),
                ("l", at.column == array.root.column), ("r", at.column == last.column)) if here]
        if at in self.wanted:
            names.append("w")
        title = "\n".join(self.titles(at, value, array))
        known = f' id="{at}" title="{told(title)}"' if title else ""
        classes = " ".join(it for it in names if it)
        classes = f' class="{classes}"' if classes else ""
        return f"<td{known}{classes}>{told(face(value))}</td>"

    def titles(self, at: Address, value: Value, array: "Array | None") -> List[str]:
        """What is to be said of a cell, line by line."""
        content = self.snapshot.contents.get(str(at))
        if content is None and array is None:
            return []
        made = [f"{at}: {content}" if content else f"{at}"]
        if content is None or content.startswith("="):
            shown = literal(value) if isinstance(value, str) else face(value) or "a blank"
            made.append(f"shows {shown}")
        own = array or self.wanted.get(at)
        if own and (array or own.root == at):
            of = "" if own.root == at else f" of {own.root} {self.snapshot.contents[str(own.root)]}"
            made.append(f"array {own.rows}x{own.columns}{of}: {self.permit(own)}")
        return made

    def permit(self, array: Array) -> str:
        """Whether an array spills, and what stands in its way."""
        why = self.snapshot.permits[array.root]
        return why if array.permitted else f"refused, {why}"


def facts(snapshot: Snapshot) -> str:
    """A line that says how much there is."""
    formulas = sum(it.startswith("=") for it in snapshot.contents.values())
    errors = sum(isinstance(it, CellError) for row in snapshot.rows for it in row)
    return (f"{snapshot.range} · contents: {len(snapshot.contents):,} · formulas: {formulas:,} · "
            f"arrays: {len(snapshot.arrays):,} · errors: {errors:,}")


def arrays_lines(grid: Grid) -> List[str]:
    """The table of arrays."""
    if not grid.snapshot.arrays:
        return ["<p>There is none.</p>"]
    heads = "".join(f"<th>{it}</th>" for it in ("root", "size", "permit", "formula"))
    made = [f'<table class="arrays"><tr>{heads}</tr>']
    for it in grid.snapshot.arrays:
        name = f'c{grid.colours[it.root]}' if it.permitted else "none"
        bad = "" if it.permitted else ' class="bad"'
        formula = told(grid.snapshot.contents[str(it.root)])
        made.append(f'<tr><td><span class="key {name}"></span><a href="#{it.root}">{it.root}</a>'
                    f"</td><td>{it.rows}x{it.columns}</td><td{bad}>{told(grid.permit(it))}</td>"
                    f"<td><code>{formula}</code></td></tr>")
    return [*made, "</table>"]


def command_lines(script: bytes, refusals: Dict[int, str]) -> List[str]:
    """The script, with its line numbers and what it has refused."""
    made, count = [], 0
    for item in items(script):
        texts = [item.text, *item.payload.split(b"\n")] if item.payload else [item.text]
        for offset, text in enumerate(texts):
            refusal = refusals.get(item.line) if not offset else None
            line = told(text.decode("utf-8", "backslashreplace"))
            line = f'<span class="bad">{line}  {told(refusal)}</span>' if refusal else line
            made.append(f'<span class="n">{item.line + offset}</span>{line}')
            count += 1
    opened = " open" if count <= OPEN_LINES else ""
    return [f"<details{opened}><summary>{count:,} lines</summary><pre>", *made, "</pre></details>"]


def page(name: str, snapshot: Snapshot, script: bytes, refusals: Dict[int, str]) -> str:
    """The whole page: the grid, then the arrays, the forecast and the commands."""
    style, code = ((ASSETS / it).read_text("utf-8") for it in ("page.css", "page.js"))
    policy = POLICY.format(*(_digest(it) for it in (style, code)))
    grid = Grid(snapshot)
    forecast = FORECASTS[snapshot.forecast.split(" ")[0]]
    return "\n".join([
        '<!doctype html>', '<html lang="en"><head><meta charset="utf-8">',
        '<meta name="viewport" content="width=device-width,initial-scale=1">',
        f'<meta http-equiv="Content-Security-Policy" content="{policy}">',
        f"<title>{told(name)}</title><style>{style}</style></head><body>",
        f"<h1>{told(name)}</h1><p>{facts(snapshot)}</p>", *grid.lines(),
        "<h2>Arrays</h2>", *arrays_lines(grid),
        f"<h2>Forecast</h2><p><code>{told(snapshot.forecast)}</code> {forecast}</p>",
        "<h2>Commands</h2>", *command_lines(script, refusals),
        f'<div id="panel" role="status"></div><script>{code}</script>', "</body></html>", ""])


def _digest(text: str) -> str:
    return base64.b64encode(hashlib.sha256(text.encode("utf-8")).digest()).decode()
