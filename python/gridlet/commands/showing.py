"""`gridlet-sheet show`: what a range shows, as a table, CSV, JSON or a page."""
from __future__ import annotations

import argparse
import csv
import json
import sys
from pathlib import Path
from typing import Any, List

from ..addresses import read_range
from ..errors import BadInput
from ..page import page
from ..snapshot import open_sheet, take, used
from ..values import CellError, Rows, SheetValue, Value, literal


def add_to(parts: Any) -> None:
    """Adds the subcommand's words."""
    it = parts.add_parser(
        "show", help="print what a range shows, as a table, CSV, JSON or a page",
        description="Prints what a range shows; without RANGE, the box of all contents and "
                    "spills. What a script has refused is named on standard error, status 1.")
    it.add_argument("file", metavar="FILE")
    it.add_argument("range", metavar="RANGE", nargs="?")
    forms = it.add_mutually_exclusive_group()
    for form, text in (("csv", "values, with texts as they are"),
                       ("json", "a list of rows; an error is {\"error\": \"#REF!\"}"),
                       ("html", "a page that stands by itself")):
        forms.add_argument(f"--{form}", dest="form", action="store_const", const=form, help=text)
    it.set_defaults(call=run)


def run(arguments: argparse.Namespace) -> int:
    """Prints the range in the form that is asked for."""
    asked = read_range(arguments.range) if arguments.range else None
    if arguments.range and not asked:
        raise BadInput(f"{arguments.range}: no range such as A1:B3")
    opened = open_sheet(arguments.file, arguments.program)
    with opened.sheet as sheet:
        if arguments.form == "html":
            refusals = {item.line: reply.lines[0] for item, reply in opened.answers
                        if reply.refusal is not None or reply.spent is not None}
            name = Path(arguments.file).name
            sys.stdout.write(page(name, take(sheet, asked), opened.script, refusals))
        else:
            found = asked or used(sheet)
            rows = sheet.view(found) if found else []
            WRITERS[arguments.form](rows)
    return 1 if opened.is_refused else 0


def shown(value: Value) -> str:
    """The text that the language shows for a value."""
    if value is None:
        return "."
    if isinstance(value, bool):
        return "TRUE" if value else "FALSE"
    return literal(value) if isinstance(value, str) else str(value)


def table(rows: Rows) -> List[str]:
    """The lines of a table, texts left and all else right, with nothing cut."""
    texts = [[shown(it) for it in row] for row in rows]
    widths = [max(map(len, column)) for column in zip(*texts)]
    return [" ".join(text.ljust(width) if isinstance(value, str) else text.rjust(width)
                     for value, text, width in zip(row, line, widths)).rstrip()
            for row, line in zip(rows, texts)]


def write_table(rows: Rows) -> None:
    """As `view`, but whole."""
    for line in table(rows):
        print(line)


def write_csv(rows: Rows) -> None:
    """As spreadsheets read it: a blank is empty, a truth value TRUE or FALSE."""
    writer = csv.writer(sys.stdout, lineterminator="\n")
    for row in rows:
        writer.writerow(["" if it is None else it if isinstance(it, str) else shown(it)
                         for it in row])


def write_json(rows: Rows) -> None:
    """A list of rows, each on a line of its own."""
    lines = [json.dumps([_plain(it) for it in row], ensure_ascii=False) for row in rows]
    print("[" + ",\n ".join(lines) + "]")


def _plain(value: Value) -> Any:
    if isinstance(value, CellError):
        return {"error": value.name}
    return {"sheet": value.region} if isinstance(value, SheetValue) else value


WRITERS = {None: write_table, "csv": write_csv, "json": write_json}
