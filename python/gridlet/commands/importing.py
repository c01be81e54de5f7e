"""`gridlet-sheet import`: a script from a file of values that are parted by commas."""
from __future__ import annotations

import argparse
import sys
from typing import Any

from ..addresses import read_address
from ..errors import BadInput
from ..tables import Misfit, Reader, Records, column_number, commands, guessed_delimiter, room

CONTENTS = 65_536


def add_to(parts: Any) -> None:
    """Adds the subcommand's words."""
    it = parts.add_parser(
        "import", help="print a script that holds the values of a CSV file",
        description="Prints a script that sets the fields of a CSV file. Leading zeros stay, as "
                    "texts, and an empty line keeps its row. Fields that do not fit are named on "
                    "standard error, status 1. COL is a name of the first row, a number from 1 "
                    "or letters of the sheet.")
    it.add_argument("file", metavar="FILE.csv")
    it.add_argument("--text", metavar="COL", action="append", default=[],
                    help="a column of texts, whatever they look like")
    it.add_argument("--cents", metavar="COL", action="append", default=[],
                    help="a column of amounts with at most two decimals, made whole cents")
    it.add_argument("--delimiter", metavar="C", help="what parts the fields (default: a comma)")
    it.add_argument("--decimal-comma", action="store_true",
                    help="amounts are written as 1.204,50")
    it.add_argument("--at", metavar="ADDRESS", default="A1", help="where the first field goes")
    it.add_argument("--clear", action="store_true",
                    help="first clear the columns of the file down to the last row")
    it.set_defaults(call=run)


def run(arguments: argparse.Namespace) -> int:
    """Prints the script, and names what does not fit."""
    at = read_address(arguments.at)
    if at is None:
        raise BadInput(f"{arguments.at}: no address such as A1")
    delimiter = {"tab": "\t", "\\t": "\t"}.get(arguments.delimiter, arguments.delimiter or ",")
    if len(delimiter) != 1 or delimiter in '"\r\n':
        raise BadInput(f"{arguments.delimiter}: a delimiter is one character, or tab")
    records = Records(arguments.file, delimiter)
    told = list(records)
    names = told[0][1] if told else []
    reader = Reader(*({column_number(it, names, at) for it in wanted}
                      for wanted in (arguments.text, arguments.cents)), names, [],
                    arguments.decimal_comma)
    lines = list(commands(told, reader, at))
    if arguments.clear and told:
        print(f"clear {room(at, max(len(fields) for _, fields in told) or 1)}")
    for line in lines:
        print(line)
    guess = None if arguments.delimiter else guessed_delimiter(records.text)
    if guess:
        name = "tab" if guess == "\t" else guess
        reader.misfits.insert(0, Misfit(1, f"no comma parts this line: is --delimiter '{name}' "
                                           "meant?"))
    if len(lines) > CONTENTS:
        reader.misfits.append(Misfit(told[-1][0], f"{len(lines):,} contents are more than "
                                                  f"the {CONTENTS:,} that a sheet holds"))
    for misfit in reader.misfits:
        print(f"{arguments.file}:{misfit.line}: {misfit.text}", file=sys.stderr)
    return 1 if reader.misfits else 0
