"""A prompt over a sheet: the language's commands, and a few of its own."""
from __future__ import annotations

import sys
from pathlib import Path
from typing import Callable, Dict, List, Optional

from . import terminal
from .addresses import Range, read_range
from .errors import BadInput, GridletError, ProgramFailed, Refused, Spent
from .manual import Manual
from .program import Answer
from .reasons import lines
from .replies import Item, is_edit
from .saving import save_sheet
from .scripts import head_comments, read_bytes
from .sheet import Sheet
from .snapshot import used

OWN = """view [RANGE]      the grid of a range, or of all that is in the sheet
import A1 FILE    the values of a CSV file, as the command import has them
reasons A1        the cells that a cell rests on, as a tree
save [FILE]       writes the sheet, once it reads back equal
help [WORD]       what the language's page says of a command, a function or an error
quit              leaves"""


class Prompt:
    """Answers lines, one by one."""

    def __init__(self, sheet: Sheet, manual: Manual, file: Optional[Path] = None,
                 answers: Optional[List[Answer]] = None) -> None:
        self.sheet, self.manual, self.file = sheet, manual, file
        self.is_changed, self.is_over, self.status = False, False, 0
        self.is_coloured = terminal.has_colours()
        self._edits = [item for item, reply in answers or [] if is_edit(item, reply)]
        self._refused = sum(reply.refusal is not None for _, reply in answers or [])
        self._before = read_bytes(file) if file and file.exists() else None
        self._own: Dict[str, Callable[[str], None]] = {
            "help": self.help, "reasons": self.tell_reasons, "save": self.save,
            "view": self.view, "quit": self.leave, "exit": self.leave}

    def answer(self, line: str) -> None:
        """Does what a line says, and prints what there is to say."""
        word, _, rest = line.lstrip().partition(" ")
        if not word or word.startswith(";"):
            return
        try:
            if word in self._own:
                self._own[word](rest.strip())
            elif word == "import":
                self.take_file(rest.strip())
            else:
                self.command(Item(line.lstrip().encode("utf-8", "replace")))
        except Refused as error:
            self.complain(f"error {error.word}", self.manual.refusal(error.word))
        except Spent as error:
            self.complain(f"spent {error.what}", self.manual.budget(error.what))
        except ProgramFailed as error:
            print(error)
            self.is_over, self.status = True, 2
        except GridletError as error:
            print(error)
        except KeyboardInterrupt:
            self.begin_again()

    def begin_again(self) -> None:
        """After an interrupted command the program has gone: another one takes the same edits."""
        self.sheet.close()
        self.sheet = Sheet(program=self.sheet.program)
        self.sheet.run(self._edits)
        print("interrupted; the sheet is as it was")

    def command(self, item: Item) -> None:
        """A command of the language."""
        reply = self.sheet.ask(item)
        for line in reply.accepted(item):
            print(terminal.painted(line, "bad", self.is_coloured and line.startswith("#")))
        if is_edit(item, reply):
            self._edits.append(item)
            self.is_changed = True

    def complain(self, text: str, meaning: Optional[str]) -> None:
        """What a command came to that was refused or spent a budget, and what that means."""
        said = terminal.painted(text, "bad", self.is_coloured)
        print(f"{said}: {meaning}" if meaning else said)

    def view(self, rest: str) -> None:
        """The grid."""
        found: Optional[Range] = read_range(rest) if rest else used(self.sheet)
        if rest and found is None:
            raise Refused("range", f"view {rest}")
        if found is None:
            print("the sheet is empty")
            return
        covers = {at: it for it in self.sheet.oracle() if it.permitted for at in it.area.cells()}
        shown = terminal.grid(found, self.sheet.view(found), covers, self.is_coloured)
        print("\n".join(shown))

    def tell_reasons(self, rest: str) -> None:
        """The tree of what a cell rests on."""
        found = self.sheet.reasons(rest)
        print("\n".join(lines(found, self.sheet.list())) if found
              else f"{rest} has no formula, and no array covers it")

    def take_file(self, rest: str) -> None:
        """An import, whose payload is a file."""
        address, _, name = rest.partition(" ")
        if not name or name.isdigit():
            raise BadInput("here an import takes a file: import A1 parts.csv")
        payload = read_bytes(Path(name).expanduser())
        self.command(Item(f"import {address} {len(payload)}".encode(), payload))

    def save(self, rest: str) -> None:
        """Saves to the file that was opened, or to another one, which is then the one."""
        file = Path(rest).expanduser() if rest else self.file
        if file is None:
            raise BadInput("say where: save FILE")
        is_same = self.file is not None and file == self.file
        if is_same and self._refused:
            raise BadInput(f"{file} has {self._refused} refused commands, which would be lost: "
                           "save FILE writes to another file")
        comments, _ = head_comments(self._before or b"")
        save_sheet(self.sheet, file, comments, self._before if is_same else None)
        self.file, self._before, self._refused = file, read_bytes(file), 0
        self.is_changed = False
        print(f"saved to {file}")

    def help(self, rest: str) -> None:
        """What there is, or what the page says of a word."""
        if rest:
            nothing = (f"the language's page says nothing of {rest}" if self.manual.sections
                       else "the language's page did not come with this package")
            print("\n".join(self.manual.about(rest)) or nothing)
            return
        print(OWN)
        print("commands:  " + " ".join(self.manual.commands()))
        print("functions: " + " ".join(self.manual.functions()))

    def leave(self, _: str) -> None:
        """Ends the prompt."""
        self.is_over = True


def loop(prompt: Prompt, read: Callable[[str], str] = input) -> None:
    """Answers lines until there is none, and asks what becomes of edits that are not saved."""
    is_asked = sys.stdin.isatty()
    while not prompt.is_over:
        try:
            line = read("gridlet> " if is_asked else "")
        except EOFError:
            prompt.is_over = True
            print(end="\n" if is_asked else "")
        except KeyboardInterrupt:
            print()
        else:
            prompt.answer(line)
        if prompt.is_over and prompt.is_changed:
            _last_question(prompt, read, is_asked)


def _last_question(prompt: Prompt, read: Callable[[str], str], is_asked: bool) -> None:
    if not is_asked:
        print("gridlet-sheet: the edits were not saved", file=sys.stderr)
        return
    try:
        word = read(f"save to {prompt.file}? (yes, no) " if prompt.file
                    else "the sheet is not saved; leave all the same? (yes, no) ")
    except (EOFError, KeyboardInterrupt):
        print()
        return
    is_yes = word.strip().lower() in ("y", "yes")
    if prompt.file and is_yes:
        prompt.answer("save")
    if (is_yes and prompt.file and prompt.is_changed) or (not is_yes and not prompt.file):
        prompt.is_over = False
