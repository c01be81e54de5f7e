"""A sheet, over a running program."""
from __future__ import annotations

from pathlib import Path
from types import TracebackType
from typing import Any, Dict, Iterable, List, Mapping, Optional, Tuple, Type, Union

from . import replies, values
from .addresses import Address, Range, read_range
from .errors import BadInput
from .program import Answer, Process
from .reasons import Reason, reasons
from .replies import Item, Reply
from .scripts import read_bytes, whole_items
from .values import Array, Edit, Explanation, Forecast, Permit, Rows, Value

# So many cells one `view` shows at most.
PART = 10_000
Where = Union[str, Address]
Constant = Union[None, int, bool, str]
Line = Union[str, bytes, Item]


class Sheet:
    """A sheet: its commands are methods, and their replies values of Python.

    `with Sheet("budget.gridlet") as sheet: sheet.set("A1", 3)`. A refused command raises
    `Refused` and changes nothing; where the sheet does not settle, a query raises `Spent`.
    """

    def __init__(self, file: Union[None, str, Path] = None, *, program: Optional[str] = None,
                 order: Optional[str] = None, version: int = 1) -> None:
        self.program = program
        self._words = ["--order", order] if order else []
        self._process = Process(program, self._words)
        self.site_number: Optional[int] = None
        try:
            if version == 2 and file is None:
                self.tell("gridlet 2")
            if file is not None:
                for item, reply in self.load(file):
                    if reply.refusal is not None:
                        reply.accepted(item)
        except BaseException:
            self.close()
            raise

    def __enter__(self) -> "Sheet":
        return self

    def __exit__(self, kind: Optional[Type[BaseException]], error: Optional[BaseException],
                 trace: Optional[TracebackType]) -> None:
        self.close()

    def close(self) -> int:
        """Ends the program, and tells its status."""
        return self._process.close()

    @property
    def version(self) -> int:
        """The version of the script."""
        return self._process.version

    def ask(self, line: Line) -> Reply:
        """The reply to one line, whatever it says."""
        item = _item(line)
        reply = self._process.ask(item)
        if reply is None:
            raise BadInput(f"a comment or an empty line has no reply: {item.command!r}")
        self._note_site(item, reply)
        return reply

    def run(self, lines: Iterable[Line], is_end: bool = False) -> List[Answer]:
        """The replies to many lines, each with its command; comments have none."""
        told = [_item(it) for it in lines]
        if told and told[-1].missing and not is_end:
            raise BadInput(f"{told[-1].place}a payload is cut: {told[-1].command}")
        answers = self._process.run(told, is_end)
        for item, reply in answers:
            self._note_site(item, reply)
        return answers

    def load(self, file: Union[str, Path]) -> List[Answer]:
        """Runs the script of a file up to its end, or up to `quit`, and tells its replies."""
        return self.load_script(read_bytes(file), file)

    def load_script(self, script: bytes, file: Union[str, Path]) -> List[Answer]:
        """The same for the bytes of a script; the file is what is said where it is wrong."""
        return self.run(it for it in whole_items(script, file) if it.text != b"quit")

    def tell(self, line: Line) -> Tuple[str, ...]:
        """The lines of the reply to a line that is neither refused nor spent."""
        item = _item(line)
        return self.ask(item).accepted(item)

    def set(self, address: Where, value: Constant) -> None:
        """A text that begins with `=` is a formula; else the value's type says what it is."""
        self.tell(_setting(address, value))

    def enter(self, address: Where, text: str) -> None:
        """The content of a text as the language reads it, so that `12` is an integer."""
        self.tell(f"set {address} {text}")

    def set_all(self, contents: Mapping[str, Constant]) -> None:
        """Many contents at once. One that is refused leaves all others set."""
        for item, reply in self.run([_setting(*it) for it in contents.items()]):
            reply.accepted(item)

    def clear(self, where: Union[Where, Range]) -> None:
        """Removes the contents of an address or a range."""
        self.tell(f"clear {where}")

    def show(self, address: Where) -> Value:
        """What a cell shows."""
        return values.read_value(self.tell(f"show {address}")[0])

    def view(self, where: Union[str, Range]) -> Rows:
        """What the cells of a range show, row by row, and whole: the table itself cuts texts."""
        found = read_range(where) if isinstance(where, str) else where
        if found is None:
            raise BadInput(f"{where}: no range such as A1:B3")
        return [row for part in found.parts(PART) for row in self._rows(part)]

    def _rows(self, part: Range) -> Rows:
        shown = [replies.read_row(it) for it in self.tell(f"view {part}")]
        cut = [at for at, text in zip(part.cells(), (it for row in shown for it in row))
               if text is None]
        whole = iter([reply.accepted(item)[0]
                      for item, reply in self.run(f"show {it}" for it in cut)])
        return [[values.read_value(next(whole) if it is None else it) for it in row]
                for row in shown]

    def frame(self, where: Union[str, Range], has_names: bool = True) -> Any:
        """A range as a `pandas.DataFrame`, where pandas is installed; its first row has names."""
        try:
            import pandas
        except ImportError:
            raise BadInput("frame wants pandas, which is not installed") from None
        rows = self.view(where)
        if not has_names:
            return pandas.DataFrame(rows)
        return pandas.DataFrame(rows[1:], columns=[str(it) for it in rows[0]])

    def get(self, address: Where) -> Optional[str]:
        """The text of a cell's content; None where it has none."""
        text = self.tell(f"get {address}")[0]
        return None if text == "." else text

    def list(self) -> Dict[str, str]:
        """The texts of all contents by their addresses, in the order of rows."""
        return {str(at): text for at, text in replies.read_list(self.tell("list"))}

    def calc(self) -> int:
        """In how many rounds the sheet settles."""
        return int(self.tell("calc")[0].split(" ")[1])

    def oracle(self) -> List[Array]:
        """The arrays, and whether they spill."""
        return replies.read_oracle(self.tell("oracle"))

    def why(self, address: Where) -> Permit:
        """Whether the array of a cell spills, and what stands in its way."""
        return replies.read_permit(self.tell(f"why {address}")[0])

    def explain(self, address: Where) -> Explanation:
        """From what it follows that a cell shows what it shows."""
        return replies.read_explanation(self.tell(f"explain {address}"))

    def reasons(self, address: Where) -> Optional[Reason]:
        """The same as a tree of the cells that rest on each other."""
        return reasons(self, address)

    def flow(self) -> Forecast:
        """Whether the sheet surely settles, by its formulas alone."""
        return replies.read_forecast(self.tell("flow")[0])

    def import_csv(self, address: Where, data: Union[bytes, str]) -> None:
        """CSV, with its first field at the address. The bytes are counted here."""
        payload = data.encode("utf-8") if isinstance(data, str) else bytes(data)
        self.tell(Item(f"import {address} {len(payload)}".encode(), payload))

    def undo(self) -> None:
        """Takes the latest edit back."""
        self.tell("undo")

    def redo(self) -> None:
        """Does again what was undone last."""
        self.tell("redo")

    def site(self, number: int) -> None:
        """Makes the empty sheet the replica of a site."""
        self.tell(f"site {number}")

    def edit(self, edit: Edit) -> None:
        """Takes an edit of another replica."""
        self.tell(replies.edit_line(edit))

    def export(self) -> List[Edit]:
        """The registers of a replica, for another one."""
        return replies.read_export(self.tell("export"))

    def save(self, file: Union[str, Path]) -> None:
        """Writes a script that makes this sheet, and moves it into place once it reads back."""
        from .saving import save_sheet
        save_sheet(self, Path(file))

    def renew(self) -> None:
        """Begins another program with the same sheet: one takes 16,777,216 bytes of commands.

        What could be undone is lost.
        """
        from .saving import script_of
        script, before = script_of(self), self._process
        self._process = Process(self.program, self._words)
        before.close()
        for item, reply in self.load_script(script, ""):
            reply.accepted(item)

    def _note_site(self, item: Item, reply: Reply) -> None:
        if item.text.startswith(b"site ") and reply.lines == ("ok",):
            self.site_number = int(item.text[5:])


def _setting(address: Where, value: Constant) -> str:
    return f"clear {address}" if value is None else f"set {address} {values.content(value)}"


def _item(line: Line) -> Item:
    if isinstance(line, Item):
        return line
    try:
        text = line.encode("utf-8") if isinstance(line, str) else line
    except UnicodeEncodeError:
        raise BadInput(f"not a text of Unicode: {line!r}") from None
    if b"\n" in text or replies.payload_due(text):
        raise BadInput(f"one command is one line, and an import has its payload: {line!r}")
    return Item(text[:-1] if text.endswith(b"\r") else text)
