"""What this package raises. Each error is one line that a person can act on."""
from __future__ import annotations


class GridletError(Exception):
    """Whatever goes wrong here."""


class Refused(GridletError):
    """A command was refused, and changed nothing: `word` says why, as the language does."""

    def __init__(self, word: str, command: str, place: str = "") -> None:
        super().__init__(f"{place}error {word}: {command}")
        self.word, self.command = word, command


class Spent(GridletError):
    """The sheet does not settle: `what` is the budget that is spent, and where."""

    def __init__(self, what: str, command: str = "", place: str = "") -> None:
        super().__init__(f"{place}spent {what}" + (f": {command}" if command else ""))
        self.what, self.command = what, command


class ProgramNotFound(GridletError):
    """There is no program to run."""


class ProgramFailed(GridletError):
    """The program ended, or said what no reply can be, before a command had its whole reply."""


class BadInput(GridletError):
    """A file or an argument that nothing can be made of."""
