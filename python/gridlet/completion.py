"""Completion and history at a prompt, where the terminal's library has them."""
from __future__ import annotations

import glob
import os
from pathlib import Path
from typing import List, Optional

from .manual import Manual
from .prompt import Prompt

try:
    import readline
except ImportError:  # a Python without it has no history and no completion
    readline = None  # type: ignore[assignment]

LENGTH = 1000
DELIMITERS = " ()+-*/&=<>,:#\""
OWN = ("exit", "help", "reasons", "save")


def history_file() -> Path:
    """Where the history is kept."""
    return Path(os.environ.get("GRIDLET_HISTORY") or Path.home() / ".gridlet_history")


def candidates(prompt: Prompt, line: str, begin: int, text: str) -> List[str]:
    """What may stand where the text begins: words, functions, addresses and files."""
    manual: Manual = prompt.manual
    before = line[:begin]
    word = before.split(" ", 1)[0]
    if not before.strip():
        found = [*manual.commands(), *OWN]
    elif word == "help":
        found = [*manual.commands(), *manual.functions(), *manual.sections]
    elif word == "save" or (word == "import" and before.count(" ") > 1):
        found = [it + ("/" if os.path.isdir(it) else "") for it in glob.glob(text + "*")]
    else:
        functions = [f"{it}(" for it in manual.functions()] if "=" in before else []
        found = [*functions, *prompt.sheet.list()]
    return sorted(it for it in set(found) if it.startswith(text))


class Completer:
    """What the terminal's library asks, number by number."""

    def __init__(self, prompt: Prompt) -> None:
        self._prompt = prompt
        self._found: List[str] = []

    def __call__(self, text: str, number: int) -> Optional[str]:
        """The candidate with this number."""
        if number == 0:
            self._found = candidates(
                self._prompt, readline.get_line_buffer(), readline.get_begidx(), text)
        return self._found[number] if number < len(self._found) else None


def prepare(prompt: Prompt) -> None:
    """Gives the prompt its history and its completion."""
    if readline is None:
        return
    readline.set_completer(Completer(prompt))
    readline.set_completer_delims(DELIMITERS)
    readline.parse_and_bind("tab: complete")
    try:
        readline.read_history_file(history_file())
    except OSError:
        pass
    readline.set_history_length(LENGTH)


def keep() -> None:
    """Keeps the history."""
    if readline is not None:
        try:
            readline.write_history_file(history_file())
        except OSError:
            pass
