"""The built program: where it stands, and a process of it that answers commands one by one."""
from __future__ import annotations

import os
import shutil
import signal
import subprocess
import sys
import threading
from pathlib import Path
from typing import Iterable, List, Optional, Sequence, Tuple

from .errors import ProgramFailed, ProgramNotFound
from .replies import Item, Pairing, Reply

STATUSES = {
    3: "out of memory", 4: "reading failed", 5: "writing failed",
    6: "the commands have more than 16,777,216 bytes"}
CHECKOUT = Path(__file__).resolve().parents[2]
Answer = Tuple[Item, Reply]


def find_program(given: Optional[str] = None) -> str:
    """The program to run: the given one, `$GRIDLET`, the one on the path, beside, or of here."""
    named = given or os.environ.get("GRIDLET")
    if named:
        found = shutil.which(named)
        if not found:
            raise ProgramNotFound(f"{named}: no such program")
        return found
    beside = Path(sys.argv[0]).resolve().parent / "gridlet"
    built = CHECKOUT / "crates" / "gridlet" / "out" / "gridlet"
    for candidate in ("gridlet", str(beside), str(built)):
        found = shutil.which(candidate)
        if found:
            return found
    raise ProgramNotFound(
        "the program gridlet is not on the path; say where it stands by GRIDLET=FILE or --program")


def ended(status: int) -> str:
    """How the program ended, in words."""
    if status < 0:
        return f"it was stopped by the signal {-status}"
    return f"status {status}" + (f", {STATUSES[status]}" if status in STATUSES else "")


class Process:
    """A running program. Commands go in and replies come out, each with its command.

    A sheet wants no more of it than `ask`, `run`, `version` and `close`.
    """

    def __init__(self, program: Optional[str] = None, words: Sequence[str] = ()) -> None:
        path = find_program(program)
        try:
            self._running = subprocess.Popen(
                [path, *words], stdin=subprocess.PIPE, stdout=subprocess.PIPE, bufsize=0,
                start_new_session=True)
        except OSError as error:
            raise ProgramNotFound(f"{path}: {error.strerror}") from None
        assert self._running.stdin and self._running.stdout
        self._to, self._from = self._running.stdin.fileno(), self._running.stdout.fileno()
        self._buffer, self._at = b"", 0
        self._lines: List[bytes] = []
        self._pairing = Pairing(self._next_line)

    @property
    def version(self) -> int:
        """The version of the script that it runs."""
        return self._pairing.version

    def ask(self, item: Item) -> Optional[Reply]:
        """The reply to one item, None where it is silent."""
        try:
            self._write(item.whole)
            return None if item.is_silent else self._reply(item)
        except BaseException:
            # A reply that is not read whole would be taken for that of the next command.
            self._kill()
            raise

    def run(self, items: Iterable[Item], is_end: bool = False) -> List[Answer]:
        """The replies to many items, which are written while replies are read.

        With `is_end` the input ends behind them, so that an import may lack some of its payload.
        """
        told = list(items)
        whole = b"".join(it.whole for it in told)
        writer = threading.Thread(target=self._write, args=(whole, is_end), daemon=True)
        writer.start()
        try:
            return [(it, self._reply(it)) for it in told if not it.is_silent]
        except BaseException:
            # The replies that are left have lost their commands, so the process is of no more use.
            self._kill()
            raise
        finally:
            writer.join()

    def close(self) -> int:
        """Ends the program, and tells its status."""
        assert self._running.stdin and self._running.stdout
        try:
            self._running.stdin.close()
        except OSError:
            pass
        self._running.stdout.close()
        try:
            return self._running.wait(2)
        except subprocess.TimeoutExpired:
            self._kill()
            return self._running.wait()

    def _kill(self) -> None:
        """Ends the program with all that it started, as where it is a shell's script."""
        try:
            os.killpg(self._running.pid, signal.SIGKILL)
        except OSError:
            pass

    def _write(self, data: bytes, is_end: bool = False) -> None:
        view = memoryview(data)
        try:
            while view:
                view = view[os.write(self._to, view[:1 << 16]):]
            if is_end and self._running.stdin:
                self._running.stdin.close()
        except OSError:
            # The reading side says what became of the program.
            pass

    def _reply(self, item: Item) -> Reply:
        try:
            return self._pairing.reply_to(item)
        except ProgramFailed as error:
            try:
                how = ended(self._running.wait(0.5))
            except subprocess.TimeoutExpired:
                how = "it is still running"
            raise ProgramFailed(f"{error} ({how})") from None

    def _next_line(self) -> Optional[bytes]:
        while self._at >= len(self._lines):
            got = os.read(self._from, 1 << 16)
            if not got:
                return None
            self._lines = (self._buffer + got).split(b"\n")
            self._buffer, self._at = self._lines.pop(), 0
        self._at += 1
        return self._lines[self._at - 1]
