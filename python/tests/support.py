"""What the tests share: the program under test, folders of their own, and programs that fail."""
from __future__ import annotations

import io
import os
import shutil
import stat
import subprocess
import sys
import tempfile
import unittest
from pathlib import Path
from typing import Any, List, NamedTuple, Sequence, Union
from unittest import mock

from gridlet.front import main
from gridlet.program import find_program

TESTS = Path(__file__).resolve().parent
ROOT = TESTS.parents[1]
EXAMPLES = ROOT / "examples"
FRONT = ROOT / "python" / "gridlet-sheet"
PROGRAM = find_program()


class Ran(NamedTuple):
    """What a run came to."""

    status: int
    out: str
    complaints: str

    @property
    def lines(self) -> List[str]:
        """The lines of its output."""
        return self.out.split("\n")[:-1]


def environment(**more: str) -> "dict[str, str]":
    """The environment of the front program: the program under test and nothing of a person's."""
    return {**os.environ, "GRIDLET": PROGRAM, "PYTHONDONTWRITEBYTECODE": "1", "NO_COLOR": "1",
            **more}


def front(*words: object, given: str = "", **more: str) -> Ran:
    """Runs the front program within this one, as a start of its own takes a tenth of a second."""
    before = sys.stdin, sys.stdout, sys.stderr
    made = [io.TextIOWrapper(io.BytesIO(it), encoding="utf-8") for it in (given.encode(), b"", b"")]
    sys.stdin, sys.stdout, sys.stderr = made
    try:
        with mock.patch.dict(os.environ, environment(**more)):
            status = main([str(it) for it in words])
    except SystemExit as ended:
        status = int(ended.code or 0)
    finally:
        sys.stdin, sys.stdout, sys.stderr = before
    texts = []
    for stream in made[1:]:
        stream.flush()
        texts.append(stream.buffer.getvalue().decode())
    return Ran(status, *texts)


def front_alone(*words: object, given: str = "", **more: str) -> Ran:
    """Runs the front program as a process of its own."""
    ran = subprocess.run([sys.executable, str(FRONT), *map(str, words)], input=given.encode(),
                         capture_output=True, timeout=50, env=environment(**more))
    return Ran(ran.returncode, ran.stdout.decode(), ran.stderr.decode())


def answered(script: bytes, words: Sequence[str] = ()) -> "subprocess.CompletedProcess[bytes]":
    """Runs the program itself over a script."""
    return subprocess.run([PROGRAM, *words], input=script, capture_output=True, timeout=50)


class Folder(unittest.TestCase):
    """A test with a folder of its own."""

    def setUp(self) -> None:
        self.folder = Path(tempfile.mkdtemp(prefix="gridlet-test-"))
        self.addCleanup(shutil.rmtree, self.folder)

    def file(self, name: str, *lines: Union[str, bytes]) -> Path:
        """A file of these lines, or of bytes as they are."""
        path = self.folder / name
        path.write_bytes(b"".join(
            it if isinstance(it, bytes) else it.encode() + b"\n" for it in lines))
        return path

    def program(self, name: str, text: str) -> str:
        """A program of its own, in place of gridlet."""
        path = self.file(name, text)
        path.chmod(path.stat().st_mode | stat.S_IXUSR)
        return str(path)

    def complains(self, ran: Ran, status: int, *pieces: Any) -> None:
        """One line on standard error with all these pieces, no traceback, and the status."""
        self.assertEqual(ran.status, status, ran)
        self.assertEqual(ran.complaints.count("\n"), 1, ran.complaints)
        for piece in pieces:
            self.assertIn(str(piece), ran.complaints)
