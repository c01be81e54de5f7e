"""The library for C, where it was built: the example programs, and sessions under a sanitizer."""
from __future__ import annotations

import shutil
import subprocess
import sys
import unittest
from pathlib import Path
from typing import List

from .support import EXAMPLES, ROOT, TESTS, Folder

LIBRARY = ROOT / "crates" / "gridlet_c" / "out" / "libgridlet_c.a"
COMPILER = shutil.which("cc")
EMBED = EXAMPLES / "embed"
WRAPPED = [f"-Wl,--wrap={it}" for it in ("malloc", "realloc", "free")]


def heap() -> Path:
    """The file with the heap that the library is linked with."""
    ran = subprocess.run(["make", "-s", "-C", str(ROOT), "heap"], capture_output=True)
    return Path(ran.stdout.decode().strip() or "none")


@unittest.skipUnless(shutil.which("make"), "left out: there is no make")
@unittest.skipUnless(COMPILER, "left out: there is no C compiler")
@unittest.skipUnless(LIBRARY.is_file(), f"left out: {LIBRARY} is not built")
class Library(Folder):
    """C and Python programs over the library."""

    def setUp(self) -> None:
        super().setUp()
        self.heap = heap()
        if not self.heap.is_file():
            self.skipTest("left out: the heap of the toolchain is not found")

    def run_well(self, *words: object) -> bytes:
        """What a command prints, which ends well and complains of nothing."""
        ran = subprocess.run([str(it) for it in words], capture_output=True, timeout=300)
        self.assertEqual((ran.returncode, ran.stderr), (0, b""), ran.stdout.decode())
        return ran.stdout

    def compiled(self, source: Path, *flags: str) -> Path:
        """A C program over the library."""
        made = self.folder / source.stem
        self.run_well(COMPILER, "-O1", "-g", "-Wall", "-I", ROOT / "include", *flags, "-o", made,
                      source, LIBRARY, self.heap, "-pthread")
        return made

    def shared(self) -> Path:
        """The library as a shared object."""
        made = self.folder / "libgridlet.so"
        self.run_well(COMPILER, "-shared", "-o", made, "-Wl,--whole-archive", LIBRARY,
                      "-Wl,--no-whole-archive", self.heap)
        return made

    def scripts(self) -> List[Path]:
        """The examples, and beside each its replies."""
        return sorted(EXAMPLES.glob("*.gridlet"))

    def test_sessions(self) -> None:
        program = self.compiled(TESTS / "sessions.c", "-fsanitize=address", *WRAPPED)
        words: List[Path] = []
        for script in self.scripts():
            words += [script, script.with_suffix(".replies")]
        self.assertEqual(self.run_well(program, *words), b"0 failed\n")

    def test_whole_scripts(self) -> None:
        program = self.compiled(EMBED / "main.c", "-fsanitize=address")
        for script in self.scripts():
            with self.subTest(script.name):
                ran = subprocess.run([str(program), str(script)], capture_output=True)
                self.assertEqual(ran.stdout, script.with_suffix(".replies").read_bytes())
                self.assertEqual((ran.stderr, ran.returncode in (0, 1)), (b"", True))

    def test_what_if(self) -> None:
        totals = b"6840 126828\n"
        program = self.compiled(EMBED / "session.c", "-fsanitize=address")
        self.assertEqual(self.run_well(program), totals)
        python = self.run_well(sys.executable, EMBED / "session.py", self.shared())
        self.assertEqual(python, totals)
