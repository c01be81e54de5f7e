"""`make install` into an empty folder."""
from __future__ import annotations

import os
import shutil
import subprocess
import unittest

from .support import PROGRAM, ROOT, Folder


@unittest.skipUnless(shutil.which("make"), "there is no make")
class Install(Folder):
    """What is installed runs by itself."""

    def make(self, *words: str) -> None:
        """Runs make, with the program under test."""
        ran = subprocess.run(["make", "-C", str(ROOT), f"PROGRAM={PROGRAM}",
                              f"PREFIX={self.folder}", *words], capture_output=True)
        self.assertEqual(ran.returncode, 0, ran.stderr.decode())

    def test_program_package_and_pages(self) -> None:
        self.make("install")
        for name in ("bin/gridlet", "bin/gridlet-sheet", "include/gridlet.h",
                     "lib/gridlet/gridlet/sheet.py", "lib/gridlet/gridlet/assets/page.css",
                     "share/man/man1/gridlet.1", "share/man/man1/gridlet-sheet.1",
                     "share/man/man5/gridlet.5", "share/doc/gridlet/COOKBOOK.md",
                     "share/gridlet/editors/vim/syntax/gridlet.vim"):
            self.assertTrue((self.folder / name).is_file(), name)
        environment = {it: value for it, value in os.environ.items()
                       if it not in ("GRIDLET", "PYTHONPATH")}
        environment["PYTHONDONTWRITEBYTECODE"] = "1"
        script = self.file("s.gridlet", "set A1 =SEQUENCE(1,3)*2")
        ran = subprocess.run([str(self.folder / "bin" / "gridlet-sheet"), "show", str(script)],
                             capture_output=True, env=environment, cwd="/")
        self.assertEqual((ran.stdout, ran.stderr), (b"2 4 6\n", b""))
        ran = subprocess.run([str(self.folder / "bin" / "gridlet-sheet"), "open"],
                             input=b"help SUM\n", capture_output=True, env=environment, cwd="/")
        self.assertTrue(ran.stdout.startswith(b"SUM(x,..)\n"), ran)
        self.make("uninstall")
        left = [it for it in self.folder.rglob("*") if it.is_file()]
        self.assertEqual(left, [script])
