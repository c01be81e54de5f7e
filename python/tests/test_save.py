"""`gridlet-sheet save` never loses a sheet, and `diff` says what differs."""
from __future__ import annotations

import os
import random
import signal
import subprocess
import sys
import time
from pathlib import Path
from typing import Any, List
from unittest import mock

from gridlet import BadInput, Sheet
from gridlet.saving import check, script_of, state

from .support import EXAMPLES, FRONT, Folder, Ran, environment, front


class Save(Folder):
    """What is saved makes the same sheet; what would not is not moved into place."""

    def saved(self, *lines: "str | bytes") -> List[str]:
        """The lines of a file after it was saved."""
        file = self.file("s.gridlet", *lines)
        ran = front("save", file)
        self.assertEqual((ran.status, ran.out), (0, ""), ran)
        self.assertEqual(sorted(it.name for it in self.folder.iterdir()), ["s.gridlet"])
        return file.read_text().split("\n")[:-1]

    def kept(self, *lines: "str | bytes") -> str:
        """What is said where a file is left as it was."""
        file = self.file("s.gridlet", *lines)
        before = file.read_bytes()
        ran = front("save", file)
        self.assertEqual((ran.status, file.read_bytes()), (1, before))
        self.assertEqual(len(list(self.folder.iterdir())), 1)
        return ran.complaints

    def test_a_sheet(self) -> None:
        self.assertEqual(self.saved("set B1 = 1 + 2", "set A1 text", "set A1 07", "show A1"),
                         ["set A1 7", "set B1 =1+2"])

    def test_a_last_line_without_an_end(self) -> None:
        self.assertEqual(self.saved(b"set A1 1\nset A2 2"), ["set A1 1", "set A2 2"])

    def test_a_list_within_and_a_cleared_cell(self) -> None:
        self.assertEqual(self.saved("set A1 1", "list", "clear A1", "set B1 2"), ["set B1 2"])

    def test_a_payload_and_carriage_returns(self) -> None:
        self.assertEqual(self.saved(b"import A1 7\r\n1,2\r\n\r\nset C1 3\r\n"),
                         ["set A1 1", "set B1 2", "set C1 3"])

    def test_a_version(self) -> None:
        self.assertEqual(self.saved("gridlet 2", "; head", "set A1 =IF(SEQUENCE(1,2)=1,1,2)"),
                         ["gridlet 2", "; head", "set A1 =IF(SEQUENCE(1,2)=1,1,2)"])

    def test_a_replica(self) -> None:
        lines = self.saved("site 3", "set A1 1", "set B1 2", "clear A1", "edit 9 1 C1 x")
        self.assertEqual(lines, ["site 3", "edit 3 3 A1", "edit 2 3 B1 2", 'edit 9 1 C1 "x"'])
        self.assertEqual(self.saved(*lines), lines)

    def test_a_replica_of_version_two(self) -> None:
        self.assertEqual(self.saved("gridlet 2", "site 0", "set A1 1"),
                         ["gridlet 2", "site 0", "edit 1 0 A1 1"])

    def test_comments_at_the_head(self) -> None:
        self.assertEqual(self.saved("; one", "", "; two", "set A1 1"),
                         ["; one", "", "; two", "set A1 1"])
        file = self.file("s.gridlet", "set A1 1", "; behind")
        self.complains(front("save", file), 0, "1 comments behind the first command")

    def test_an_empty_file(self) -> None:
        self.assertEqual(self.saved(), [])

    def test_quit_at_the_end(self) -> None:
        self.assertEqual(self.saved("set A1 1", "quit", "", "; no command"), ["set A1 1"])

    def test_what_stands_behind_quit(self) -> None:
        said = self.kept("set A1 1", b"quit\r\n", "", "set B1 2")
        self.assertIn("s.gridlet:4: what stands behind quit would be lost", said)

    def test_what_was_refused(self) -> None:
        said = self.kept("set A1 1", "set A2 =SUM(")
        self.assertIn("s.gridlet:2: error syntax: set A2 =SUM(", said)
        file = self.file("s.gridlet", "set A1 1", "foo")
        self.assertEqual(front("save", "--force", file).status, 0)
        self.assertEqual(file.read_text(), "set A1 1\n")

    def test_a_payload_that_eats_what_follows(self) -> None:
        file = self.file("s.gridlet", b"set A1 1\nimport A2 500\n1,2\n")
        self.complains(front("save", file), 2, "s.gridlet:2: error truncated")
        self.assertIn(b"import A2 500", file.read_bytes())

    def test_to_another_file_and_to_the_output(self) -> None:
        file, out = self.file("s", "set A1 01"), self.folder / "out"
        self.assertEqual(front("save", file, out).status, 0)
        self.assertEqual((file.read_text(), out.read_text()), ("set A1 01\n", "set A1 1\n"))
        self.assertEqual(front("save", file, "-").out, "set A1 1\n")
        self.complains(front("save", file, self.folder), 2, "Is a directory")
        self.complains(front("save", file, self.folder / "no" / "out"), 2, "No such file")

    def test_permissions_and_links_stay(self) -> None:
        file, link = self.file("s", "set A1 01"), self.folder / "link"
        file.chmod(0o640)
        link.symlink_to(file)
        self.assertEqual(front("save", link).status, 0)
        self.assertTrue(link.is_symlink())
        self.assertEqual((file.read_text(), file.stat().st_mode & 0o777), ("set A1 1\n", 0o640))

    def test_every_example_comes_back(self) -> None:
        for example in sorted(EXAMPLES.glob("*.gridlet")):
            with self.subTest(file=example.name):
                out = self.folder / example.name
                self.assertEqual(front("save", example, out).status, 0)
                self.assertEqual(front("diff", example, out).status, 0)

    def test_as_many_contents_as_a_sheet_holds(self) -> None:
        lines = [f"set {column}{row} {row}" for column in "ABCDEFGH" for row in range(1, 8193)]
        self.assertEqual(len(self.saved(*lines)), 65_536)

    def test_what_does_not_read_back_is_not_moved(self) -> None:
        program = self.program("half", f"""#!/bin/sh
# Loses the last content of a list.
exec {sys.executable} -uc '
import sys
held = []
for line in sys.stdin:
    if line.startswith("set "):
        held.append(line)
        print("ok")
    elif line == "list\\n":
        print("list %d" % len(held[:-1]))
        print("".join(held[:-1]), end="")
'""")
        file = self.file("s.gridlet", *(f"set A{it} {it}" for it in range(1, 9)))
        before = file.read_bytes()
        self.complains(front("--program", program, "save", file), 2, "the same sheet")
        self.assertEqual(file.read_bytes(), before)

    def test_the_client_saves(self) -> None:
        file = self.folder / "s"
        with Sheet() as sheet:
            sheet.set_all({"A1": "a\nb", "B1": "=A1&1"})
            sheet.save(file)
            with self.assertRaises(BadInput):
                check(script_of(sheet) + b"set C1 1\n", state(sheet), None)
        with Sheet(file) as sheet:
            self.assertEqual(sheet.list(), {"A1": '"a\\nb"', "B1": "=A1&1"})

    def test_killed_at_any_time(self) -> None:
        old = "".join(f"set A{it} 0{it}\n" for it in range(1, 3000))
        file = self.folder / "s.gridlet"
        for delay in (0.05, 0.15, 0.25):
            file.write_text(old)
            running = subprocess.Popen([sys.executable, str(FRONT), "save", str(file)],
                                       env=environment(), stderr=subprocess.DEVNULL)
            time.sleep(delay)
            running.send_signal(signal.SIGKILL)
            running.wait()
            self.assertIn(file.read_text(), (old, old.replace(" 0", " ")))

    def killed(self, call: str, is_behind: bool, file: Path) -> None:
        """Saves in a process that is killed before or behind a call."""
        child = os.fork()
        if child:
            self.assertEqual(os.waitpid(child, 0)[1], signal.SIGKILL)
            return
        module, _, name = call.rpartition(".")
        whole = getattr(sys.modules[module], name)

        def dies(*given: Any, **named: Any) -> None:
            """The call, or not, and the end."""
            if is_behind:
                whole(*given, **named)
            os.kill(os.getpid(), signal.SIGKILL)

        with mock.patch(call, dies):
            front("save", file)
        os._exit(0)

    def test_killed_at_each_step(self) -> None:
        for call in ("tempfile.mkstemp", "os.fdopen", "os.fchmod", "os.fsync", "os.replace",
                     "gridlet.saving.check", "gridlet.saving.write", "gridlet.saving._settle"):
            for is_behind in (False, True):
                file = self.file("s.gridlet", "set A1 01", "set B1 =A1*2")
                with self.subTest(call=call, is_behind=is_behind):
                    self.killed(call, is_behind, file)
                    is_moved = call in ("gridlet.saving._settle", "gridlet.saving.write") or (
                        call == "os.replace")
                    is_new = call == "gridlet.saving._settle" or (is_moved and is_behind)
                    self.assertEqual(file.read_text(), "set A1 1\nset B1 =A1*2\n" if is_new
                                     else "set A1 01\nset B1 =A1*2\n")

    def test_what_chance_makes_comes_back(self) -> None:
        chance = random.Random(11)
        texts = ("1", "-07", "TRUE", "word", '"a\\n\\x01"', "=A1+1", "=SEQUENCE(2,2)", "=B1#",
                 "=G(A1:B2,A1,5)", '=IF(A1>0,"x",1/0)', "  spaces ", "é\u2028")
        for seed in range(24):
            lines = ["gridlet 2"] * (seed % 2) + ["site 7"] * (seed % 3 == 0)
            for _ in range(30):
                place = f"{chance.choice('ABC')}{chance.randrange(1, 5)}"
                lines.append(chance.choice((f"set {place} {chance.choice(texts)}",
                                            f"clear {place}", "undo")))
            with self.subTest(seed=seed), Sheet() as sheet:
                sheet.run(lines)
                file = self.folder / "s"
                sheet.save(file)
                with Sheet(file) as again:
                    self.assertEqual(state(again), state(sheet))

    def test_a_full_disk_leaves_the_old_file(self) -> None:
        file = self.file("s", "set A1 01")
        words = f"ulimit -f 0; exec '{sys.executable}' '{FRONT}' save '{file}'"
        ran = subprocess.run(["sh", "-c", words], capture_output=True, env=environment())
        self.complains(Ran(ran.returncode, "", ran.stderr.decode()), 2, file, "File too large")
        self.assertEqual((file.read_text(), len(list(self.folder.iterdir()))), ("set A1 01\n", 1))

    def test_a_folder_that_is_none(self) -> None:
        file = self.file("s", "set A1 01")
        self.complains(front("save", file, file / "out"), 2, file, "Not a directory")


class Difference(Folder):
    """`gridlet-sheet diff`."""

    def difference(self, one: List[str], other: List[str], *words: str) -> List[str]:
        """The lines behind the two names."""
        ran = front("diff", *words, self.file("a", *one), self.file("b", *other))
        self.assertEqual(ran.status, 1 if ran.lines else 0)
        return ran.lines[2:]

    def test_the_same(self) -> None:
        self.assertEqual(self.difference(["set A1 1", "set B1 =A1+1"],
                                         ["set B1 = A1 + 1", "; x", "set A1 01"]), [])

    def test_contents_and_cells(self) -> None:
        self.assertEqual(self.difference(["set A1 1", "set B1 =A1+1", "set C1 x"],
                                         ["set A1 2", "set B1 =A1+1", "set D1 y"]), [
            "-set A1 1", "+set A1 2", "~B1 (=A1+1) 2 -> 3", '-set C1 "x"', '+set D1 "y"'])

    def test_spilled_cells(self) -> None:
        self.assertEqual(self.difference(["set A1 =SEQUENCE(2,1)"], ["set A1 =SEQUENCE(3,1)"]), [
            "-set A1 =SEQUENCE(2,1)", "+set A1 =SEQUENCE(3,1)", "~A3 . -> 3"])

    def test_contents_alone(self) -> None:
        self.assertEqual(self.difference(["set A1 1", "set B1 =A1"], ["set A1 2", "set B1 =A1"],
                                         "--contents"), ["-set A1 1", "+set A1 2"])

    def test_versions(self) -> None:
        lines = ["set A1 =IFERROR(10/(SEQUENCE(1,3)-2),0)"]
        self.assertEqual(self.difference(lines, ["gridlet 2", *lines]), [
            "-version 1", "+version 2", "~B1 #DIV/0! -> 0"])

    def test_a_sheet_that_does_not_settle(self) -> None:
        spent = ["set A1 =IF(C1=0,SEQUENCE(1,3),5)"]
        self.assertEqual(self.difference(spent, [*spent, "set C1 1"]), [
            "~A1 (=IF(C1=0,SEQUENCE(1,3),5)) spent rounds A1 -> 5", "+set C1 1"])

    def test_what_was_refused(self) -> None:
        ran = front("diff", self.file("a", "set A1 =1+"), self.file("b"))
        self.complains(ran, 2, "a:1: error syntax: set A1 =1+")
