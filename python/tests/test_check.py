"""`gridlet-sheet check`, and the answers to what goes wrong silently."""
from __future__ import annotations

import os
import subprocess
import sys
import unittest

from .support import EXAMPLES, FRONT, Folder, environment, front, front_alone


class Check(Folder):
    """Each refused command is named, with its file and line."""

    def test_a_file_without_fault(self) -> None:
        self.assertEqual(front("check", EXAMPLES / "loan.gridlet"), (0, "", ""))

    def test_refused_commands(self) -> None:
        file = self.file("s.gridlet", "; a", "set A1 1", "", "set A2 =A1+", "show A0",
                         b"set A3 \xff\n", "x" * 40_000, "undo", "quit", "foo")
        ran = front("check", file)
        self.assertEqual((ran.status, ran.complaints), (1, ""))
        self.assertEqual([it.replace(f"{file}", "F")[:50] for it in ran.lines], [
            "F:4: error syntax: set A2 =A1+", "F:5: error address: show A0",
            "F:6: error utf8: set A3 \\xff", "F:7: error line: " + "x" * 33])

    def test_every_word_of_a_formula(self) -> None:
        faults = {"token": "=$A$2", "number": "=99999999999999999999", "text": '="abc',
                  "deep": "=" + "-" * 9 + "1", "syntax": "=sum(A2)", "range": "=A2:A1",
                  "name": "=FOO(1)", "arity": "=ABS(1,2)", "long": "=1" + " " * 8192,
                  "field": "x" * 4097}
        file = self.file("s.gridlet", *(f"set A1 {it}" for it in faults.values()))
        ran = front("check", file)
        self.assertEqual([it.split(": ")[1] for it in ran.lines], [f"error {it}" for it in faults])

    def test_every_word_of_a_command(self) -> None:
        cells = [f"{column}{row}" for column in "ABCDEFGHIJKLMN" for row in range(1, 9999)]
        cases = (
            ("line", ["x" * 40_000]), ("utf8", [b"get \xff\n"]), ("utf8", [b"import A1 1\n\xff\n"]),
            ("command", ["foo"]), ("payload", ["import A1 1048577"]),
            ("truncated", [b"import A1 5\n1"]), ("address", ["show A0"]), ("range", ["view B1:A1"]),
            ("stamp", ["site 1", "edit 0 1 A1 5"]), ("site", ["export"]),
            ("stamp", ["site 1", "edit 1000000000000 2 A1 5", "set A1 1"]),
            ("field", [b"import A1 4098\n" + b"a" * 4097 + b"\n"]),
            ("grid", [b"import ZZ1 4\n1,2\n"]), ("undo", ["undo"]), ("redo", ["redo"]),
            ("conflict", ["site 1", "edit 2 1 A1 5", "edit 2 1 A1 6"]),
            ("formulas", [f"set {it} =1" for it in cells[:16_385]]),
            ("contents", [f"set {it} 1" for it in cells[:65_537]]),
            ("edits", ["site 1", *(f"edit 1 1 {it}" for it in cells[:131_073])]))
        for word, lines in cases:
            file = self.file("s.gridlet", *lines)
            line = 1 if isinstance(lines[-1], bytes) else len(lines)
            with self.subTest(word=word):
                ran = front("check", file)
                self.assertEqual(len(ran.lines), 1)
                self.assertTrue(ran.lines[0].startswith(f"{file}:{line}: error {word}: "))

    def test_a_sheet_that_does_not_settle(self) -> None:
        file = self.file("s.gridlet", "set A1 =IF(C1=0,SEQUENCE(1,3),5)", "show A1")
        self.assertEqual(front("check", file).lines, [f"{file}:2: spent rounds A1: show A1"])
        file = self.file("s.gridlet", "set A1 =IF(C1=0,SEQUENCE(1,3),5)")
        self.assertEqual(front("check", file).status, 0)
        ran = front("check", "--cells", file)
        self.assertEqual((ran.status, ran.lines), (1, [f"{file}:1: spent rounds A1"]))

    def test_cells_that_show_an_error(self) -> None:
        file = self.file("s.gridlet", "set A1 =1/0", "set A1 =B1/0", 'set A2 "#REF!"',
                         "set C1 =VSTACK(1,SEQUENCE(1,2))", "set A3 =A3")
        ran = front("check", "--cells", file)
        self.assertEqual([it.replace(f"{file}", "F") for it in ran.lines], [
            "F:2: A1 shows #DIV/0!: =B1/0", "F:4: D1 shows #N/A: =VSTACK(1,SEQUENCE(1,2)) of C1",
            "F:5: A3 shows #CYCLE!: =A3"])

    def test_texts_that_look_like_numbers(self) -> None:
        file = self.file("s.gridlet", b"import A1 18\n12.50\n3\n4.25\n007x\n", "set B1  12",
                         "set B2 1,200", 'set B3 "12"', "set B4 2024-01-31")
        ran = front("check", "--texts", file)
        self.assertEqual([it.split(": ", 1)[1].split(",")[0] for it in ran.lines], [
            'A1 holds the text "12.50"', 'B1 holds the text " 12"', 'B2 holds the text "1',
            'A3 holds the text "4.25"'])
        self.assertEqual(front("check", file).status, 0)

    def test_a_payload_that_is_cut(self) -> None:
        file = self.file("s.gridlet", "set A1 1", b"import A2 20\n1,2\n")
        ran = front("check", "--cells", file)
        self.assertEqual((ran.status, ran.lines), (1, [
            f"{file}:2: error truncated: import A2 20 (16 bytes of its payload are missing)"]))

    def test_a_byte_order_mark_and_a_late_version(self) -> None:
        file = self.file("s.gridlet", b"\xef\xbb\xbfset A1 1\n", "gridlet 2")
        ran = front("check", file)
        self.assertIn("(a byte order mark stands before it)", ran.lines[0])
        self.assertIn("error command: \\ufeffset A1 1", ran.lines[0])
        self.assertIn("(this has to be the first line, before comments too)", ran.lines[1])

    def test_annotations(self) -> None:
        file = self.file("a,b%.gridlet", "set A1 =A1+")
        ran = front("check", "--format", "github", file)
        name = str(file).replace("%", "%25").replace(",", "%2C")
        self.assertEqual(ran.lines, [f"::error file={name},line=1::error syntax: set A1 =A1+"])

    def test_standard_input(self) -> None:
        self.assertEqual(front("check", "-", given="set A1 1\nfoo\n").lines,
                         ["-:2: error command: foo"])
        given = "set A1 =SEQUENCE(1,2)\n"
        self.assertEqual(front("show", "-", "--csv", given=given).out, "1,2\n")
        self.assertIn("<title>-</title>", front("show", "-", "--html", given=given).out)
        self.assertEqual(front("save", "-", given="set A1 01").out, "set A1 1\n")
        self.assertEqual(front("import", "-", given="1,2").lines, ["set A1 1", "set B1 2"])

    def test_several_files(self) -> None:
        one, other = self.file("one", "foo"), self.file("other", "set A1 1", "bar")
        ran = front("check", one, other)
        self.assertEqual(ran.lines, [f"{one}:1: error command: foo",
                                     f"{other}:2: error command: bar"])


class BadInput(Folder):
    """One line on standard error that names the file, and the status."""

    COMMANDS = (("check",), ("show",), ("save",), ("import",), ("diff", "/dev/null"))

    def test_a_file_that_is_not_there(self) -> None:
        for words in self.COMMANDS:
            file = self.folder / "none"
            self.complains(front(*words, file), 2, file, "No such file or directory")

    def test_a_directory(self) -> None:
        for words in self.COMMANDS:
            self.complains(front(*words, self.folder), 2, self.folder, "Is a directory")

    def test_not_utf8(self) -> None:
        file = self.file("s", "set A1 1", b"set A2 \xff\n", "set A3 3")
        for words, status in ((("show",), 1), (("diff", "/dev/null"), 2)):
            self.complains(front(*words, file), status, f"{file}:2: error utf8: set A2 \\xff")
        self.complains(front("import", file), 2, f"{file}:2: not UTF-8")
        ran = front("save", file)
        self.assertIn(f"{file}:2: error utf8: set A2 \\xff\n", ran.complaints)
        self.assertEqual(ran.status, 1)

    def test_a_payload_that_is_cut(self) -> None:
        file = self.file("s", b"import A1 9\n1,2")
        for words in (("show",), ("save",), ("diff", "/dev/null")):
            self.complains(front(*words, file), 2, f"{file}:1: error truncated: import A1 9")
        self.assertEqual(file.read_bytes(), b"import A1 9\n1,2")

    def test_no_program(self) -> None:
        file = self.file("s", "set A1 1")
        for words in (("check",), ("show",), ("save",), ("open",)):
            self.complains(front("--program", "/nowhere", *words, file), 2, "/nowhere")
            self.complains(front(*words, file, GRIDLET="/nowhere"), 2, "/nowhere")

    def test_a_program_that_ends_in_mid_reply(self) -> None:
        program = self.program(
            "ends", "#!/bin/sh\nread one\necho ok\nread two\nprintf 'li'\nexit 3")
        file = self.file("s", "; first", "set A1 1", "list", "show A1")
        for words in (("check",), ("show",), ("save",), ("diff", file)):
            ran = front("--program", program, *words, file)
            self.complains(ran, 2, f"{file}:3: the program ended before a reply to: list",
                           "out of memory")
        self.assertIn("set A1 1", file.read_text())

    def test_wrong_words(self) -> None:
        for words in ((), ("foo",), ("show",), ("show", "a", "b", "c"), ("check", "--format", "x")):
            self.assertEqual(front(*words).status, 2)
        self.complains(front("show", EXAMPLES / "loan.gridlet", "A1:"), 2, "A1:: no range")
        self.assertEqual(front_alone("--version").status, 0)
        self.assertEqual(front_alone("show", "/nowhere").status, 2)

    @unittest.skipUnless(os.path.exists("/dev/full"), "there is no /dev/full")
    def test_output_that_cannot_be_written(self) -> None:
        file = self.file("s", "set A1 1")
        line = f"'{sys.executable}' '{FRONT}' show '{file}' > /dev/full"
        ran = subprocess.run(["sh", "-c", line], capture_output=True, env=environment())
        self.assertEqual((ran.returncode, ran.stderr),
                         (2, b"gridlet-sheet: standard output: No space left on device\n"))

    def test_output_that_nobody_reads(self) -> None:
        file = self.file("s", "set A1 =SEQUENCE(5000,2)")
        line = f"'{sys.executable}' '{FRONT}' show '{file}' --csv | head -1"
        ran = subprocess.run(["sh", "-c", line], capture_output=True, env=environment())
        self.assertEqual((ran.stdout, ran.stderr), (b"1,2\n", b""))
