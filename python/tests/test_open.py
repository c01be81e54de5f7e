"""`gridlet-sheet open`: the prompt, its help, its completion and the watch."""
from __future__ import annotations

import contextlib
import io
from typing import List

from gridlet import Sheet
from gridlet.commands import opening
from gridlet.completion import candidates
from gridlet.manual import Manual, manual
from gridlet.prompt import Prompt, loop
from gridlet.terminal import grid
from gridlet.addresses import read_range

from .support import EXAMPLES, Folder, PROGRAM, front


class Lines(Folder):
    """What a prompt answers."""

    def told(self, *lines: str, file: str = "") -> List[str]:
        """The answers to these lines."""
        words = [self.folder / file] if file else []
        ran = front("open", *words, given="".join(f"{it}\n" for it in lines))
        self.assertEqual(ran.status, 0, ran)
        return ran.lines

    def test_commands_of_the_language(self) -> None:
        self.assertEqual(self.told("set A1 2", "show A1", "", "; x", "get A1", "list", "undo",
                                   "calc"),
                         ["ok", "2", "2", "list 1", "set A1 2", "ok", "settled 1"])

    def test_a_refused_line_says_what_it_means(self) -> None:
        self.assertEqual(self.told("set A1 =SUM(", "show A0", "foo", "set A1 =F(1)"), [
            "error syntax: no formula", "error address: an address is none",
            "error command: the command is unknown, a piece is missing, empty or too many, a "
            "number isn't digits without a leading zero, or the site of site is above 65,535",
            "error name: an unknown function or variable"])

    def test_a_budget_that_is_spent(self) -> None:
        meaning = ("the number of formulas and 8 more rounds; A1 is the first cell at which the "
                   "last two rounds differ")
        self.assertEqual(self.told("set A1 =IF(C1=0,SEQUENCE(1,3),5)", "show A1", "view"), [
            "ok", f"spent rounds A1: {meaning}", f"spent rounds A1: {meaning}"])

    def test_the_grid(self) -> None:
        self.assertEqual(self.told("set A1 rent", "set B1 =SEQUENCE(2,1)*900", "view", "view B2:C2",
                                   "view B2:A1")[2:], [
            "    A     B", "1  rent   900", "2        1800", "    B    C", "2  1800",
            "error range: corners out of order, or more than 10,000 cells in view"])

    def test_an_empty_sheet(self) -> None:
        self.assertEqual(self.told("view"), ["the sheet is empty"])

    def test_spaces_behind_a_text_stay(self) -> None:
        self.assertEqual(self.told("set A1 x  ", "get A1"), ["ok", '"x  "'])

    def test_reasons(self) -> None:
        lines = ("set A1 12", "set A2 twenty", "set B1 =A1*3", "set B2 =A2*4",
                 "set B3 =IFERROR(B2,0)", "set B4 =B1+B3", "reasons B4", "reasons A1", "reasons A0")
        self.assertEqual(self.told(*lines)[6:], [
            "B4 36  =B1+B3", "├ B1 36  =A1*3", "└ B3 0  =IFERROR(B2,0)", "  └ B2 #VALUE!  =A2*4",
            "A1 has no formula, and no array covers it",
            "error address: an address is none"])

    def test_import_takes_a_file(self) -> None:
        file = self.file("f.csv", "1,2")
        self.assertEqual(self.told(f"import B1 {file}", "show C1", f"import A0 {file}",
                                   "import A1 3"), ["ok", "2", "error address: an address is none",
                          "here an import takes a file: import A1 parts.csv"])
        self.assertEqual(self.told(f"import B1 {self.folder}/none"),
                         [f"{self.folder}/none: No such file or directory"])

    def test_save(self) -> None:
        file = self.folder / "s"
        self.assertEqual(self.told("save", "set A1 01", f"save {file}", "save"), [
            "say where: save FILE", "ok", f"saved to {file}", f"saved to {file}"])
        self.assertEqual(file.read_text(), "set A1 1\n")
        self.assertEqual(self.told("set B1 2", "save", file="s")[-1], f"saved to {file}")
        self.assertEqual(file.read_text(), "set A1 1\nset B1 2\n")

    def test_save_keeps_what_was_refused_and_what_was_changed(self) -> None:
        file = self.file("s", "set A1 1", "set A2 =SUM(")
        ran = front("open", file, given="save\n")
        self.assertIn("1 refused commands, which would be lost", ran.out)
        self.assertIn(f"{file}:2: error syntax", ran.complaints)
        file = self.file("s", "set A1 1")
        with Sheet(file) as sheet:
            prompt = Prompt(sheet, Manual(""), file)
            file.write_text("set A1 5\n")
            said = io.StringIO()
            with contextlib.redirect_stdout(said):
                prompt.answer("save")
        self.assertIn("was changed meanwhile", said.getvalue())
        self.assertEqual(file.read_text(), "set A1 5\n")

    def test_edits_that_are_not_saved(self) -> None:
        self.assertIn("the edits were not saved", front("open", given="set A1 1\n").complaints)
        self.assertEqual(front("open", given="show A1\nquit\nshow A1\n"), (0, ".\n", ""))

    def test_a_file_that_opens(self) -> None:
        ran = front("open", EXAMPLES / "what-if.gridlet", given="show B5\n")
        self.assertEqual((ran.status, ran.lines), (0, ["2500"]))
        self.complains(front("open", self.folder), 2, "Is a directory")

    def test_a_program_that_ends(self) -> None:
        program = self.program("ends", "#!/bin/sh\nread one\necho ok\nexit 3")
        ran = front("--program", program, "open", given="set A1 1\nshow A1\nshow A2\n")
        self.assertEqual((ran.status, len(ran.lines)), (2, 2))
        self.assertIn("out of memory", ran.lines[1])


class Person(Folder):
    """What a person at a terminal is asked, and what an interrupt does."""

    def setUp(self) -> None:
        super().setUp()
        self.prompt = Prompt(Sheet(), manual())
        self.addCleanup(lambda: self.prompt.sheet.close())

    def says(self, line: str) -> str:
        """What the prompt prints for a line."""
        said = io.StringIO()
        with contextlib.redirect_stdout(said):
            self.prompt.answer(line)
        return said.getvalue()

    def test_an_interrupted_command_loses_no_edit(self) -> None:
        self.says("set A1 7")
        sheet, was = self.prompt.sheet, self.prompt.sheet.ask

        def interrupted(_: object) -> None:
            """As where a person interrupts a command."""
            sheet.close()
            raise KeyboardInterrupt

        sheet.ask = interrupted  # type: ignore[assignment,method-assign]
        self.assertEqual(self.says("calc"), "interrupted; the sheet is as it was\n")
        sheet.ask = was  # type: ignore[method-assign]
        self.assertEqual(self.says("show A1"), "7\n")

    def test_the_last_question(self) -> None:
        lines = iter(["set A1 1", "quit", "no", "show A1"])

        def read(_: str) -> str:
            """The next line of the person."""
            try:
                return next(lines)
            except StopIteration:
                raise EOFError from None

        said = io.StringIO()
        with contextlib.redirect_stdout(said), contextlib.redirect_stderr(io.StringIO()):
            loop(self.prompt, read)
        self.assertEqual(said.getvalue(), "ok\n")

    def test_completion(self) -> None:
        self.prompt.sheet.set_all({"AB12": 1, "A1": 2})
        for line, text, found in (("sh", "sh", ["show"]),
                                  ("e", "e", ["edit", "exit", "explain", "export"]),
                                  ("set A1 =SU", "SU", ["SUM("]), ("show A", "A", ["A1", "AB12"]),
                                  ("set C1 =SUM(AB", "AB", ["AB12", "ABS("]),
                                  ("help UNI", "UNI", ["UNIQUE"])):
            self.assertEqual(candidates(self.prompt, line, len(line) - len(text), text), found)
        file = self.file("parts.csv", "1")
        line = f"import A1 {self.folder}/par"
        self.assertEqual(candidates(self.prompt, line, 10, line[10:]), [str(file)])


class Help(Folder):
    """What the language's page says."""

    def test_commands_and_functions(self) -> None:
        page = manual()
        self.assertIn("explain", page.commands())
        self.assertLessEqual({"SUM", "VIEW", "LET", "NA"}, set(page.functions()))
        self.assertEqual(page.about("sum")[0].split("\n")[0], "SUM(x,..)")
        self.assertTrue(page.about("why")[0].startswith("why A1"))
        self.assertTrue(page.about("#SPILL!")[0].startswith("#SPILL!"))
        self.assertEqual(page.about("Copies")[0], "Copies of the sheet")
        self.assertEqual(page.about("nothing"), [])

    def test_every_word_of_a_refusal(self) -> None:
        words = ("line utf8 command payload truncated address range stamp long token number text "
                 "deep syntax name arity field grid site conflict undo redo edits formulas "
                 "contents").split()
        self.assertEqual([it for it in words if not manual().refusal(it)], [])

    def test_no_page(self) -> None:
        self.assertEqual((Manual("").commands(), Manual("").about("SUM")), ([], []))


class Terminal(Folder):
    """The grid and the watch."""

    def test_colours_and_width(self) -> None:
        found = read_range("A1:C2")
        assert found
        with Sheet() as sheet:
            sheet.set_all({"A1": "text", "B1": "=1/0", "C1": "=SEQUENCE(2,1)"})
            rows = sheet.view(found)
            covers = {at: it for it in sheet.oracle() for at in it.area.cells()}
        lines = grid(found, rows, covers, True, 200)
        self.assertIn("\x1b[31m#DIV/0!\x1b[0m", lines[1])
        self.assertIn("\x1b[36m2\x1b[0m", lines[2])
        self.assertEqual(grid(found, rows, covers, False, 16)[-1],
                         "(1 more columns, up to C, are wider than this terminal)")

    def test_wide_characters(self) -> None:
        found = read_range("A1:B2")
        assert found
        self.assertEqual(grid(found, [["日本", 1], ["e\u0301x", 2]], {}, False, 80), [
            "    A    B", "1  日本  1", "2  e\u0301x    2"])

    def test_watch(self) -> None:
        file = self.file("s", "set A1 1")
        seconds, opening.SECONDS = opening.SECONDS, 0.01
        turns = iter(["set A1 2", "", "set A1 =1+", None])

        def go_on() -> bool:
            """Changes the file, until there is nothing left to change it to."""
            text = next(turns, None)
            if text:
                file.write_text(text + "\n" * (2 if "2" in text else 1))
            return text is not None

        said = io.StringIO()
        try:
            with contextlib.redirect_stdout(said), contextlib.redirect_stderr(said):
                opening.watch(str(file), "A1", PROGRAM, go_on)
        finally:
            opening.SECONDS = seconds
        self.assertEqual([it for it in said.getvalue().split("\n") if it.startswith("1")],
                         ["1  2", "1"])
        self.assertIn("error syntax", said.getvalue())
