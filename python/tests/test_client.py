"""The client: a sheet whose commands are methods."""
from __future__ import annotations

import random
import sys
import unittest
from types import ModuleType
from typing import Any
from unittest import mock

from gridlet import (
    Address, BadInput, CellError, Edit, Forecast, Note, ProgramFailed, ProgramNotFound, Range,
    Refused, Sheet, Spent)

from gridlet.reasons import reasons
from gridlet.replies import items

from .support import EXAMPLES, PROGRAM, Folder


class Methods(unittest.TestCase):
    """Each method's happy path."""

    def setUp(self) -> None:
        self.sheet = Sheet()
        self.addCleanup(self.sheet.close)

    def test_set_and_show(self) -> None:
        self.sheet.set_all({"A1": 2, "A2": True, "A3": "007", "A4": "=A1*3", "A5": "=1/0"})
        self.assertEqual([self.sheet.show(f"A{it}") for it in range(1, 7)],
                         [2, True, "007", 6, CellError("#DIV/0!"), None])
        self.sheet.enter("A3", "007")
        self.assertEqual(self.sheet.show(Address(3, 1)), 7)
        self.sheet.set("A1", None)
        self.assertIsNone(self.sheet.show("A1"))
        self.sheet.clear("A1:A5")
        self.assertEqual(self.sheet.list(), {})

    def test_view_is_whole(self) -> None:
        self.sheet.set("B2", "x" * 60)
        self.assertEqual(self.sheet.view("A1:B2"), [[None, None], [None, "x" * 60]])
        self.assertEqual(self.sheet.view(Range(Address(2, 2), Address(2, 2))), [["x" * 60]])

    def test_get_and_list(self) -> None:
        self.sheet.set("B1", "= 1 + 2")
        self.sheet.set("A2", "a\nb")
        self.assertEqual(self.sheet.get("B1"), "=1+2")
        self.assertIsNone(self.sheet.get("C1"))
        self.assertEqual(self.sheet.list(), {"B1": "=1+2", "A2": '"a\\nb"'})

    def test_arrays(self) -> None:
        self.sheet.set_all({"A1": "=SEQUENCE(3,2)", "B5": "=SEQUENCE(2,1)", "B6": 1})
        one, other = self.sheet.oracle()
        self.assertEqual((str(one.root), str(one.area), one.permitted), ("A1", "A1:B3", True))
        self.assertEqual((str(other.area), other.permitted), ("B5:B6", False))
        self.assertEqual([str(self.sheet.why(it)) for it in ("A1", "B5", "C1")],
                         ["permitted", "content B6", "none"])
        self.assertEqual((self.sheet.calc(), self.sheet.flow()), (2, Forecast("yes", height=1)))

    def test_explain(self) -> None:
        self.sheet.set_all({"A1": "=SEQUENCE(2,1)", "B1": "=A2+1", "C1": "=C1"})
        found = self.sheet.explain("B1")
        self.assertEqual(found.notes, (Note("cell", "A1", "2x1"), Note("cell", "B1", "3")))
        self.assertEqual((found.loops, found.shown, found.accepted), ((), 3, True))
        self.assertEqual(self.sheet.explain("C1").loops, (Note("cell", "C1", "#CYCLE!"),))

    def test_explain_a_copy(self) -> None:
        self.sheet.set_all({"A1": 3, "B1": "=A1*A1", "C1": "=VIEW(UPDATE(SHEET(A1:B1),A1,6),B1)"})
        kinds = [(it.kind, it.place, it.outcome) for it in self.sheet.explain("C1").notes]
        self.assertEqual(kinds, [("copy", "B1", "36"), ("settle", "A1:B1", "0"),
                                 ("cell", "C1", "36")])

    def tree(self, reason: Any) -> Any:
        """A tree as its places."""
        return (reason.note.place, *map(self.tree, reason.rests_on))

    def test_reasons(self) -> None:
        self.sheet.set_all({"A1": "=1+1", "B1": "=A1*2", "B2": "=A1*3", "C1": "=B1+B2+A1",
                            "D1": "=SEQUENCE(2,1)*A1", "E1": "=D2", "F1": "=F2", "F2": "=F1"})
        shared = ("A1",)
        self.assertEqual(self.tree(self.sheet.reasons("C1")),
                         ("C1", ("B1", shared), ("B2", shared)))
        self.assertEqual(self.tree(self.sheet.reasons("E1")), ("E1", ("D1", shared)))
        self.assertEqual(self.tree(self.sheet.reasons("D2")), ("D1", shared))
        self.assertEqual(self.tree(self.sheet.reasons("F1")), ("F1", ("F2",)))
        self.assertIsNone(self.sheet.reasons("Z1"))

    def test_reasons_of_copies(self) -> None:
        self.sheet.set_all({"A1": 3, "B1": "=A1*A1", "C1": "=VIEW(UPDATE(SHEET(A1:B1),A1,6),B1)",
                            "D1": "=C1+B1"})
        found = self.sheet.reasons("D1")
        assert found
        self.assertEqual([it.note.place for it in found.rests_on], ["C1", "B1"])
        self.assertEqual([it.note.kind for it in found.rests_on[0].rests_on], ["copy", "settle"])
        with self.assertRaisesRegex(BadInput, "rests on 3 cells, more than 2"):
            reasons(self.sheet, "D1", 2)

    def test_import_undo_and_redo(self) -> None:
        self.sheet.import_csv("B2", "part,é\nnut,5\n")
        self.assertEqual(self.sheet.view("B2:C3"), [["part", "é"], ["nut", 5]])
        self.sheet.undo()
        self.assertEqual(self.sheet.list(), {})
        self.sheet.redo()
        self.assertEqual(self.sheet.show("C3"), 5)
        self.sheet.import_csv("A1", b"")

    def test_replicas(self) -> None:
        self.sheet.site(2)
        self.sheet.set_all({"A1": 7, "B1": "a b"})
        self.sheet.clear("A1")
        edits = self.sheet.export()
        self.assertEqual(edits, [Edit(3, 2, Address(1, 1), None),
                                 Edit(2, 2, Address(1, 2), '"a b"')])
        with Sheet() as other:
            other.site(1)
            for edit in edits:
                other.edit(edit)
            self.assertEqual(other.export(), edits)

    def test_versions_and_orders(self) -> None:
        with Sheet(version=2, order="last") as sheet:
            sheet.set("A1", "=IF(SEQUENCE(1,2)=1,1,2)")
            self.assertEqual((sheet.version, sheet.view("A1:B1")), (2, [[1, 2]]))
            self.assertEqual(sheet.list(), {"A1": "=IF(SEQUENCE(1,2)=1,1,2)"})
        self.assertEqual(self.sheet.version, 1)

    def test_frame(self) -> None:
        class Pandas(ModuleType):
            """As much of pandas as is asked for."""

            DataFrame = staticmethod(lambda rows, columns=None: (rows, columns))

        self.sheet.set_all({"A1": "part", "B1": "count", "A2": "nut", "B2": 5})
        with mock.patch.dict(sys.modules, {"pandas": Pandas("pandas")}):
            self.assertEqual(self.sheet.frame("A1:B2"), ([["nut", 5]], ["part", "count"]))
            self.assertEqual(self.sheet.frame("B2:B2", has_names=False), ([[5]], None))
        with mock.patch.dict(sys.modules, {"pandas": None}):
            with self.assertRaisesRegex(BadInput, "pandas, which is not installed"):
                self.sheet.frame("A1:B2")

    def test_run_pairs_commands_with_replies(self) -> None:
        answers = self.sheet.run(["; a comment", "", "set A1 2", "show A1", "foo", "view A1:A2"])
        self.assertEqual([(it.command, reply.lines) for it, reply in answers], [
            ("set A1 2", ("ok",)), ("show A1", ("2",)), ("foo", ("error command",)),
            ("view A1:A2", ("2", "."))])


class Faults(Folder):
    """What is refused or fails is raised, and says where."""

    def test_refused(self) -> None:
        with Sheet() as sheet:
            for call, word in ((lambda: sheet.set("A0", 1), "address"),
                               (lambda: sheet.set("A1", "=1+"), "syntax"),
                               (lambda: sheet.undo(), "undo"), (lambda: sheet.export(), "site"),
                               (lambda: sheet.set("A1", "x" * 4097), "text"),
                               (lambda: sheet.enter("A1", "x" * 4097), "field"),
                               (lambda: sheet.import_csv("ZZ1", "1,2"), "grid"),
                               (lambda: sheet.set("A1", 2 ** 70), "field")):
                try:
                    call()
                except Refused as error:
                    self.assertEqual(error.word, word)
                else:
                    # A number outside 64 bits is a text, as the language has it.
                    self.assertEqual(sheet.show("A1"), str(2 ** 70))

    def test_spent(self) -> None:
        with Sheet() as sheet:
            sheet.set("A1", "=IF(C1=0,SEQUENCE(1,3),5)")
            for call in (sheet.calc, sheet.oracle, lambda: sheet.show("A1"),
                         lambda: sheet.view("A1:A2"), lambda: sheet.explain("A1")):
                with self.assertRaises(Spent) as caught:
                    call()
                self.assertEqual(caught.exception.what, "rounds A1")
            self.assertEqual(sheet.get("A1"), "=IF(C1=0,SEQUENCE(1,3),5)")

    def test_a_file_with_a_refused_line(self) -> None:
        file = self.file("s.gridlet", "set A1 1", "", "set A2 =SUM(")
        with self.assertRaisesRegex(Refused, r"s\.gridlet:3: error syntax: set A2 =SUM\("):
            Sheet(file)

    def test_a_file_whose_payload_is_cut(self) -> None:
        file = self.file("s.gridlet", "set A1 1", b"import A1 9\n1,2\n")
        with self.assertRaisesRegex(BadInput, r"s\.gridlet:2: error truncated.*5 bytes"):
            Sheet(file)

    def test_what_is_no_line(self) -> None:
        with Sheet() as sheet:
            for line in ("set A1 1\nset A2 2", "import A1 3", "", "; x", "set A1 \ud800"):
                with self.assertRaises(BadInput):
                    sheet.ask(line)
            with self.assertRaisesRegex(BadInput, "a payload is cut"):
                sheet.run(items(b"set A1 1\nimport A1 9\n1"))
            self.assertEqual(sheet.ask("show A1").lines, (".",))

    def test_no_program(self) -> None:
        for name in ("/nowhere/gridlet", str(self.folder)):
            with self.assertRaises(ProgramNotFound):
                Sheet(program=name)
        with self.assertRaises(ProgramNotFound):
            Sheet(program=str(self.program("no-format", "nothing that runs")))

    def test_a_program_that_ends_in_mid_reply(self) -> None:
        program = self.program(
            "ends", "#!/bin/sh\nread one\necho ok\nread two\necho list 3\necho set A1 1\nexit 3")
        with Sheet(program=program) as sheet:
            sheet.set("A1", 1)
            with self.assertRaisesRegex(ProgramFailed, "whole reply to: list .*out of memory"):
                sheet.list()
            with self.assertRaises(ProgramFailed):
                sheet.list()

    def test_a_program_that_is_killed(self) -> None:
        program = self.program("dies", "#!/bin/sh\nread one\nprintf 'lis'\nkill -9 $$")
        with Sheet(program=program) as sheet, self.assertRaisesRegex(ProgramFailed, "signal 9"):
            sheet.run(["list", *(f"set A{it} 1" for it in range(1, 9000))])

    def test_a_program_within_a_script(self) -> None:
        program = self.program("within", f"#!/bin/sh\n{PROGRAM} \"$@\"\n")
        with Sheet(program=program) as sheet:
            sheet.set("A1", 1)
            self.assertEqual(sheet.show("A1"), 1)
            with self.assertRaises(ProgramFailed):
                sheet.run(["quit", *["view A1:B5000"] * 30, *["set A1 " + "x" * 900] * 900])

    def test_a_program_that_echoes(self) -> None:
        with Sheet(program="/bin/cat") as sheet, self.assertRaises(ProgramFailed):
            sheet.set("A1", 1)


class Much(unittest.TestCase):
    """Many commands at once, and many one by one."""

    def test_more_than_a_pipe_holds(self) -> None:
        with Sheet() as sheet:
            lines = [f"set {at} {it}" for it, at in enumerate(cells(65_537))]
            answers = sheet.run(lines)
            self.assertEqual({reply.lines for _, reply in answers[:-1]}, {("ok",)})
            self.assertEqual(answers[-1][1].refusal, "contents")
            self.assertEqual(len(sheet.list()), 65_536)

    def test_views_of_ten_thousand_cells(self) -> None:
        with Sheet() as sheet:
            sheet.set("A1", "=SEQUENCE(5000,2)")
            answers = sheet.run(["view A1:B5000"] * 20)
            self.assertEqual({len(reply.lines) for _, reply in answers}, {5000})
            self.assertEqual(sheet.view("A1:B5000")[-1], [9999, 10000])
            rows = sheet.view("A1:T5001")
            self.assertEqual((len(rows), rows[4999][:3], rows[5000][:1]),
                             (5001, [9999, 10000, None], [None]))

    def test_views_are_what_cells_show(self) -> None:
        chance = random.Random(5)
        pieces = ('"', "\\", " ", "~", "a", "é", "\n", "  ", "x" * 9, "#REF!", '" "', "日")
        with Sheet() as sheet:
            for _ in range(12):
                for at in (f"{column}{row}" for column in "ABCD" for row in range(1, 6)):
                    text = "".join(chance.choice(pieces) for _ in range(chance.randrange(24)))
                    sheet.set(at, chance.choice((
                        text, text, text, None, 7, -2 ** 63, False, "=1/0", "=SHEET(AA1000:AZ1200)")))
                shown = [sheet.show(f"{column}{row}") for row in range(1, 6) for column in "ABCD"]
                self.assertEqual([it for row in sheet.view("A1:D5") for it in row], shown)

    def test_more_commands_than_one_program_takes(self) -> None:
        with Sheet(version=2) as sheet:
            sheet.set("A1", "=IF(SEQUENCE(1,2)=1,1,2)")
            lines = ["set B9 " + "x" * 4000] * 2100
            sheet.run(lines)
            sheet.renew()
            sheet.run(lines)
            self.assertEqual((sheet.version, sheet.view("A1:B1")), (2, [[1, 2]]))
            with self.assertRaisesRegex(ProgramFailed, "more than 16,777,216 bytes"):
                sheet.run(lines)

    def test_renewed_replicas(self) -> None:
        with Sheet() as sheet:
            sheet.site(3)
            sheet.set_all({"A1": 1, "B1": "x"})
            sheet.clear("A1")
            before = sheet.export()
            sheet.renew()
            self.assertEqual((sheet.site_number, sheet.export()), (3, before))

    def test_many_pairs_one_by_one(self) -> None:
        with Sheet() as sheet:
            for it in range(5000):
                sheet.set("A1", it)
                self.assertEqual(sheet.show("A1"), it)


def cells(count: int) -> Any:
    """So many addresses, column by column."""
    for number in range(count):
        yield Address(number % 9999 + 1, number // 9999 + 1)


class Examples(unittest.TestCase):
    """Each example opens, also the one that is meant to spend a budget."""

    def test_all(self) -> None:
        for file in sorted(EXAMPLES.glob("*.gridlet")):
            with self.subTest(file=file.name), Sheet(file) as sheet:
                self.assertTrue(sheet.list())
