"""`gridlet-sheet show`: tables, CSV, JSON and the page."""
from __future__ import annotations

import csv
import io
import json
import re
from html.parser import HTMLParser
from typing import Any, Dict, List, Optional, Tuple

from .support import EXAMPLES, Folder, front

BUDGET = ("set A1 rent", "set B1 900", "set A2 food", "set B2 450", "set C1 =B1:B2*12",
          "set B3 =SUM(B1:B2)")
ERRORS = ("set A1 =INDEX(SEQUENCE(2,2),3,1)", 'set A2 ="x"+1', "set A3 =1/0",
          "set A4 =9223372036854775807+1", "set A5 =NA()", "set A6 =SEQUENCE(1,3)", "set B6 5",
          "set A7 =SEQUENCE(101,100)", "set A8 =A8")
NAMES = ["#REF!", "#VALUE!", "#DIV/0!", "#NUM!", "#N/A", "#SPILL!", "#SIZE!", "#CYCLE!"]


class Forms(Folder):
    """A range in each form."""

    def test_the_box_of_all(self) -> None:
        ran = front("show", self.file("s", *BUDGET))
        self.assertEqual((ran.status, ran.lines), (0, [
            '"rent"  900 10800', '"food"  450  5400', "     . 1350     ."]))

    def test_a_range_and_a_cell(self) -> None:
        file = self.file("s", *BUDGET)
        self.assertEqual(front("show", file, "B1:C1").lines, ["900 10800"])
        self.assertEqual(front("show", file, "C2").lines, ["5400"])
        self.assertEqual(front("show", file, "ZZ9999").lines, ["."])

    def test_an_empty_sheet(self) -> None:
        file = self.file("s")
        for words, text in (((), ""), (("--csv",), ""), (("--json",), "[]\n")):
            self.assertEqual(front("show", file, *words), (0, text, ""))

    def test_csv_comes_back(self) -> None:
        file = self.file("s", 'set A1 "a,b \\"c\\"\\nd"', "set B1 007", 'set C1 "007"',
                         "set D1 TRUE", "set B2 =1/0", "set C2 =SHEET(A1:B1)", "set D2 é")
        ran = front("show", file, "--csv")
        self.assertEqual(list(csv.reader(io.StringIO(ran.out))), [
            ['a,b "c"\nd', "7", "007", "TRUE"], ["", "#DIV/0!", "sheet(A1:B1)", "é"]])

    def test_json(self) -> None:
        file = self.file("s", "set A1 9223372036854775807", 'set B1 "#REF!"', "set C1 FALSE",
                         "set A2 =1/0", "set B2 =SHEET(A1:B1)")
        self.assertEqual(json.loads(front("show", file, "--json").out), [
            [2 ** 63 - 1, "#REF!", False],
            [{"error": "#DIV/0!"}, {"sheet": "A1:B1"}, None]])

    def test_what_was_refused(self) -> None:
        file = self.file("s", "set A1 1", "set A2 =1+", "quit", "set A1 2")
        ran = front("show", file)
        self.complains(ran, 1, f"{file}:2: error syntax: set A2 =1+")
        self.assertEqual(ran.out, "1\n")

    def test_a_sheet_that_does_not_settle(self) -> None:
        file = self.file("s", "set A1 =IF(C1=0,SEQUENCE(1,3),5)")
        for words in ((), ("--csv",), ("--json",), ("--html",), ("A1",)):
            self.complains(front("show", file, *words), 1, f"{file}: spent rounds A1")

    def test_a_last_line_without_an_end(self) -> None:
        self.assertEqual(front("show", self.file("s", b"set A1 1\nset A2 2")).lines, ["1", "2"])


class Cells(HTMLParser):
    """The cells of a page by their identifiers, and its tags."""

    def __init__(self, text: str) -> None:
        super().__init__()
        self.cells: Dict[str, Tuple[Dict[str, Optional[str]], str]] = {}
        self.tags: List[Tuple[str, Dict[str, Optional[str]]]] = []
        self._at: Optional[str] = None
        self.feed(text)
        self.close()

    def handle_starttag(self, tag: str, attrs: Any) -> None:
        """Notes a tag, and a cell that has a name."""
        known = dict(attrs)
        self.tags.append((tag, known))
        self._at = known.get("id") if tag == "td" else None
        if self._at:
            self.cells[self._at] = (known, "")

    def handle_data(self, data: str) -> None:
        """The text of a cell."""
        if self._at:
            known, text = self.cells[self._at]
            self.cells[self._at] = (known, text + data)

    def handle_endtag(self, tag: str) -> None:
        """No cell goes on behind a tag's end."""
        self._at = None


class Page(Folder):
    """The page stands by itself and escapes what a sheet says."""

    def page(self, *lines: str) -> Tuple[str, Cells]:
        """The page of a sheet, and its cells."""
        ran = front("show", self.file("s", *lines), "--html")
        return ran.out, Cells(ran.out)

    def classes(self, page: Cells, at: str) -> List[str]:
        """The classes of a cell."""
        return (page.cells[at][0]["class"] or "").split(" ")

    def test_values_and_titles(self) -> None:
        _, page = self.page(*BUDGET, "set D1 TRUE", "set D2 =SHEET(A1:B1)")
        self.assertEqual(page.cells["A1"][1], "rent")
        self.assertEqual([self.classes(page, it)[0] for it in ("A1", "B1", "D1", "D2")],
                         ["t", "i", "b", "s"])
        self.assertEqual(page.cells["B3"][0]["title"], "B3: =SUM(B1:B2)\nshows 1350")
        self.assertEqual(page.cells["C2"][0]["title"],
                         "C2\nshows 5400\narray 2x1 of C1 =B1:B2*12: permitted")

    def test_spills_have_edges_and_colours(self) -> None:
        _, page = self.page("set A1 =SEQUENCE(2,2)", "set D1 =SEQUENCE(2,1)",
                            "set F1 =SEQUENCE(2,1)", "set F2 x")
        self.assertEqual(self.classes(page, "A1"), ["i", "a", "c0", "u", "l"])
        self.assertEqual(self.classes(page, "B2"), ["i", "a", "c0", "d", "r"])
        self.assertEqual(self.classes(page, "D2"), ["i", "a", "c1", "d", "l", "r"])
        self.assertEqual(self.classes(page, "F1"), ["e", "w"])
        self.assertIn("array 2x1: refused, content F2", page.cells["F1"][0]["title"] or "")

    def test_every_error_is_one(self) -> None:
        text, page = self.page(*ERRORS)
        self.assertEqual([page.cells[f"A{it}"][1] for it in range(1, 9)], NAMES)
        for it in range(1, 9):
            self.assertEqual(self.classes(page, f"A{it}")[0], "e")
        self.assertIn("errors: 8", text)

    def test_nothing_of_a_sheet_is_a_tag(self) -> None:
        bad = '<script>alert(1)</script>"\'><img src=x onerror=alert(1)>&amp;</td></table>'
        quoted = '"' + bad.replace('"', '\\"') + '"'
        file = self.file("<b>&.gridlet", f"; {bad}", f"set A1 {quoted}", f'set A2 ="{bad[:25]}"&A1',
                         f"foo {bad}", "set A3 =SEQUENCE(1,2)", f"set B3 {quoted}")
        ran = front("show", file, "--html")
        page = Cells(ran.out)
        self.assertEqual(page.cells["A1"][1], bad)
        self.assertEqual([tag for tag, _ in page.tags if tag in ("img", "b")], [])
        self.assertEqual(sum(tag == "script" for tag, _ in page.tags), 1)

    def test_nothing_comes_from_elsewhere(self) -> None:
        text, page = self.page(*BUDGET)
        for tag, known in page.tags:
            self.assertNotIn(tag, ("link", "iframe", "object", "img", "base"))
            self.assertNotIn("src", known)
            self.assertNotIn("style", known)
            self.assertTrue((known.get("href") or "#").startswith("#"))
        self.assertNotRegex(text, r"https?://|url\(|@import")
        self.assertRegex(text, r"default-src 'none'.*script-src 'sha256-")

    def test_control_characters_are_pictures(self) -> None:
        text, _ = self.page('set A1 "\\x01\\r\\x7f\\x00"')
        self.assertIn("␁␍␡␀", text)
        self.assertIsNone(re.search(r"[\x00-\x08\x0b-\x1f\x7f]", text))

    def test_commands_with_what_was_refused(self) -> None:
        text, _ = self.page("set A1 1", "; a comment", "set A2 =1+")
        self.assertIn('<span class="n">2</span>; a comment', text)
        self.assertIn('<span class="bad">set A2 =1+  error syntax</span>', text)

    def test_a_thousand_rows(self) -> None:
        lines = [f"set A{it} {it}" for it in range(1, 1001)]
        _, page = self.page(*lines, "set B1 =A1:A1000*2")
        self.assertEqual(page.cells["B1000"][1], "2000")

    def test_every_example(self) -> None:
        for file in sorted(EXAMPLES.glob("*.gridlet")):
            with self.subTest(file=file.name):
                self.assertIn("</html>", front("show", file, "--html").out + "</html>")
                self.assertEqual(front("show", file, "--html").status, 0)
