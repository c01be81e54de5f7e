"""`gridlet-sheet import`: CSV becomes a script, and what does not fit is named."""
from __future__ import annotations

from typing import List

from gridlet import Sheet

from .support import Folder, Ran, front


class Import(Folder):
    """Fields, columns and delimiters."""

    def script(self, data: bytes, *words: str) -> Ran:
        """What the import of a file of these bytes prints."""
        return front("import", self.file("f.csv", data), *words)

    def contents(self, ran: Ran) -> List[str]:
        """Its set lines, less the word, once a sheet has taken them."""
        with Sheet() as sheet:
            for item, reply in sheet.run(ran.lines):
                reply.accepted(item)
        return [it[4:] for it in ran.lines]

    def test_fields(self) -> None:
        ran = self.script(b'part,"count"\r\nnut,3\r\n"a ""b""\n",-5\r\n=x,TRUE\r\n')
        self.assertEqual((ran.status, ran.complaints), (0, ""))
        self.assertEqual(self.contents(ran), [
            'A1 "part"', 'B1 "count"', 'A2 "nut"', "B2 3", 'A3 "a \\"b\\"\\n"', "B3 -5",
            'A4 "=x"', "B4 TRUE"])

    def test_leading_zeros_stay(self) -> None:
        self.assertEqual(self.contents(self.script(b"007,0,-0,00\n")),
                         ['A1 "007"', "B1 0", "C1 -0", 'D1 "00"'])

    def test_texts_that_look_like_numbers(self) -> None:
        for field in ('"1,200"', "+5", " 12", "12 ", "5%", ".5", "5.", '"12,50"', "-007"):
            ran = self.script(field.encode() + b"\n")
            self.complains(ran, 1, "f.csv:1: column 1", "stays a text, which sums pass over")
        ran = self.script(b"2024-01-31,1.2.3,12:30,A-7,5 kg,,-\n")
        self.assertEqual((ran.status, ran.complaints), (0, ""))

    def test_decimals_are_named(self) -> None:
        ran = self.script(b"amount\n12.50\n3\n4.25\n7\n")
        self.assertEqual(ran.status, 1)
        self.assertEqual([it.split(":")[1] for it in ran.complaints.split("\n")[:-1]], ["2", "4"])
        self.assertIn("column 1 (amount): 12.50 stays a text, which sums pass over", ran.complaints)
        self.assertEqual(len(ran.lines), 5)

    def test_cents(self) -> None:
        data = b'id,amount\n1,12.50\n2,3\n3,-4.2\n4,"1,204.05"\n5,.5\n6,-0.05\n7,+1.00\n8,5.\n'
        ran = self.script(data, "--cents", "amount")
        self.assertEqual((ran.status, ran.complaints), (0, ""))
        self.assertEqual([it.split(" ")[1] for it in self.contents(ran) if it[0] == "B"],
                         ['"amount"', "1250", "300", "-420", "120405", "50", "-5", "100", "500"])

    def test_a_decimal_comma(self) -> None:
        ran = self.script(b"amount\n12,50\n1.204,05\n3\n", "--cents", "amount",
                          "--decimal-comma", "--delimiter", ";")
        self.assertEqual((ran.status, [it.split(" ")[2] for it in ran.lines[1:]]),
                         (0, ["1250", "120405", "300"]))

    def test_amounts_that_do_not_fit(self) -> None:
        ran = self.script(b'amount\n1.234\nn/a\n1,5\n".","-"\n92233720368547758.08\n1.2.3\n',
                          "--cents", "1")
        self.assertEqual(ran.status, 1)
        lines = [it.split(":")[1] for it in ran.complaints.split("\n")[:-1]]
        self.assertEqual(lines, ["2", "3", "5", "6", "7"])
        self.assertIn('set A3 "n/a"', ran.lines)

    def test_text_columns(self) -> None:
        for column in ("price", "2", "B"):
            ran = self.script(b"id,price\n5,1.50\n", "--text", column)
            self.assertEqual((ran.status, ran.lines[-2:]), (0, ["set A2 5", 'set B2 "1.50"']))
        self.assertEqual(self.script(b"5,TRUE\n", "--text", "1", "--text", "2").lines,
                         ['set A1 "5"', 'set B1 "TRUE"'])
        self.complains(self.script(b"id\n", "--text", "prices"), 2, "prices: no column")

    def test_where_it_goes(self) -> None:
        self.assertEqual(self.script(b"1,2\n\n3\n", "--at", "Y9").lines,
                         ["set Y9 1", "set Z9 2", "set Y11 3"])
        ran = self.script(b"1,2\n3\n", "--at", "ZZ9999")
        self.assertEqual((ran.status, ran.lines), (1, ["set ZZ9999 1"]))
        self.assertIn("f.csv:1: column 2 lies off the grid", ran.complaints)
        self.assertIn("f.csv:2: column 1 lies off the grid", ran.complaints)
        self.complains(self.script(b"1\n", "--at", "A0"), 2, "A0: no address")

    def test_delimiters(self) -> None:
        for data, name in ((b"a;b\n1;2\n", ";"), (b"a\tb\n1\t2\n", "tab"), (b"a|b\n1|2\n", "|")):
            ran = self.script(data)
            self.complains(ran, 1, f"is --delimiter '{name}' meant?")
            ran = self.script(data, "--delimiter", name)
            self.assertEqual((ran.status, ran.lines[-1]), (0, "set B2 2"))
        self.complains(self.script(b"a\n", "--delimiter", ";;"), 2, ";;: a delimiter is")

    def test_clear_first(self) -> None:
        ran = self.script(b"1,2\n3,4,5\n", "--clear", "--at", "B2")
        self.assertEqual(ran.lines[0], "clear B2:D9999")

    def test_a_byte_order_mark_and_no_line_end(self) -> None:
        self.assertEqual(self.script(b"\xef\xbb\xbf1,x").lines, ["set A1 1", 'set B1 "x"'])

    def test_numbers_outside_64_bits(self) -> None:
        ran = self.script(b"9223372036854775807,9223372036854775808\n")
        self.assertEqual(self.contents(ran), ["A1 9223372036854775807", 'B1 "9223372036854775808"'])
        self.complains(ran, 1, "f.csv:1: column 2", "9223372036854775808 is outside 64 bits")

    def test_texts_too_long(self) -> None:
        ran = self.script(b"x,y\n2," + b"a" * 4097 + b"\n")
        self.complains(ran, 1, "f.csv:2: column 2 (y): a text of more than 4096 bytes is left out")

    def test_what_is_said_is_one_line(self) -> None:
        ran = self.script(b'"a\nb' + b"c" * 99 + b'"\n1.5\n')
        self.complains(ran, 1, "f.csv:3: column 1 (a\\nb", "cc~): 1.5 stays")

    def test_an_open_quote(self) -> None:
        self.complains(self.script(b'1,2\n3,"4\n5,6\n'), 2, "f.csv:2: unexpected end")

    def test_not_utf8(self) -> None:
        self.complains(self.script(b"1\n\n\xe9\n"), 2, "f.csv:3: not UTF-8")

    def test_as_many_contents_as_a_sheet_holds(self) -> None:
        line = b",".join([b"7"] * 8) + b"\n"
        ran = self.script(line * 8192)
        self.assertEqual((ran.status, len(ran.lines)), (0, 65_536))
        with Sheet() as sheet:
            sheet.run(ran.lines)
            self.assertEqual(len(sheet.list()), 65_536)
        self.complains(self.script(line * 8193), 1, "65,544 contents are more than the 65,536")


class Fill(Folder):
    """`gridlet-sheet fill`: references move as spreadsheets move them."""

    def test_references(self) -> None:
        ran = front("fill", "E2:E3 =(G1*$B$2)/12+C$4+$D5")
        self.assertEqual((ran.status, ran.lines), (0, [
            "set E2 =(G1*B2)/12+C4+D5", "set E3 =(G2*B2)/12+C4+D6"]))

    def test_rows_and_columns(self) -> None:
        self.assertEqual(front("fill", "B2:C3 =A1+$A2+B$1").lines, [
            "set B2 =A1+A2+B1", "set C2 =B1+A2+C1", "set B3 =A2+A3+B1", "set C3 =B2+A3+C1"])

    def test_ranges_spills_and_functions(self) -> None:
        self.assertEqual(front("fill", "D1:D2 =SUM(A1:B$9)+C1#+G(A1:B2,A1,3)").lines, [
            "set D1 =SUM(A1:B9)+C1#+G(A1:B2,A1,3)", "set D2 =SUM(A2:B9)+C2#+G(A2:B3,A2,3)"])

    def test_texts_and_words_stay(self) -> None:
        self.assertEqual(front("fill", r'A1:A2 ="A1 \" B2"&LET(a,B1,a)&"$C$3"').lines[1],
                         r'set A2 ="A1 \" B2"&LET(a,B2,a)&"$C$3"')

    def test_constants(self) -> None:
        self.assertEqual(front("fill", "A1:A2 A1 stays", "B1 =A1").lines,
                         ["set A1 A1 stays", "set A2 A1 stays", "set B1 =A1"])

    def test_what_leaves_the_grid(self) -> None:
        self.complains(front("fill", "A9998:A9999 =B9999"), 2, "A9999: the reference B9999")
        self.assertEqual(front("fill", "A1:B1 =ZZ1").out, "")

    def test_no_range(self) -> None:
        for words in ("A1", "A2:A1 =1", "foo =1", "A1:A2 "):
            self.complains(front("fill", words), 2, "no range with a formula behind it")

    def test_a_sheet_takes_it(self) -> None:
        with Sheet() as sheet:
            sheet.set_all({"A1": 1, "B1": 10})
            sheet.run(front("fill", "A2:A100 =A1+$B$1").lines)
            self.assertEqual(sheet.show("A100"), 991)
