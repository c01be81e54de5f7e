"""Commands are paired with their replies, whatever stands in a script."""
from __future__ import annotations

import random
import unittest
from pathlib import Path
from typing import Callable, Iterator, List

from gridlet import CellError, ProgramFailed, Sheet, SheetValue, literal
from gridlet.replies import Item, Pairing, items, payload_due
from gridlet.values import content, read_value

from .support import EXAMPLES, TESTS, answered

ROWS = TESTS / "rows"


def paired(script: bytes, replies: bytes) -> List[Item]:
    """The items that have a reply, once the replies are used up to the last line."""
    lines = iter(replies.split(b"\n")[:-1])
    pairing = Pairing(lambda: next(lines, None))
    told = [it for it in items(script) if not it.is_silent]
    for item in told:
        pairing.reply_to(item)
    assert next(lines, None) is None, "a line is left over"
    return told


class Framing(unittest.TestCase):
    """Scripts are cut into items as the program cuts them."""

    def test_lines_and_their_numbers(self) -> None:
        script = b"; first\r\n\nset A1 2\r\nimport B1 4\n1\n2\nshow B1"
        found = list(items(script, "s"))
        self.assertEqual([it.line for it in found], [1, 2, 3, 4, 7])
        self.assertEqual([it.text for it in found][2:], [b"set A1 2", b"import B1 4", b"show B1"])
        self.assertEqual([it.is_silent for it in found], [True, True, False, False, False])
        self.assertEqual(found[3].payload, b"1\n2\n")
        self.assertEqual(found[4].place, "s:7: ")

    def test_a_payload_without_a_line_end(self) -> None:
        found = list(items(b"import A1 3\n1,2show A1\n"))
        self.assertEqual([(it.text, it.line) for it in found],
                         [(b"import A1 3", 1), (b"show A1", 2)])

    def test_what_is_no_header_takes_no_payload(self) -> None:
        for text in (b"import A1 03", b"import  A1 3", b"import A1 3 ", b"import A1 1048577",
                     b"import \xff 3", b"import A1 0", b"import 3", b"import A1 " + b"9" * 5000,
                     b"import " + b"A" * 32_768 + b" 3"):
            self.assertEqual(payload_due(text), 0, text[:40])
        self.assertEqual(payload_due(b"import ZZZ1 1048576"), 1_048_576)

    def test_nothing_is_read_behind_quit(self) -> None:
        self.assertEqual([it.text for it in items(b"quit\r\nset A1 1\n")], [b"quit"])
        self.assertEqual(len(list(items(b"quit \nset A1 1\n"))), 2)

    def test_a_cut_payload_says_what_is_missing(self) -> None:
        self.assertEqual([it.missing for it in items(b"import A1 9\n1\n")], [7])

    def test_a_long_comment_has_a_reply(self) -> None:
        found = list(items(b";" * 32_768 + b"\n" + b";" * 32_769 + b"\n"))
        self.assertEqual([it.is_silent for it in found], [True, False])


class Values(unittest.TestCase):
    """What is shown becomes values of Python, and values become contents."""

    def test_shown(self) -> None:
        for shown, value in ((".", None), ("-12", -12), ("TRUE", True), ("FALSE", False),
                             ('"a\\\\x41\\x41\\n\\"é"', 'a\\x41A\n"é'),
                             ("#REF!", CellError("#REF!")),
                             ("sheet(A1:B3)", SheetValue("A1:B3")), ('"error x"', "error x")):
            self.assertEqual(read_value(shown), value)
            self.assertIs(type(read_value(shown)), type(value))

    def test_texts_come_back(self) -> None:
        chance = random.Random(7)
        texts = ["".join(map(chr, range(128))), "", '"', "\\", "\\n", "é日\U0001f600\x7f\x85"]
        for _ in range(60):
            texts.append("".join(chr(chance.choice((chance.randrange(160), chance.randrange(
                0x4000, 0x4100)))) for _ in range(chance.randrange(30))))
        with Sheet() as sheet:
            for text in texts:
                self.assertEqual(read_value(literal(text)), text)
                sheet.enter("A1", literal(text))
                self.assertEqual(sheet.show("A1"), text)

    def test_contents(self) -> None:
        for value, text in ((3, "3"), (True, "TRUE"), ("007", '"007"'), ("=A1", "=A1"),
                            ("TRUE", '"TRUE"')):
            self.assertEqual(content(value), text)
        with self.assertRaises(TypeError):
            content(1.5)


class Rows(unittest.TestCase):
    """Each script of the rows and of the examples, by itself and through the client."""

    def live(self, script: bytes, replies: bytes) -> None:
        """A process that is asked for the same says the same."""
        if any(it.missing for it in items(script)):
            return
        with Sheet() as sheet:
            lines = [line for item, reply in sheet.run(items(script)) for line in reply.lines]
        self.assertEqual("\n".join(lines), replies.decode().rstrip("\n"))


def of_row(folder: Path) -> Callable[[Rows], None]:
    """The test of one row."""
    def test(self: Rows) -> None:
        script, replies = (folder / "stdin").read_bytes(), (folder / "stdout").read_bytes()
        words = (folder / "args").read_text().split("\n")[:-1] if (folder / "args").exists() else []
        status = int((folder / "status").read_text()) if (folder / "status").exists() else 0
        ran = answered(script, words)
        self.assertEqual((ran.returncode, ran.stdout), (status, replies))
        if "--gen" not in words and status in (0, 1):
            paired(script, replies)
            self.live(script, replies)
    return test


def of_example(file: Path) -> Callable[[Rows], None]:
    """The test of one example."""
    def test(self: Rows) -> None:
        script, replies = file.read_bytes(), file.with_suffix(".replies").read_bytes()
        paired(script, replies)
        self.live(script, replies)
    return test


def named(folder: Path) -> str:
    """The name of a test."""
    return "test_" + folder.stem.replace("-", "_")


for _folder in sorted(ROWS.iterdir()):
    setattr(Rows, named(_folder), of_row(_folder))
for _file in sorted(EXAMPLES.glob("*.gridlet")):
    setattr(Rows, named(_file) + "_example", of_example(_file))


class Chance(unittest.TestCase):
    """Scripts that chance makes, from right and wrong pieces."""

    WORDS = ("set", "clear", "show", "view", "get", "list", "calc", "oracle", "why", "explain",
             "flow", "import", "undo", "redo", "site", "edit", "export", "gridlet", "foo", ";", "")
    PIECES = ("A1", "B2", "A1:B3", "C3:A1", "ZZ9999", "AAA1", "2", "0", "5", "=A1#",
              "=SEQUENCE(2,2)", "=B2+1", "=SHEET(A1:B2)", "=1/0", "=IF(C1=0,SEQUENCE(1,3),5)",
              "text", '"a b"', "\x85", "", "=SUM(", "TRUE", "3 1 A1 7")

    def script(self, seed: int) -> bytes:
        """A script of its own for each seed."""
        chance = random.Random(seed)
        lines = [b"gridlet 2"] if seed % 3 == 0 else [b"site 4"] if seed % 3 == 1 else []
        for _ in range(60):
            pieces = [chance.choice(self.WORDS), *(
                chance.choice(self.PIECES) for _ in range(chance.randrange(4)))]
            line = " ".join(pieces).encode()
            if chance.random() < 0.05:
                line = line.replace(b"A", b"\xff")
            lines.append(line + (b"\r" if chance.random() < 0.1 else b""))
        return b"\n".join(lines) + (b"\n" if seed % 2 else b"")

    def test_every_line_has_its_reply(self) -> None:
        for seed in range(60):
            script = self.script(seed)
            with self.subTest(seed=seed):
                paired(script, answered(script).stdout)

    def test_one_by_one_and_all_at_once_are_the_same(self) -> None:
        for seed in range(12):
            told = [it for it in items(self.script(seed)) if not it.missing]
            with self.subTest(seed=seed), Sheet() as one, Sheet() as other:
                singly = [one.ask(it) for it in told if not it.is_silent]
                self.assertEqual(singly, [reply for _, reply in other.run(told)])


class Strange(unittest.TestCase):
    """Replies of no known form."""

    def replies(self, *lines: bytes) -> Pairing:
        """A pairing over these lines."""
        left: Iterator[bytes] = iter(lines)
        return Pairing(lambda: next(left, None))

    def test_a_line_that_is_no_reply(self) -> None:
        for command, line in ((b"set A1 2", b"set A1 2"), (b"list", b"list x"), (b"list", b"ok"),
                              (b"oracle", b"oracle"), (b"explain A1", b"explain 1")):
            with self.assertRaises(ProgramFailed):
                self.replies(line).reply_to(Item(command))

    def test_an_end_in_mid_reply(self) -> None:
        with self.assertRaisesRegex(ProgramFailed, "whole reply to: list"):
            self.replies(b"list 2", b"set A1 1").reply_to(Item(b"list"))

    def test_a_refused_query_is_one_line(self) -> None:
        for line in (b"error address", b"spent rounds A1", b"spent work"):
            reply = self.replies(line).reply_to(Item(b"explain A1"))
            self.assertEqual(reply.lines, (line.decode(),))


if __name__ == "__main__":
    unittest.main()
