"""The examples of the documents: a script and its replies, or shell commands and what they print.

A block of code, then a paragraph that begins with `answers` or `prints`,
then a block of code: the first block is run, and the second is what comes out. `answers, behind
the two `ok`,` leaves out as many of these, `answers, behind its `ok` lines,` all before the first
other line; `The last line answers` is about the last command.
"""
from __future__ import annotations

import os
import re
import subprocess
import sys
import unittest
from pathlib import Path
from typing import Callable, List, NamedTuple

from gridlet.manual import manual
from gridlet.replies import items

from .support import FRONT, PROGRAM, ROOT, Folder, answered, environment

DOCUMENTS = ("README.md", "docs/LANGUAGE.md", "docs/COOKBOOK.md")
NUMBERS = dict(zip("two three four five six seven eight nine ten eleven twelve".split(),
                   range(2, 13)))
BEHIND = re.compile(r"behind the (?:first )?(\w+) `ok`")


class Block(NamedTuple):
    """A run of lines: whether it is code, the line on which it begins, and its text."""

    is_code: bool
    line: int
    text: str


class Example(NamedTuple):
    """What is run, what is said of it, and what comes out."""

    line: int
    given: str
    said: str
    wanted: str


def blocks(text: str) -> List[Block]:
    """The paragraphs and the blocks of code."""
    made: List[Block] = []
    for number, line in enumerate(text.split("\n"), 1):
        is_code = line.startswith("    ")
        if not line.strip():
            made.append(Block(False, number, ""))
        elif made and made[-1].text and made[-1].is_code == is_code:
            made[-1] = made[-1]._replace(text=made[-1].text + line[4 * is_code:] + "\n")
        else:
            made.append(Block(is_code, number, line[4 * is_code:] + "\n"))
    return [it for it in made if it.text]


def examples(text: str) -> List[Example]:
    """The examples of a document."""
    found = blocks(text)
    made = []
    for one, said, other in zip(found, found[1:], found[2:]):
        words = said.text.strip()
        is_example = re.match(r"(answers|prints)\b", words) or words == "The last line answers"
        if one.is_code and other.is_code and not said.is_code and is_example:
            made.append(Example(one.line, one.text, words, other.text))
    return made


class Documents(Folder):
    """Each example of each document."""

    def run_script(self, example: Example) -> str:
        """The replies that the example speaks of."""
        script = example.given.encode()
        told = [it for it in items(script) if not it.is_silent]
        replies = answered(script).stdout.decode()
        if example.said.startswith("The last line"):
            head = script[:script.rindex(told[-1].text)]
            return replies[len(answered(head).stdout.decode()):]
        lines = replies.split("\n")
        found = BEHIND.search(example.said)
        left_out = NUMBERS[found[1]] if found else 0
        if "behind its `ok` lines" in example.said:
            left_out = next(at for at, line in enumerate(lines) if line != "ok")
        self.assertEqual(lines[:left_out], ["ok"] * left_out)
        return "\n".join(lines[left_out:])

    def run_shell(self, example: Example) -> str:
        """What shell commands print, in a folder of their own."""
        (self.folder / "gridlet").symlink_to(PROGRAM)
        python = sys.executable
        for name, words in (("python3", python), ("gridlet-sheet", f"{python} {FRONT}")):
            (self.folder / name).write_text(f'#!/bin/sh\nexec {words} "$@"\n')
            (self.folder / name).chmod(0o755)
        work = self.folder / "work"
        work.mkdir()
        path = f"{self.folder}{os.pathsep}{os.environ['PATH']}"
        ran = subprocess.run(["sh", "-c", example.given], cwd=work, capture_output=True,
                             timeout=50, env=environment(
                                 PATH=path, HOME=str(self.folder), PYTHONPATH=str(FRONT.parent)))
        self.assertEqual(ran.stderr.decode(), "")
        return ran.stdout.decode()

    def check(self, example: Example) -> None:
        """One example."""
        is_shell = example.said.startswith("prints")
        self.assertEqual(self.run_shell(example) if is_shell else self.run_script(example),
                         example.wanted)


def of_example(example: Example) -> Callable[[Documents], None]:
    """The test of one example."""
    def test(self: Documents) -> None:
        self.check(example)
    return test


for _name in DOCUMENTS:
    for _example in examples((ROOT / _name).read_text("utf-8")):
        _stem = Path(_name).stem.lower()
        setattr(Documents, f"test_{_stem}_line_{_example.line}", of_example(_example))


LINK = re.compile(r"\[[^\]]*\]\(([^()\s]+)\)")
# a file of a crate, or a module as `gl_run/edits`
NAMED = re.compile(r"`((?:gl_|laws_|tests_|gridlet)\w*/[\w/.+-]*)`")


def linked_pages() -> List[Path]:
    """The pages whose links are followed."""
    names = ("README.md", "CONTRIBUTING.md", "examples/README.md", "editors/README.md")
    return [*(ROOT / name for name in names), *sorted((ROOT / "docs").glob("*.md"))]


def prose(text: str) -> str:
    """A page without its blocks of code."""
    fenced = re.sub(r"^```.*?^```$", "", text, flags=re.MULTILINE | re.DOTALL)
    return re.sub(r"^    .*$", "", fenced, flags=re.MULTILINE)


def links(text: str) -> List[str]:
    """The links of a page within the repository, without what stands in code."""
    found = LINK.findall(re.sub(r"`[^`\n]*`", "", prose(text)))
    return [it for it in found if not re.match(r"[a-z]+:", it)]


def anchors(page: Path) -> List[str]:
    """What the headings of a page are called in links: lower case, a dash for each space."""
    headings = re.findall(r"^#+ (.*)$", prose(page.read_text("utf-8")), re.MULTILINE)
    return [re.sub(r"[^\w\- ]", "", it.lower()).replace(" ", "-") for it in headings]


class Whole(unittest.TestCase):
    """The documents have what they should."""

    def test_there_are_examples(self) -> None:
        for name, count in zip(DOCUMENTS, (1, 25, 10)):
            self.assertGreaterEqual(len(examples((ROOT / name).read_text("utf-8"))), count, name)

    def test_each_function_and_command_has_an_example(self) -> None:
        texts = "".join(it.given for it in examples((ROOT / "docs/LANGUAGE.md").read_text("utf-8")))
        page = manual()
        self.assertEqual([it for it in page.functions() if f"{it}(" not in texts], [])
        words = {line.split(" ")[0] for line in texts.split("\n")}
        shown_otherwise = {"site", "edit", "export"}
        self.assertEqual(set(page.commands()) - words - shown_otherwise, set())

    def test_editors_know_the_functions_and_commands(self) -> None:
        for name in ("vim/syntax/gridlet.vim", "vscode/syntaxes/gridlet.tmLanguage.json"):
            words = set(re.findall(r"[A-Za-z]+", (ROOT / "editors" / name).read_text("utf-8")))
            self.assertEqual({*manual().functions(), *manual().commands()} - words, set(), name)

    def test_the_manual_page_of_the_language(self) -> None:
        made = subprocess.run([sys.executable, str(ROOT / "man" / "language_page.py"),
                               str(ROOT / "docs" / "LANGUAGE.md")], capture_output=True)
        text = made.stdout.decode()
        self.assertEqual(made.returncode, 0)
        self.assertEqual(text.count("\n.TS\n"), text.count("\n.TE\n"))
        for section in ("COMMANDS", "FUNCTIONS", "REFUSALS", "LIMITS"):
            self.assertIn(f".SH {section}\n", text)

    def test_the_order_of_reading(self) -> None:
        """docs/CALCULUS.md lists what must be believed as bench/belief.py does, in the volumes."""
        words = [sys.executable, str(ROOT / "bench/belief.py"), "--page", str(ROOT / "docs/CALCULUS.md")]
        done = subprocess.run(words, stderr=subprocess.PIPE, universal_newlines=True)
        self.assertEqual((done.returncode, done.stderr), (0, ""))

    def test_the_lines_of_crates(self) -> None:
        """docs/ARCHITECTURE.md has a line for each crate, as bench/crates.py makes it."""
        words = [sys.executable, str(ROOT / "bench/crates.py"), "--check",
                 str(ROOT / "docs/ARCHITECTURE.md")]
        done = subprocess.run(words, stderr=subprocess.PIPE, universal_newlines=True)
        self.assertEqual((done.returncode, done.stderr), (0, ""))

    def test_links_lead_somewhere(self) -> None:
        """Each link leads to a file or a folder, and to a heading where it has an anchor."""
        wrong, count = [], 0
        for page in linked_pages():
            for link in links(page.read_text("utf-8")):
                name, _, anchor = link.partition("#")
                target = (page.parent / name).resolve() if name else page
                count += 1
                if not target.exists() or anchor and anchor not in anchors(target):
                    wrong.append(f"{page.relative_to(ROOT)}: {link}")
        self.assertEqual(wrong, [])
        self.assertGreaterEqual(count, 20)

    def test_files_that_are_named(self) -> None:
        """CONTRIBUTING and ARCHITECTURE name files of crates that exist."""
        wrong = []
        for name in ("CONTRIBUTING.md", "docs/ARCHITECTURE.md"):
            for path in set(NAMED.findall((ROOT / name).read_text("utf-8"))):
                crate, _, inside = path.partition("/")
                places = (path, f"{crate}/src/{inside}.rt")
                if not any((ROOT / "crates" / place).exists() for place in places):
                    wrong.append(f"{name}: {path}")
        self.assertEqual(wrong, [])
