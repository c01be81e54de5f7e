#!/usr/bin/env python3
"""A line for each crate, in the groups and the order of crates.txt.

    crates.py               prints the lines
    crates.py --check FILE  fails where FILE doesn't hold them word for word, and names the crate

A line has the first sentence of the comment at the head of the crate's root file, src/lib.rt or
src/main.rt. A sentence of more than 40 words ends before its first colon.
"""
import re
import sys
from pathlib import Path

ROOT = Path(__file__).resolve().parent.parent
WORDS = 40
LINE = re.compile(r"^- `(\w+)`: .*", re.MULTILINE)


def sentence_of(crate):
    """The first sentence of the root file's comment."""
    source = ROOT / "crates" / crate / "src"
    root = source / "lib.rt" if (source / "lib.rt").exists() else source / "main.rt"
    head = re.match(r"(//!.*\n)+", root.read_text("utf-8"))[0]
    text = " ".join(line[3:].strip() for line in head.split("\n"))
    first = re.split(r"(?<=\.) ", text)[0]
    return first if len(first.split()) <= WORDS else first.split(":")[0] + "."


def listing():
    """The headings of the groups, and under each the lines of its crates."""
    out = []
    for block in (ROOT / "crates.txt").read_text("utf-8").strip().split("\n\n"):
        heading, *crates = block.split("\n")
        names = [re.match(r"\w+", line)[0] for line in crates]
        lines = [f"- `{name}`: {sentence_of(name)}" for name in names]
        # the first block says what the file is, and has no crates
        if lines:
            out.append("\n".join([f"**{heading[1:].strip()}**", "", *lines]))
    return "\n\n".join(out) + "\n"


def wrong_in(page, text):
    """The crates whose lines differ; where none does, that the groups or the order differ."""
    wanted, there = ({it[1]: it[0] for it in LINE.finditer(some)} for some in (text, page))
    names = [name for name in {**wanted, **there} if wanted.get(name) != there.get(name)]
    return names or ([] if text in page else ["the groups or their order"])


if __name__ == "__main__":
    words = sys.argv[1:]
    if len(words) == 2 and words[0] == "--check":
        wrong = wrong_in(Path(words[1]).read_text("utf-8"), listing())
        sys.exit("\n".join(f"{words[1]}: not as in crates.py: {it}" for it in wrong) or None)
    if words:
        sys.exit(__doc__)
    print(listing(), end="")
