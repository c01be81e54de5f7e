"""An explanation as a tree: which cell rests on which, by the program's own explanations.

An explanation lists what is needed, each note behind those that it follows from, and does not say
which rests on which. But what a cell needs is the explanation of that cell. So a cell rests
directly on those that it needs and that no other one of them needs.
"""
from __future__ import annotations

from collections import Counter
from dataclasses import dataclass
from typing import TYPE_CHECKING, Dict, Iterator, List, Optional, Set, Tuple

from .errors import BadInput
from .values import Note

if TYPE_CHECKING:
    from .sheet import Sheet

MOST = 300


@dataclass(frozen=True)
class Reason:
    """What a cell comes to, and what it rests on; what is reached through these is told there."""

    note: Note
    rests_on: Tuple["Reason", ...] = ()


def reasons(sheet: "Sheet", address: object, most: int = MOST) -> Optional[Reason]:
    """The tree of an address; None where it has no formula and no array covers it."""
    whole = sheet.explain(str(address))
    cells = [it for it in whole.notes if it.kind == "cell"]
    count = max(len(cells), len(whole.loops))
    if count > most:
        raise BadInput(f"{address} rests on {count} cells, more than {most}")
    if whole.loops:
        return _chain(list(whole.loops))
    made: Dict[str, Reason] = {}
    needed: Dict[str, Set[str]] = {}
    notes: Dict[str, "Counter[Note]"] = {}
    for cell in cells:
        below = [it for it in sheet.explain(cell.place).notes if it.place != cell.place
                 or it.kind != "cell"]
        needed[cell.place] = {it.place for it in below if it.kind == "cell"}
        notes[cell.place] = Counter(it for it in below if it.kind != "cell")
        through = {other for it in needed[cell.place] for other in needed[it]}
        direct = [it for it in made if it in needed[cell.place] - through]
        # Notes of copies have no address of their own, so those that no cell below has stand here.
        own = notes[cell.place] - _most_of([notes[it] for it in direct])
        copies = tuple(Reason(it) for it in dict.fromkeys(below) if it in own)
        made[cell.place] = Reason(cell, tuple(made[it] for it in direct) + copies)
    return made[cells[-1].place] if cells else None


def lines(reason: Reason, formulas: Dict[str, str],
          told: Optional[Set[str]] = None) -> Iterator[str]:
    """The tree as lines, each with its formula. What was told above is not told again."""
    told = set() if told is None else told
    note = reason.note
    kind = "" if note.kind == "cell" else f"{note.kind} "
    formula = formulas.get(note.place, "") if note.kind == "cell" else ""
    is_known = note.kind == "cell" and note.place in told
    yield f"{kind}{note.place} {note.outcome}  {formula}".rstrip() + (
        " (as above)" if is_known and reason.rests_on else "")
    told.add(note.place)
    for number, it in enumerate(() if is_known else reason.rests_on, 1):
        is_last = number == len(reason.rests_on)
        first, *others = lines(it, formulas, told)
        yield ("└ " if is_last else "├ ") + first
        yield from (("  " if is_last else "│ ") + other for other in others)


def _chain(loops: List[Note]) -> Reason:
    """Cells of which each waits for the next."""
    made = Reason(loops[-1])
    for note in reversed(loops[:-1]):
        made = Reason(note, (made,))
    return made


def _most_of(counts: List["Counter[Note]"]) -> "Counter[Note]":
    """For each note the most that one of these has."""
    made: "Counter[Note]" = Counter()
    for it in counts:
        made |= it
    return made
