"""Files of scripts: what they are, before any command of theirs runs."""
from __future__ import annotations

import sys
from pathlib import Path
from typing import List, Tuple, Union

from .errors import BadInput
from .replies import Item, items

SCRIPT_LIMIT = 16_777_216


def read_bytes(file: Union[str, Path]) -> bytes:
    """The bytes of a file, or of standard input for `-`."""
    try:
        return sys.stdin.buffer.read() if str(file) == "-" else Path(file).read_bytes()
    except OSError as error:
        raise BadInput(f"{file}: {error.strerror}") from None


def whole_items(script: bytes, file: Union[str, Path]) -> List[Item]:
    """The items of a script, all of them whole."""
    if len(script) > SCRIPT_LIMIT:
        raise BadInput(f"{file}: the script has more than {SCRIPT_LIMIT:,} bytes")
    found = list(items(script, str(file)))
    for item in found:
        if item.missing:
            raise BadInput(f"{item.place}error truncated: {item.command}: {item.missing} bytes "
                           "of the payload are missing")
    return found


def head_comments(script: bytes) -> Tuple[List[bytes], int]:
    """The comments and empty lines before the first command, and how many stand behind it."""
    head: List[bytes] = []
    behind, is_head = 0, True
    for number, item in enumerate(items(script)):
        if item.text == b"gridlet 2" and number == 0:
            continue
        is_head = is_head and item.is_silent
        if is_head:
            head.append(item.text)
        elif item.is_silent and item.text:
            behind += 1
    return head, behind


def line_behind_quit(script: bytes) -> int:
    """The line of the first command behind `quit`, which is never read; 0 where there is none."""
    told = list(items(script))
    if not told or told[-1].text != b"quit":
        return 0
    number = told[-1].line
    for offset, line in enumerate(script.split(b"\n")[number:], number + 1):
        if line.strip() and not line.startswith(b";"):
            return offset
    return 0
