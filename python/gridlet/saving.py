"""Saving: a script that makes a sheet, read back before it takes the place of the old one."""
from __future__ import annotations

import os
import stat
import tempfile
from pathlib import Path
from typing import Iterable, Optional, Tuple

from .errors import BadInput
from .replies import edit_line, items
from .sheet import Sheet

State = Tuple[int, Optional[int], Tuple[str, ...], Tuple[str, ...]]


def state(sheet: Sheet) -> State:
    """All that a saved script has to bring back: version, site, registers and contents."""
    registers = () if sheet.site_number is None else sheet.tell("export")[1:]
    return sheet.version, sheet.site_number, registers, sheet.tell("list")[1:]


def script_of(sheet: Sheet, comments: Iterable[bytes] = ()) -> bytes:
    """The script that makes a sheet, with comments at its head."""
    head = [b"gridlet 2"] if sheet.version == 2 else []
    if sheet.site_number is None:
        body = [it for it in sheet.tell("list")[1:] if it != "gridlet 2"]
    else:
        body = [f"site {sheet.site_number}", *map(edit_line, sheet.export())]
    lines = [*head, *comments, *(it.encode("utf-8") for it in body)]
    return b"".join(it + b"\n" for it in lines)


def check(script: bytes, wanted: State, program: Optional[str]) -> None:
    """Raises unless a script makes just this sheet."""
    with Sheet(program=program) as again:
        for item, reply in again.run(items(script, "the saved script")):
            reply.accepted(item)
        if state(again) != wanted:
            raise BadInput("the saved script does not make the same sheet, so it was not kept")


def write(script: bytes, file: Path, before: Optional[bytes] = None) -> None:
    """Writes a file whole or not at all; `before` is what it must still hold."""
    file = Path(os.path.realpath(file))
    try:
        handle, name = tempfile.mkstemp(prefix=f".{file.name}.", suffix=".saving", dir=file.parent)
    except OSError as error:
        raise BadInput(f"{file.parent}: {error.strerror}") from None
    try:
        with os.fdopen(handle, "wb") as output:
            output.write(script)
            output.flush()
            _make_alike(output.fileno(), file)
            os.fsync(output.fileno())
        if Path(name).read_bytes() != script:
            raise BadInput(f"{file}: what was written does not read back, so nothing was saved")
        if before is not None and file.read_bytes() != before:
            raise BadInput(f"{file}: it was changed meanwhile, so it was left as it is")
        os.replace(name, file)
        _settle(file.parent)
    except OSError as error:
        raise BadInput(f"{file}: {error.strerror}") from None
    finally:
        if os.path.exists(name):
            os.unlink(name)


def save_sheet(sheet: Sheet, file: Path, comments: Iterable[bytes] = (),
               before: Optional[bytes] = None, program: Optional[str] = None) -> None:
    """Saves a sheet: nothing is moved into place that does not read back equal."""
    script = script_of(sheet, comments)
    check(script, state(sheet), program or sheet.program)
    write(script, file, before)


def _make_alike(handle: int, file: Path) -> None:
    """Gives a new file the permissions and the owner of the old one, or those of any new one."""
    try:
        old = file.stat()
    except OSError:
        mask = os.umask(0)
        os.umask(mask)
        os.fchmod(handle, 0o666 & ~mask)
        return
    try:
        os.fchown(handle, old.st_uid, old.st_gid)
    except OSError:
        # Only the system's owner may give a file away; then it belongs to whoever saves.
        pass
    os.fchmod(handle, stat.S_IMODE(old.st_mode))


def _settle(folder: Path) -> None:
    """Has the system write the folder too, so that the new name outlives a loss of power."""
    handle = os.open(folder, os.O_RDONLY)
    try:
        os.fsync(handle)
    finally:
        os.close(handle)
