#!/usr/bin/env python3
"""Times pairs of `set` and `show` of three cells: as one script of the program, through a pipe pair
by pair, and through a session of the library, from C and from Python.

  python3 bench/sessions.py [PROGRAM] [PAIRS]

It wants `make shared` and cc. Prints, for each of three runs, the seconds of the program alone, and
what a pair takes above it by each way, in microseconds.
"""
import subprocess
import sys
import tempfile
import time
from pathlib import Path

TOP = Path(__file__).resolve().parents[1]
sys.path.insert(0, str(TOP / "python"))
sys.path.insert(0, str(TOP / "examples" / "embed"))

from gridlet.program import find_program  # noqa: E402  (the package stands beside this folder)
from session import Session, library  # noqa: E402

OUT = TOP / "crates" / "gridlet_c" / "out"


def pair(number: int) -> bytes:
    """The lines of a pair."""
    cell = b"ABC"[number % 3:number % 3 + 1]
    return b"set %s1 %d\nshow %s1\n" % (cell, number, cell)


def own(program: str, pairs: int) -> float:
    """The seconds of the program over the whole script, with its process."""
    script = b"".join(map(pair, range(pairs)))
    begun = time.perf_counter()
    subprocess.run([program], input=script, stdout=subprocess.DEVNULL, check=True)
    return time.perf_counter() - begun


def piped(program: str, pairs: int) -> float:
    """The seconds of the program, asked pair by pair through a pipe."""
    begun = time.perf_counter()
    with subprocess.Popen([program], stdin=subprocess.PIPE, stdout=subprocess.PIPE) as running:
        for number in range(pairs):
            running.stdin.write(pair(number))
            running.stdin.flush()
            running.stdout.readline()
            running.stdout.readline()
        running.stdin.close()
    return time.perf_counter() - begun


def in_python(made, pairs: int) -> float:
    """The seconds of a session, asked pair by pair from Python."""
    with Session(made) as session:
        begun = time.perf_counter()
        for number in range(pairs):
            session.ask(pair(number))
        return time.perf_counter() - begun


def in_c(folder: str, pairs: int) -> float:
    """The seconds of a session, asked pair by pair from C."""
    program = Path(folder) / "sessions"
    if not program.exists():
        subprocess.run(["cc", "-O2", "-I", TOP / "include", "-o", program,
                        TOP / "bench" / "sessions.c", f"-L{OUT}", "-lgridlet",
                        f"-Wl,-rpath,{OUT}"], check=True)
    return float(subprocess.run([program, str(pairs)], capture_output=True, check=True).stdout)


def main() -> None:
    """Three runs."""
    program = find_program(sys.argv[1] if len(sys.argv) > 1 else None)
    pairs = int(sys.argv[2]) if len(sys.argv) > 2 else 100_000
    made = library(str(OUT / "libgridlet.so"))
    with tempfile.TemporaryDirectory() as folder:
        for _ in range(3):
            alone = own(program, pairs)
            ways = {"C": in_c(folder, pairs), "Python": in_python(made, pairs),
                    "pipe": piped(program, pairs)}
            above = ", ".join(f"{name} {(it - alone) / pairs * 1e6:.2f}" for name, it in ways.items())
            print(f"{pairs} pairs: program {alone:.3f} s; microseconds a pair above it: {above}")


if __name__ == "__main__":
    main()
