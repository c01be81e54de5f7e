#!/usr/bin/env python3
"""Times pairs of `set` and `show` through the Python client.

  python3 bench/client.py [PROGRAM] [PAIRS]

Prints, for each of three runs, the seconds that the program takes for the pairs as one script,
those that the client takes one by one, and what a pair takes above the program's own time.
"""
import subprocess
import sys
import time
from pathlib import Path

sys.path.insert(0, str(Path(__file__).resolve().parents[1] / "python"))

from gridlet import Sheet  # noqa: E402  (the package stands beside this folder)
from gridlet.program import find_program  # noqa: E402


def own(program: str, pairs: int) -> float:
    """The seconds of the program over the whole script, with its process."""
    script = "".join(f"set A1 {it}\nshow A1\n" for it in range(pairs)).encode()
    begun = time.perf_counter()
    subprocess.run([program], input=script, stdout=subprocess.DEVNULL, check=True)
    return time.perf_counter() - begun


def client(program: str, pairs: int) -> float:
    """The seconds of the client, with its process."""
    begun = time.perf_counter()
    with Sheet(program=program) as sheet:
        for it in range(pairs):
            sheet.set("A1", it)
            assert sheet.show("A1") == it
    return time.perf_counter() - begun


def main() -> None:
    """Three runs."""
    program = find_program(sys.argv[1] if len(sys.argv) > 1 else None)
    pairs = int(sys.argv[2]) if len(sys.argv) > 2 else 10_000
    for _ in range(3):
        alone, with_client = own(program, pairs), client(program, pairs)
        print(f"{pairs} pairs: program {alone:.3f} s, client {with_client:.3f} s, "
              f"{(with_client - alone) / pairs * 1e6:.0f} microseconds a pair above it")


if __name__ == "__main__":
    main()
