#!/usr/bin/env python3
"""Times 10,000 scripts of ten lines in one process, through the shared library, against one process
for each: embed.py LIBRARY PROGRAM, where LIBRARY is what examples/embed/build.sh links.
"""
import os
import subprocess
import sys
import time

sys.path.insert(0, os.path.join(os.path.dirname(__file__), "..", "examples", "embed"))
import embed

COUNT = 10_000


def script(i):
    """Ten lines: a table of prices with a total, a spill, and what is asked of them."""
    lines = [f"set A1 {i}", "set A2 40", "set A3 7", "set B1 =A1*3", "set B2 =A2*3", "set B3 =A3*3",
             "set D1 =SUM(B1:B3)", "set F1 =A1:A3+B1:B3", "show D1", "view F1:F3"]
    return ("\n".join(lines) + "\n").encode()


def seconds(answer):
    begun = time.perf_counter()
    replies = [answer(script(i)) for i in range(COUNT)]
    return time.perf_counter() - begun, replies


def main():
    library, program = embed.gridlet(sys.argv[1]), sys.argv[2]
    inside, in_one = seconds(lambda text: embed.answer(library, text)[1])
    apart, in_each = seconds(
        lambda text: subprocess.run([program], input=text, stdout=subprocess.PIPE).stdout)
    if in_one != in_each:
        sys.exit("the replies differ")
    print(f"one process {inside:.2f} s, one for each {apart:.2f} s, {apart / inside:.0f} times")


if __name__ == "__main__":
    main()
