#!/usr/bin/env python3
"""Refuses each allocation of a built gridlet in turn.

  python3 bench/refuse.py PROGRAM SCRIPT ..

PROGRAM is the built gridlet. Over each script it is run once for each allocation that a run asks
for, and this one is refused. Each of these runs must write all replies and end with the status of
the run that is refused nothing, or end with status 3 behind a whole reply. Prints how many runs
did the one and the other, and ends with status 1 where one did neither.
"""
import os
import subprocess
import sys
import tempfile

HERE = os.path.dirname(os.path.abspath(__file__))


def run(program, text, **environment):
    """The status and the output of one run."""
    ran = subprocess.run([program], input=text, stdout=subprocess.PIPE, env={**os.environ, **environment})
    return ran.returncode, ran.stdout


def ends(program, text):
    """The lengths at which the output may end: those of the scripts of the first lines."""
    lines = text.splitlines(keepends=True)
    return {len(run(program, b''.join(lines[:n]))[1]) for n in range(len(lines) + 1)}


def refuse(program, library, counted, script):
    """The runs that were whole, those that ended with status 3, and the numbers of all others."""
    with open(script, 'rb') as file:
        text = file.read()
    whole = run(program, text)
    run(program, text, LD_PRELOAD=library, REFUSE_COUNT=counted)
    with open(counted) as file:
        count = int(file.read())
    stops = {(3, whole[1][:n]) for n in ends(program, text)}
    done = stopped = 0
    wrong = []
    for number in range(1, count + 1):
        ran = run(program, text, LD_PRELOAD=library, REFUSE=str(number))
        if ran == whole:
            done += 1
        elif ran in stops:
            stopped += 1
        else:
            wrong.append(number)
    return done, stopped, wrong


def main():
    program = os.path.abspath(sys.argv[1])
    failed = False
    with tempfile.TemporaryDirectory() as folder:
        library = f'{folder}/refuse.so'
        subprocess.run(['cc', '-shared', '-fPIC', '-O1', '-o', library, f'{HERE}/refuse.c'], check=True)
        for script in sys.argv[2:]:
            done, stopped, wrong = refuse(program, library, f'{folder}/count', script)
            print(f'{os.path.basename(script)}: whole {done}, status 3 {stopped}, wrong {len(wrong)} {wrong[:9]}')
            failed = failed or bool(wrong)
    sys.exit(1 if failed else 0)


main()
