#!/usr/bin/env python3
"""Times a built gridlet on generated scripts.

  python3 bench/run.py PROGRAM [NAME ..]

PROGRAM is the built gridlet. With NAMEs only these workloads are run. Prints one line for each:
its name, the bytes in and out, the exit status, and the seconds that it took. Nothing here is
checked: the replies are those that the contract of the run fixes.
"""
import subprocess
import sys
import time


def column(n):
    """The letters of column n, from 1."""
    letters = ''
    while n:
        n, rest = divmod(n - 1, 26)
        letters = chr(65 + rest) + letters
    return letters


def generator():
    """The generated script of its greatest size."""
    return ['--gen', '1600'], ''


def chain():
    """A chain of 4,000 formulas, with 200 edits of its beginning."""
    lines = ['set A1 1']
    lines += ['set A%d =A%d+1' % (i, i - 1) for i in range(2, 4002)]
    for i in range(200):
        lines += ['set A1 %d' % i, 'show A4001']
    return [], '\n'.join(lines) + '\n'


def sums():
    """60,000 constants under 4,000 sums."""
    lines = ['set %s%d %d' % (column(c), r, r + c) for r in range(1, 4001) for c in range(1, 16)]
    lines += ['set P%d =SUM(A%d:O%d)' % (r, r, r) for r in range(1, 4001)]
    lines += ['show P4000', 'set A1 7', 'show P1']
    return [], '\n'.join(lines) + '\n'


def spills():
    """500 spills side by side, and sums of what they show."""
    lines = ['set %s1 =SEQUENCE(20,1)*%d' % (column(c), c) for c in range(1, 501)]
    lines += ['set %s30 =SUM(%s1#)' % (column(c), column(c)) for c in range(1, 501)]
    lines += ['calc', 'view A1:T20', 'show A30']
    return [], '\n'.join(lines) + '\n'


def copies():
    """A recursion that makes 65,536 copies of its sheet."""
    formula = '=IF(A1>=65536,1,VIEW(UPDATE(SHEET(A1:B1),A1,2*A1),B1)+VIEW(UPDATE(SHEET(A1:B1),A1,2*A1+1),B1))'
    return [], 'set A1 1\nset B1 %s\nshow B1\n' % formula


def table():
    """An import of one megabyte."""
    row = ','.join('123456789012345678' for _ in range(10)) + '\n'
    payload = row * (1000000 // len(row))
    rows = payload.count('\n')
    return [], 'import A1 %d\n%sset M1 =SUM(A1:A999)\nshow M1\n; %d rows\n' % (len(payload), payload, rows)


def commands():
    """200,000 small commands."""
    lines = []
    for i in range(100000):
        lines += ['set A1 %d' % i, 'get A1']
    return [], '\n'.join(lines) + '\n'


def products():
    """16,000 formulas that read no cell."""
    return ['set %s%d =%d*%d+1' % (column(c), r, r, c) for c in range(1, 17) for r in range(1, 1001)]


def asked_again():
    """16,000 formulas, asked 3,000 times with no edit between."""
    lines = products()
    for r in range(1, 1001):
        lines += ['show A%d' % r, 'view A%d:P%d' % (r, r), 'calc']
    return [], '\n'.join(lines) + '\n'


def leaf_edits():
    """16,000 formulas beside one cell and its reader, with 300 edits of the cell."""
    lines = products() + ['set Z1 1', 'set Z2 =Z1+1', 'show Z2']
    for i in range(300):
        lines += ['set Z1 %d' % i, 'show Z2']
    return [], '\n'.join(lines) + '\n'


def many_places():
    """A formula set, asked and cleared in 50,000 places, one after another."""
    lines = []
    for i in range(50000):
        place = '%s%d' % (column(i % 500 + 1), i // 500 + 1)
        lines += ['set %s =%d+1' % (place, i), 'show %s' % place, 'clear %s' % place]
    return [], '\n'.join(lines) + '\n'


def few_formulas():
    """65,000 constants and ten formulas: 5,000 edits of cells that none reads, each with a query."""
    lines = ['set %s%d %d' % (column(c), r, r + c) for r in range(1, 1001) for c in range(1, 66)]
    lines += ['set ZZ%d =A%d+B%d' % (r, r, r) for r in range(1, 11)]
    for i in range(5000):
        lines += ['set C%d %d' % (i % 1000 + 1, i), 'show ZZ%d' % (i % 10 + 1)]
    return [], '\n'.join(lines) + '\n'


def passing_formulas():
    """65,000 constants and ten formulas: 5,000 edits that bring a formula or take it, each with a
    query."""
    lines = ['set %s%d %d' % (column(c), r, r + c) for r in range(1, 1001) for c in range(1, 66)]
    lines += ['set ZZ%d =A%d+B%d' % (r, r, r) for r in range(1, 11)]
    for i in range(5000):
        row = i // 2 % 100 + 1
        lines += ['set ZY%d %s' % (row, '5' if i % 2 else '=A%d+1' % row), 'show ZY%d' % row]
    return [], '\n'.join(lines) + '\n'


def few_undos():
    """65,000 constants and ten formulas: 2,500 edits of a constant, each undone, with a query behind
    each edit and each undo."""
    lines = ['set %s%d %d' % (column(c), r, r + c) for r in range(1, 1001) for c in range(1, 66)]
    lines += ['set ZZ%d =A%d+B%d' % (r, r, r) for r in range(1, 11)]
    for i in range(2500):
        lines += ['set A1 %d' % i, 'show ZZ1', 'undo', 'show ZZ1']
    return [], '\n'.join(lines) + '\n'


def many_copies():
    """One formula set 2,000 times, to another copy of a chain of 30 formulas each time."""
    lines = ['set A30 5'] + ['set A%d =A%d+1' % (i, i + 1) for i in range(1, 30)]
    for i in range(2000):
        lines += ['set D1 =VIEW(UPDATE(SHEET(A1:A30),A30,%d),A1)' % i, 'show D1']
    return [], '\n'.join(lines) + '\n'


def siblings():
    """3,000 copies that differ in one cell, each with a copy inside that changes nothing."""
    lines = ['set A1 1', 'set B1 =A1*10', 'set C1 =VIEW(SHEET(B1),B1)']
    lines += ['set E%d =VIEW(UPDATE(SHEET(A1:C1),A1,%d),C1)' % (i, i) for i in range(1, 3001)]
    lines += ['show E3000', 'set B1 =A1*20', 'show E3000', 'set E7 1', 'show E8']
    return [], '\n'.join(lines) + '\n'


def gridlets():
    """2,000 gridlets of one small function, with 200 edits of what they are given."""
    lines = ['set A1 3', 'set B1 4', 'set C1 =A1*A1+B1*B1']
    for i in range(1, 2001):
        given = 'UPDATE(UPDATE(SHEET(A1:C1),A1,E%d),B1,E%d+1)' % (i, i)
        lines += ['set E%d %d' % (i, i), 'set F%d =VIEW(%s,C1)' % (i, given)]
    lines += ['calc']
    for i in range(1, 201):
        lines += ['set E%d %d' % (i, i + 7), 'show F%d' % i]
    return [], '\n'.join(lines) + '\n'


def what_ifs():
    """200 copies of a region of 9,990 addresses, 101 of which have content."""
    lines = ['set A1 5'] + ['set B%d =A1+%d' % (i, i) for i in range(1, 101)]
    lines += ['set L%d =VIEW(UPDATE(SHEET(A1:J999),A1,%d),B7)' % (i, i) for i in range(1, 201)]
    return [], '\n'.join(lines + ['show L200']) + '\n'


def recursion(n):
    """A recursion of copies in which the keys double at each level."""
    inner = 'UPDATE(UPDATE(SHEET(A1:B3),A1,A1-2),A2,SEQUENCE(2,1))'
    lines = ['gridlet 2', 'set A1 2', 'set B1 =IF(A1<=1,NA(),A1+VIEW(%s,B1))' % inner]
    lines += ['set D1 =G(A1:B1,A1,%d)' % n, 'show D1']
    return [], '\n'.join(lines) + '\n'


def recursion22():
    """That recursion at 22."""
    return recursion(22)


def recursion26():
    """That recursion at 26, with four times the keys."""
    return recursion(26)


def recursion64():
    """That recursion at 64, which is beyond the limit of demanded keys."""
    return recursion(64)


def totals():
    """Three totals above 5,000 formulas each, one of which is edited once."""
    rows = range(2, 5002)
    lines = ['set %s1 =SUM(%s2:%s5001)' % (c, c, c) for c in 'ABC']
    lines += ['set %s%d =%d' % (c, r, r) for c in 'ABC' for r in rows]
    lines += ['show A1', 'set B7 1', 'show B1']
    return [], '\n'.join(lines) + '\n'


def growing_sums():
    """4,000 sums of ranges of constants that grow by a cell each."""
    lines = ['set A%d %d' % (r, r) for r in range(1, 4001)]
    lines += ['set B%d =SUM(A1:A%d)' % (r, r) for r in range(1, 4001)]
    return [], '\n'.join(lines + ['show B4000']) + '\n'


def running_totals():
    """2,000 sums of ranges of formulas that grow by a cell each."""
    lines = ['set A%d =%d' % (r, r) for r in range(1, 2001)]
    lines += ['set B%d =SUM(A1:A%d)' % (r, r) for r in range(1, 2001)]
    return [], '\n'.join(lines + ['show B2000']) + '\n'


def lookups():
    """3,000 look-ups in 5,000 rows of constants."""
    lines = ['set A%d %d' % (r, r) for r in range(1, 5001)]
    lines += ['set B%d %d' % (r, 7 * r) for r in range(1, 5001)]
    lines += ['set D%d =LOOKUP(%d,A1:A5000,B1:B5000)' % (r, r) for r in range(1, 3001)]
    return [], '\n'.join(lines + ['show D3000']) + '\n'


def formula_lookups():
    """1,000 look-ups in 5,000 rows of formulas."""
    lines = ['set A%d =%d' % (r, r) for r in range(1, 5001)]
    lines += ['set B%d =%d' % (r, 7 * r) for r in range(1, 5001)]
    lines += ['set D%d =LOOKUP(%d,A1:A5000,B1:B5000)' % (r, r) for r in range(1, 1001)]
    return [], '\n'.join(lines + ['show D1000']) + '\n'


def explained_chain():
    """A chain of 16,000 formulas, explained at its end."""
    lines = ['set A1 =1'] + ['set A%d =A%d+1' % (i, i - 1) for i in range(2, 8001)]
    lines += ['set B1 =A8000'] + ['set B%d =B%d+1' % (i, i - 1) for i in range(2, 8001)]
    return [], '\n'.join(lines + ['explain B8000']) + '\n'


def explained_total():
    """A total above 10,000 formulas, explained."""
    lines = ['set A1 =SUM(A2:B5001)']
    lines += ['set %s%d =%d' % (c, r, r) for c in 'AB' for r in range(2, 5002)]
    return [], '\n'.join(lines + ['explain A1']) + '\n'


def flow_ranges():
    """The forecast of 6,384 totals over a range of 10,000 formulas."""
    lines = ['set %s%d =%d' % (c, r, r) for c in 'AB' for r in range(1, 5001)]
    lines += ['set J%d =SUM(A1:B5000)' % r for r in range(1, 6385)]
    return [], '\n'.join(lines + ['flow']) + '\n'


def flow_arrays():
    """The forecast of 16,384 arrays of unknown size."""
    lines = ['set %s%d =SEQUENCE(A1,B1)' % (c, r) for c in 'CD' for r in range(1, 8193)]
    return [], '\n'.join(lines + ['flow']) + '\n'


def flow_column():
    """The forecast of a column of 9,999 cells, each reading the one above."""
    lines = ['set A1 1'] + ['set A%d =A%d+1' % (i, i - 1) for i in range(2, 10000)]
    return [], '\n'.join(lines + ['flow']) + '\n'


WORKLOADS = [generator, chain, sums, spills, copies, table, commands, asked_again, leaf_edits,
             many_places, many_copies, few_formulas, passing_formulas, few_undos, siblings,
             gridlets, what_ifs, recursion22, recursion26, recursion64, totals, growing_sums,
             running_totals, lookups, formula_lookups, explained_chain, explained_total,
             flow_ranges, flow_arrays, flow_column]


def main():
    program, names = sys.argv[1], sys.argv[2:]
    print('%-16s %10s %10s %6s %8s' % ('workload', 'in', 'out', 'status', 'seconds'))
    for workload in WORKLOADS:
        if names and workload.__name__ not in names:
            continue
        words, script = workload()
        start = time.time()
        done = subprocess.run([program] + words, input=script.encode(), capture_output=True)
        print('%-16s %10d %10d %6d %8.2f' % (workload.__name__, len(script), len(done.stdout), done.returncode, time.time() - start))


if __name__ == '__main__':
    main()
