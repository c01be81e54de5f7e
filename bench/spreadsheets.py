#!/usr/bin/env python3
"""Times a built gridlet beside two spreadsheets that people have.

  python3 bench/spreadsheets.py PROGRAM [NAME ..]

PROGRAM is the built gridlet. Each workload is a sheet; with NAMEs only these are run. Gridlet takes
it as a script that ends with a `show`; Gnumeric (`ssconvert --recalc`) and LibreOffice
(`soffice --headless --convert-to csv`) load it from a workbook without values, calculate it, and
write it as CSV. Prints the processor seconds of each, least of three runs, less those of a sheet of
one cell; a spreadsheet that isn't there is left out.
"""
import os
import resource
import shutil
import subprocess
import sys
import tempfile
import zipfile


def chain():
    """9,998 formulas, each of the one above."""
    cells = {'A1': 1}
    cells.update({f'A{i}': f'=A{i - 1}+1' for i in range(2, 10000)})
    return cells, 'A9999'


def totals():
    """15,000 formulas below three totals of them."""
    cells = {'D1': 1}
    for c in 'ABC':
        cells[f'{c}1'] = f'=SUM({c}2:{c}5001)'
        cells.update({f'{c}{i}': f'=$D$1+{i}' for i in range(2, 5002)})
    return cells, 'C1'


def sums():
    """60,000 constants and 4,000 sums of rows."""
    cells = {f'{chr(64 + c)}{r}': r + c for r in range(1, 4001) for c in range(1, 16)}
    cells.update({f'P{r}': f'=SUM(A{r}:O{r})' for r in range(1, 4001)})
    return cells, 'P4000'


def lookups():
    """4,000 sums of ranges that grow by one cell each."""
    cells = {f'A{r}': r for r in range(1, 4001)}
    cells.update({f'B{r}': f'=SUM(A1:A{r})' for r in range(1, 4001)})
    return cells, 'B4000'


def one():
    """One cell."""
    return {'A1': 1}, 'A1'


WORKLOADS = [chain, totals, sums, lookups]


def script(cells, last):
    """The sheet as commands."""
    lines = [f'set {a} {x}'.replace('$', '') for a, x in cells.items()]
    return '\n'.join(lines + [f'show {last}', ''])


def place(a):
    """The row and the column of an address."""
    letters = a.rstrip('0123456789')
    column = 0
    for letter in letters:
        column = 26 * column + ord(letter) - 64
    return int(a[len(letters):]), column


def workbook(path, cells):
    """The sheet as a workbook, with no values of formulas."""
    rows = {}
    for a in sorted(cells, key=place):
        x = cells[a]
        cell = f'<c r="{a}"><f>{x[1:]}</f></c>' if isinstance(x, str) else f'<c r="{a}"><v>{x}</v></c>'
        rows.setdefault(place(a)[0], []).append(cell)
    data = ''.join(f'<row r="{r}">{"".join(row)}</row>' for r, row in rows.items())
    main = 'http://schemas.openxmlformats.org/spreadsheetml/2006/main'
    office = 'http://schemas.openxmlformats.org/officeDocument/2006/relationships'
    package = 'http://schemas.openxmlformats.org/package/2006'
    kind = 'application/vnd.openxmlformats-officedocument.spreadsheetml'
    with zipfile.ZipFile(path, 'w', zipfile.ZIP_DEFLATED) as out:
        out.writestr('[Content_Types].xml', f'<Types xmlns="{package}/content-types">'
                     '<Default Extension="rels" ContentType="application/vnd.openxmlformats-package.relationships+xml"/>'
                     f'<Override PartName="/xl/workbook.xml" ContentType="{kind}.sheet.main+xml"/>'
                     f'<Override PartName="/xl/worksheets/sheet1.xml" ContentType="{kind}.worksheet+xml"/></Types>')
        out.writestr('_rels/.rels', f'<Relationships xmlns="{package}/relationships">'
                     f'<Relationship Id="r1" Type="{office}/officeDocument" Target="xl/workbook.xml"/></Relationships>')
        out.writestr('xl/workbook.xml', f'<workbook xmlns="{main}" xmlns:r="{office}"><sheets>'
                     '<sheet name="S" sheetId="1" r:id="r1"/></sheets></workbook>')
        out.writestr('xl/_rels/workbook.xml.rels', f'<Relationships xmlns="{package}/relationships">'
                     f'<Relationship Id="r1" Type="{office}/worksheet" Target="worksheets/sheet1.xml"/></Relationships>')
        out.writestr('xl/worksheets/sheet1.xml', f'<worksheet xmlns="{main}"><sheetData>{data}</sheetData></worksheet>')


def spent(words, **how):
    """The processor seconds of a command, least of three runs."""
    least = None
    for _ in range(3):
        before = resource.getrusage(resource.RUSAGE_CHILDREN)
        subprocess.run(words, stdout=subprocess.DEVNULL, stderr=subprocess.DEVNULL, check=False, **how)
        after = resource.getrusage(resource.RUSAGE_CHILDREN)
        took = after.ru_utime + after.ru_stime - before.ru_utime - before.ru_stime
        least = took if least is None else min(least, took)
    return least


def times(program, folder, workload):
    """The seconds of each program that is there."""
    cells, last = workload()
    book = f'{folder}/{workload.__name__}.xlsx'
    workbook(book, cells)
    found = {'gridlet': spent([program], input=script(cells, last).encode())}
    if shutil.which('ssconvert'):
        found['Gnumeric'] = spent(['ssconvert', '--recalc', book, f'{folder}/out.csv'])
    if shutil.which('soffice'):
        found['LibreOffice'] = spent(['soffice', '--headless', f'-env:UserInstallation=file://{folder}/office',
                                      '--convert-to', 'csv', '--outdir', folder, book])
    return found


def main():
    program = os.path.abspath(sys.argv[1])
    names = sys.argv[2:]
    with tempfile.TemporaryDirectory() as folder:
        least = times(program, folder, one)
        for workload in WORKLOADS:
            if names and workload.__name__ not in names:
                continue
            found = times(program, folder, workload)
            said = ' '.join(f'{name} {max(0, took - least[name]):.2f}' for name, took in found.items())
            print(f'{workload.__name__}: {said}', flush=True)


if __name__ == '__main__':
    main()
