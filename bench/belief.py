#!/usr/bin/env python3
"""What must be believed for the contract of `run`: the definitions that its clauses reach, in the
order in which they can be read.

    belief.py [--whole]          prints volume by volume the files with their lines; --whole names
                                 each definition with its line and the number of its lines
    belief.py --page FILE        fails where FILE doesn't hold that list word for word

It reads the clauses of `pub fn run` in crates/gl_run/src/top.rt, the imports of that file, and the
definitions in each crate's specs/. Comments, imports and empty lines don't count. A file comes
behind those that it needs. Names are found by their text: a variable that is spelled like a
definition in scope counts as that definition.

The status is 1 where a definition that is reached stands outside the three volumes, but for those
that speak of Rust types and are named in ELSEWHERE, and where a line of one is wider than WIDTH.
"""
import collections
import os
import re
import sys

ROOT = os.path.dirname(os.path.dirname(os.path.abspath(__file__)))
FUNCTION, FILE = "run", "crates/gl_run/src/top.rt"
VOLUMES = ["gl_calculus", "gl_language", "gl_protocol"]
# of Rust types: the closure of an order, and what a run answers
ELSEWHERE = {
    ("gl_order.specs.Rule", "rule_of"),
    ("gl_run.specs.Status", "IfDone"),
    ("gl_run.specs.Status", "IsFinished"),
}
WIDTH = 100

USE = re.compile(r"^use Rattle\.([^\s{]+?)(?:\.\{([^}]*)\})?(?: as (\S+))?\s*$")
TOKEN = re.compile(r"[^\s(){}\[\],;.]+(?:\.[^\s(){}\[\],;.]+)*")
DECLARATION = re.compile(r"^ *(abbrev |unfoldable )?(pub )?(data |record )?([^\s:]+)(.*)$")
NO_NAME = {"module", "mutual", "open", "infixl", "infixr", "infix", "use", "ruleset", "syntax", "where", "mod"}
BLOCKS = ("mutual", "module")


def indent(line):
    return len(line) - len(line.lstrip(" "))


def counts(line):
    return bool(line.strip()) and not line.strip().startswith("--")


def declared(line):
    """The name that a line declares, whether it is public, and its kind; or None."""
    match = DECLARATION.match(line)
    if not match:
        return None
    form, public, kind, name, rest = match.groups()
    if name in NO_NAME or name.startswith("--"):
        return None
    if form or kind or re.match(r"^ :( |$)", rest):
        return name, bool(public), (kind or "").strip()
    return None


class Definition:
    """A definition, or a block of some: its lines, and the names that it gives."""

    def __init__(self, module, line, lines):
        self.module, self.line, self.lines = module, line, lines
        self.names = []      # with constructors
        self.declared = []   # without them

    def name_itself(self):
        found = declared(self.lines[0])
        if not found:
            self.declared, made = inner(self.lines[1:])
            self.names = self.declared + made
            return
        made = constructors(self.lines[1:], 2) if found[2] == "data" else []
        self.declared, self.names = [found[0]], [found[0]] + made

    def size(self):
        return sum(counts(line) for line in self.lines)

    def wide(self):
        return [line for line in self.lines if len(line) > WIDTH]


def constructors(lines, at):
    out = []
    for line in lines:
        if indent(line) == at and " :" in line and counts(line):
            out += line.split(" :")[0].split()
    return out


def inner(lines):
    """What a block declares, and the constructors in it."""
    out, made, data, record = [], [], None, None
    for line in filter(counts, lines):
        at = indent(line)
        if data is not None and at > data:
            if at == data + 2 and " :" in line:
                made += line.split(" :")[0].split()
            continue
        if record is not None and at > record:
            continue
        data = record = None
        found = declared(line)
        if found and (found[1] or line.strip().startswith(("abbrev ", "unfoldable ", "data ", "record "))):
            out.append(found[0])
            data = at if found[2] == "data" else None
            record = at if found[2] == "record" else None
    return out, made


class Module:
    """A file of definitions, with what it imports."""

    def __init__(self, name, path):
        self.name = name
        self.definitions, self.index = [], {}
        with open(path) as file:
            lines = file.read().rstrip("\n").split("\n")
        self.imports, self.aliases = imports_of(lines)
        self.read(lines)

    def read(self, lines):
        at = 0
        while at < len(lines):
            line = lines[at]
            if not line.strip() or line.startswith(("--", "use ", "pub mod ", "mod ")):
                at += 1
                continue
            end = at + 1
            while end < len(lines) and (lines[end].startswith(" ") or not lines[end].strip()):
                end += 1
            self.add(at, lines[at:end])
            at = end

    def add(self, at, part):
        """Lines that begin with no name go on with the definition before, as its clauses do."""
        word = part[0].split()[0]
        block = word in BLOCKS or part[0].startswith(("abbrev mutual", "pub ruleset"))
        if not declared(part[0]) and not block:
            if self.definitions and not word.startswith("infix"):
                self.definitions[-1].lines += part
            return
        made = Definition(self.name, at + 1, list(part))
        made.name_itself()
        self.definitions.append(made)
        for name in made.names:
            self.index.setdefault(name, made)


def imports_of(lines):
    imports, aliases = {}, {}
    for match in filter(None, map(USE.match, lines)):
        where, group, alias = match.groups()
        if group is None:
            aliases[alias or where.split(".")[-1]] = where
            continue
        for item in group.split(","):
            word, _, here = item.strip().partition(" as ")
            if word:
                imports[here or word] = (where, word)
    return imports, aliases


def modules_of(root):
    out = {}
    base = os.path.join(root, "crates")
    for crate in sorted(os.listdir(base)):
        specs = os.path.join(base, crate, "specs")
        for folder, folders, files in os.walk(specs):
            folders.sort()
            for file in sorted(files):
                path = os.path.join(folder, file)
                inside = os.path.relpath(path, specs)[:-5].replace(os.sep, ".")
                if file.endswith(".antt") and file != "Lib.antt":
                    name = f"{crate}.specs.{inside}"
                    out[name] = Module(name, path)
    return out


def split_path(modules, path):
    """The module that a path begins with, and the rest."""
    parts = path.split(".")
    for end in range(len(parts), 0, -1):
        name = ".".join(parts[:end])
        if name in modules:
            return modules[name], parts[end:]
    return None, parts


def found_at(modules, path, word):
    module, rest = split_path(modules, path)
    return module.index.get(rest[0] if rest else word) if module else None


def named(text, own, imports, aliases, modules):
    """The definitions that a text names."""
    out = []
    for token in TOKEN.findall(text):
        parts = token.lstrip("λ").split(".")
        first, found = parts[0], None
        for name in (first, f"◌{first}◌", f"{first}◌", f"◌{first}"):
            found = own.index.get(name) if own else None
            if not found and name in imports:
                found = found_at(modules, *imports[name])
            if found:
                break
        if not found and first in aliases and len(parts) > 1:
            found = found_at(modules, aliases[first] + "." + ".".join(parts[1:]), "")
        if found and found not in out:
            out.append(found)
    return out


def clauses(root):
    """The text of the clauses of `run`, and what its file imports for them."""
    with open(os.path.join(root, FILE)) as file:
        text = file.read()
    lines = []
    for body in re.findall(r"ghost use ([^;]*);", text):
        body = " ".join(body.split())
        match = re.match(r"^(\S+?)\.\{(.*)\}$", body)
        if not match:
            lines.append(f"use {body}")
            continue
        for item in match.group(2).split(","):
            name, _, here = item.strip().partition(" as ")
            path, _, last = f"{match.group(1)}.{name}".rpartition(".")
            lines.append(f"use {path}.{{{last} as {here or last}}}")
    imports, aliases = imports_of(lines)
    start = re.search(rf"pub fn {FUNCTION}\b", text).start()
    head = text[start:text.index("\n{\n", start)]
    return "\n".join(line for line in head.split("\n") if not line.strip().startswith("//")), imports, aliases


def reached(root, modules):
    """The definitions that are reached, by module, and the modules that each needs."""
    files, below, seen = collections.defaultdict(list), collections.defaultdict(set), set()
    text, imports, aliases = clauses(root)
    todo = named(text, None, imports, aliases, modules)
    while todo:
        one = todo.pop()
        if id(one) in seen:
            continue
        seen.add(id(one))
        module = modules[one.module]
        files[one.module].append(one)
        needs = named("\n".join(filter(counts, one.lines)), module, module.imports, module.aliases, modules)
        below[one.module] |= {need.module for need in needs}
        todo += needs
    return files, below


def volume_of(file):
    crate = file.split(".")[0]
    return VOLUMES.index(crate) if crate in VOLUMES else len(VOLUMES)


def in_order(files, below):
    """The files in order of need; where some need each other in a circle, in the order of names."""
    order, seen = [], set()

    def visit(file):
        if file not in seen:
            seen.add(file)
            for other in sorted(below[file] - {file}):
                visit(other)
            order.append(file)

    for file in sorted(files, key=lambda file: (volume_of(file), file)):
        visit(file)
    return sorted(order, key=volume_of)


def listing(files, order, modules, whole):
    """The lines of the list, and what is wrong."""
    out, wrong, sums, last = [], [], collections.OrderedDict(), None
    for file in order:
        crate, _, inside = file.split(".", 2)
        if crate != last:
            out += ([""] if last else []) + [crate if crate in VOLUMES else f"{crate} (of Rust types)"]
            last = crate
        some = sorted(files[file], key=lambda one: one.line)
        lines, names = sum(one.size() for one in some), sum(len(one.declared) for one in some)
        every = sum(len(one.declared) for one in modules[file].definitions)
        out.append(f"  {inside.replace('.', '/')}: {lines} lines, {names} of {every} definitions")
        if whole:
            out += [f"    {one.line}: {', '.join(one.declared)} ({one.size()})" for one in some]
        total = sums.setdefault(crate, [0, 0, 0])
        sums[crate] = [total[0] + 1, total[1] + names, total[2] + lines]
        for one in some:
            if crate not in VOLUMES and not any((file, name) in ELSEWHERE for name in one.names):
                wrong.append(f"outside the volumes: {file}.{one.names[0]}")
            wrong += [f"wider than {WIDTH}: {file}: {line.strip()}" for line in one.wide()]
    out.append("")
    out += [f"{crate}: {n} files, {names} definitions, {lines} lines" for crate, (n, names, lines) in sums.items()]
    n, names, lines = map(sum, zip(*sums.values()))
    out.append(f"all: {n} files of {len(sums)} crates, {names} definitions, {lines} lines")
    return out, wrong


def main():
    words = sys.argv[1:]
    if words not in ([], ["--whole"]) and not (len(words) == 2 and words[0] == "--page"):
        sys.exit(__doc__)
    modules = modules_of(ROOT)
    files, below = reached(ROOT, modules)
    lines, wrong = listing(files, in_order(files, below), modules, words == ["--whole"])
    text = "\n".join(lines) + "\n"
    if len(words) == 2:
        with open(words[1]) as page:
            if text not in page.read():
                wrong.append(f"{words[1]} doesn't hold the list that bench/belief.py prints")
    else:
        sys.stdout.write(text)
    for line in wrong:
        print(line, file=sys.stderr)
    sys.exit(1 if wrong else 0)


if __name__ == "__main__":
    main()
