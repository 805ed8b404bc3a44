#!/usr/bin/env python3
"""Counts what a statement rests on: the definitions of specs/ that it reaches through `use` lines, and their lines without
comments. Of structs and enums of the code, of std and of the kit it counts none.

usage: python3 tests/closure.py [--list | --files] FILE NAME .. [-NAME ..]

    python3 tests/closure.py crates/netpbm/specs/Pnm.antt Denotes

-NAME   definitions of that name are not opened, nor counted

--list   each definition with its lines, those that others rest on first
--files  each file with its definitions and their lines, in that order

It goes by names: where a bound variable has the name of a definition in scope, that one counts too.
"""
import collections
import glob
import os
import re
import sys

ROOT = os.path.dirname(os.path.dirname(os.path.abspath(__file__)))
WORD = re.compile(r"[A-Za-z_][\w']*(?:\.[A-Za-z_0-9][\w']*)*|◌[^\s(){}]*◌")
NAMES = re.compile(r"(?:pub )?use ([\w.+]+)\.\{(.*)\}\s*$")
WHOLE = re.compile(r"(?:pub )?use ([\w.]+)(?: as (\w+))?\s*$")
TYPE = re.compile(r"(?:(?:abbrev|unfoldable|pub|mutual) )*(?:record|data) (\w+)")
TERM = re.compile(r"(?:(?:abbrev|unfoldable|pub) )*([^\s(]+) : ")


def module_of(path):
    """The module that a file of specs is."""
    found = re.search(r"crates/(\w+)/specs/(.*)\.antt$", path)
    return f"Rattle.{found[1]}.specs.{found[2].replace('/', '.')}"


class Module:
    """A file of definitions: what it uses, and the lines of each definition."""

    def __init__(self, path):
        self.path = path
        self.uses, self.modules, self.lines, self.variants = {}, {}, collections.OrderedDict(), {}
        name = None
        with open(path, encoding="utf-8") as file:
            for line in file.read().split("\n"):
                name = self.read(line, name)

    def read(self, line, name):
        names, whole = NAMES.match(line), WHOLE.match(line)
        if names:
            for item in names[2].split(", "):
                old, _, new = item.strip().partition(" as ")
                self.uses[new or old] = (names[1], old)
            return name
        if whole:
            self.modules[whole[2] or whole[1].split(".")[-1]] = whole[1]
            return name
        if not line.strip() or line.lstrip().startswith("--"):
            return name
        begun = TYPE.match(line) or TERM.match(line)
        if begun and not line.startswith(" "):
            name = begun[1]
        if name:
            self.lines.setdefault(name, []).append(line)
            variant = re.match(r"\s+(\w+) :", line)
            if variant and re.match(r"(?:(?:abbrev|pub) )*data ", self.lines[name][0]):
                self.variants[variant[1]] = name
        return name

    def cites(self, name):
        """What a definition names, each with its module."""
        text = "\n".join(re.sub(r"--.*", "", line) for line in self.lines[name])
        for word in WORD.findall(text):
            head, *rest = word.split(".")
            if head in self.lines:
                yield None, head
            elif head in self.variants:
                yield None, self.variants[head]
            elif head in self.uses:
                yield self.uses[head]
            elif head in self.modules and rest:
                yield self.modules[head], rest[0]


class Specs:
    """All definitions of a checkout."""

    def __init__(self, root=ROOT):
        self.root = root
        paths = glob.glob(f"{root}/crates/*/specs/**/*.antt", recursive=True)
        self.modules = {module_of(it): Module(it) for it in paths if not it.endswith("/Lib.antt")}

    def find(self, module, name):
        """The definition that a name of a module is: itself, the data of a variant, or none."""
        inner, _, last = module.rpartition(".")
        if module in self.modules:
            own = self.modules[module]
            return (module, name) if name in own.lines else (module, own.variants[name]) if name in own.variants else None
        return (inner, last) if inner in self.modules and last in self.modules[inner].lines else None

    def closure(self, roots, closed=()):
        """The definitions on which these rest, those that others rest on first; without those of such a name."""
        order, seen = [], set()
        work = [(it, False) for it in reversed(roots)]
        while work:
            it, is_done = work.pop()
            if is_done:
                order.append(it)
            elif it not in seen:
                seen.add(it)
                work.append((it, True))
                for module, name in self.modules[it[0]].cites(it[1]):
                    found = self.find(module or it[0], name)
                    if found and found not in seen and found[1] not in closed:
                        work.append((found, False))
        return order

    def lines_of(self, it):
        return len(self.modules[it[0]].lines[it[1]])


def count(specs, path, names, closed=()):
    """How many definitions a statement rests on, itself among them, and of how many lines; none where it is not there."""
    if any(not specs.find(module_of(path), it) for it in names):
        return 0, 0
    order = specs.closure([(module_of(path), it) for it in names], closed)
    return len(order), sum(specs.lines_of(it) for it in order)


def by_file(specs, path, names, closed=()):
    """The files of what a statement rests on, in the order of reading: how many definitions of it are there, and of how many lines."""
    found = collections.OrderedDict()
    for it in specs.closure([(module_of(path), name) for name in names], closed):
        file = os.path.relpath(specs.modules[it[0]].path, specs.root)
        definitions, lines = found.get(file, (0, 0))
        found[file] = definitions + 1, lines + specs.lines_of(it)
    return found


def main(words):
    path, *names = [it for it in words if not it.startswith("-")] or [""]
    closed = [it[1:] for it in words if re.match(r"-\w", it)]
    if not names or not path.endswith(".antt"):
        sys.exit(__doc__)
    specs = Specs()
    if "--files" in words:
        for file, (definitions, lines) in by_file(specs, path, names, closed).items():
            print(f"| `{file}` | {definitions} | {lines} |")
    if "--list" in words:
        for it in specs.closure([(module_of(path), name) for name in names], closed):
            print(specs.lines_of(it), it[1], os.path.relpath(specs.modules[it[0]].path, ROOT))
    print("%d definitions of %d lines" % count(specs, path, names, closed))


if __name__ == "__main__":
    main(sys.argv[1:])
