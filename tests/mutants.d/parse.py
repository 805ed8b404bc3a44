"""The edits of each crate: wrong bodies and statements that the prover must refuse, and right bodies on the same way."""
import functools
import os
import re
import sys
from dataclasses import dataclass, field

sys.path.insert(0, os.path.dirname(os.path.dirname(os.path.abspath(__file__))))

from crates import ROOT  # noqa: E402

FUNCTION = re.compile(r"^(\s*)(?:pub(?:\([^)]*\))? )?(?:const )?(?:unsafe )?fn (\w+)")


class BadEdit(Exception): ...


def read(path):
    with open(path, encoding="utf-8") as file:
        return file.read()


@functools.cache
def functions(text):
    """Of each function with a body its first line, from 1, that of its body's brace, and its last; a law's last two are one."""
    lines, found = text.split("\n"), []
    for at, line in enumerate(lines):
        if begun := FUNCTION.match(line):
            body = next((i for i in range(at, len(lines)) if re.match(rf"^{begun[1]}(\S.*)?(\{{|\{{\}}|;)$", lines[i])), at)
            has_none = lines[body].endswith(("{}", ";"))
            end = body if has_none else next((i for i in range(body, len(lines)) if lines[i] == begun[1] + "}"), -1)
            found += [(at + 1, body + 1, end + 1)] * (end >= body)
    return found


@dataclass(eq=False)
class Edit:
    """Its pairs of texts, the file and line of each, and the file and the place in it of the function that they stand in, if it is
    one. It is of a body, or else of a statement: a definition, a clause or a law."""

    crate: str
    path: str
    pairs: list = field(default_factory=list)
    lines: list = field(default_factory=list)
    place: tuple = ()
    called: str = ""
    is_body: bool = False
    fate: str = ""
    note: str = ""
    calls: frozenset = frozenset()

    def __post_init__(self):
        self.name = f"{self.crate}/{os.path.splitext(os.path.basename(self.path))[0]}"
        self.is_right = self.path.endswith(".right")


def pairs_of(edit):
    file, old = "", None
    for line in read(f"{ROOT}/{edit.path}").split("\n"):
        if line.startswith("file: "):
            file = line[6:].strip()
        elif line.startswith("old: ") and old is None:
            old = line[5:]
        elif line.startswith("new:") and old is not None:
            yield file, old, line[4:].removeprefix(" ")
            old = None
        elif line.strip():
            raise BadEdit(f"a line of it is not read: {line.strip()}")


def parsed(crate, path):
    """An edit as it applies to the text now."""
    edit, folder, texts, inside = Edit(crate, path), f"{ROOT}/crates/{crate}", {}, set()
    edit.pairs = list(pairs_of(edit))
    if not edit.pairs or any(old == new for _, old, new in edit.pairs):
        raise BadEdit("it has no 'old:' and 'new:' pair, or changes nothing")
    for file, old, new in edit.pairs:
        text = texts.get(file) or read(f"{folder}/{file}")
        if text.count(old) != 1:
            raise BadEdit(f"its 'old:' text stands {text.count(old)} times in {file}")
        line = text[: text.index(old)].count("\n") + 1
        edit.lines.append((file, line))
        inside.add((file, max((at for at, (first, _, last) in enumerate(functions(text)) if first <= line <= last), default=-1)))
        texts[file] = text.replace(old, new)
    edit.is_body = all(file.startswith("src/") for file, _ in edit.lines)
    file, at = inside.pop()
    if not inside and at >= 0:
        text = read(f"{folder}/{file}")
        first, body, _ = functions(text)[at]
        edit.place, edit.called = (file, at), FUNCTION.match(text.split("\n")[first - 1])[2]
        edit.is_body = all(line >= body for _, line in edit.lines)
    return edit


def edits_of(crate):
    """The edits of a crate, and why others can't be applied. A right body must change the same text as the edit of its name."""
    edits, bad, folders = [], [], [it for it in (f"crates/{crate}/mutants", f"crates/{crate}/must-fail") if os.path.isdir(f"{ROOT}/{it}")]
    for path in (f"{at}/{name}" for at in folders for name in sorted(os.listdir(f"{ROOT}/{at}"))):
        try:
            edits.append(parsed(crate, path))
            wrong = path.removesuffix(".right") + ".edit"
            if edits[-1].is_right and [it[:2] for it in parsed(crate, wrong).pairs] != [it[:2] for it in edits[-1].pairs]:
                raise BadEdit("it must change the same text as the edit of its name")
        except (BadEdit, OSError) as why:
            bad.append(f"{path}: {why}")
    return edits, bad
