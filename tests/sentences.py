"""The sentences that stand beside what they tell of, and the pages that are made of them and of crates.txt.

A promise: a comment `///` directly above an `ensures` clause. Each paragraph is a line of docs/PROMISES.md. It tells of that
clause and of those that follow it up to the next comment; or where other clauses, laws or definitions carry it, of what its
last lines name: `Carried by: ..`. A paragraph that ends so may stand above any item too, as above a trait. A `//` there is a remark:
it tells of its clauses in the text alone. A public clause has a sentence where one of these comments tells of it, where a line
`Carried by:` names it or its function, or where no clause of its function has such a comment and the function has one.

A definition: a paragraph that begins with its name in bold, as `-- **extent (`extent_of`)**: ..`, above a definition of
specs/ or, as `///`, above a type. No page repeats it; tests/docs looks up the names in it.

docs/PROMISES.md has the crates in the order of crates.txt; in each the files by name, and in a file the sentences as they stand
there, those of a function below one link to the file. crates/README.md and the table of docs/ARCHITECTURE.md are made of the
layers of crates.txt and of what each of its lines says behind its `#`.
"""
import os
import re

from crates import below, layers, listed, text_of, untold as without_line

ENSURES = re.compile(r"\s*ensures(?: (\w+))? \{")
FUNCTION = re.compile(r"(\s*)(pub(?:\([^)]*\))? )?(?:const )?fn (\w+)")
ITEM = re.compile(r"pub (?:const )?(?:fn|struct|enum|trait) (\w+)|impl(?:<(?:[^<>]|<[^<>]*>)*>)? (.*?)(?: \{.*)?$")
LASTS = ("laws.rt", "lies.rt", "example.rt")
CARRIED = "Carried by: "


class Clause:
    def __init__(self, line, name, told, is_remarked):
        self.line, self.name, self.told, self.is_remarked, self.is_covered = line, name, told, is_remarked, False


class Function:
    def __init__(self, name, owner, is_public, has_comment):
        self.full, self.name, self.is_public, self.has_comment, self.clauses = f"{owner}::{name}" if owner else name, name, is_public, has_comment, []

    def group(self, at):
        """The clauses of which the comment above this one tells."""
        more = self.clauses[at + 1 :]
        count = next((i for i, it in enumerate(more) if it.told or it.is_remarked), len(more))
        return self.clauses[at : at + 1 + count]

    def carried(self, group):
        private = "" if self.is_public else "the private "
        names = [f"`{it.name}`" for it in group if it.name]
        is_all = len(group) == len(self.clauses) or not names
        return f"{private}`{self.full}`" if is_all else f"{', '.join(names)} of {private}`{self.full}`"


class Promise:
    def __init__(self, path, line, full, sentence, cell):
        self.path, self.line, self.full, self.sentence, self.cell = path, line, full, sentence, cell


def read(path):
    with open(path, encoding="utf-8") as file:
        return file.read().split("\n")


def crates(root):
    return [it.split(":")[0].split()[0] for it in read(f"{root}/crates.txt") if it.split("#")[0].strip()]


def files(folder, ending):
    found = []
    for at, folders, names in os.walk(folder, followlinks=True):
        folders.sort()
        found += [os.path.relpath(f"{at}/{it}", folder) for it in sorted(names) if it.endswith(ending)]
    return found


def above(lines, at, mark):
    """The lines of the comment that ends above a line, without their mark."""
    begin = at
    while begin and re.match(rf"\s*{mark}(?!/)", lines[begin - 1]):
        begin -= 1
    return [it.strip()[len(mark) :].removeprefix(" ") for it in lines[begin:at]]


def paragraphs(comment):
    """The paragraphs of a comment, each with what carries it, if it says so."""
    for text in "\n".join(comment).split("\n\n"):
        sentence, _, cell = text.partition(CARRIED)
        if text.strip():
            yield " ".join(sentence.split()), " ".join(cell.split())


def exported(root, crate):
    """The names that a crate hands on."""
    path = f"{root}/crates/{crate}/src/lib.rt"
    code = "\n".join(read(path)) if os.path.exists(path) else ""
    used = re.findall(r"^pub use [\w:]+::(?:\{([^}]*)\}|(\w+));", code, re.MULTILINE)
    own = re.findall(r"^pub (?:fn|struct|enum|trait) (\w+)", code, re.MULTILINE)
    return {it.strip() for many, one in used for it in (many or one).split(",")} | set(own)


def functions(lines, names):
    """The functions of a file with their clauses; public ones are those that the crate hands on, or that are methods of a type or
    a trait which it hands on."""
    owner, kind, found, is_open = "", "", [], False
    for at, line in enumerate(lines):
        begun = re.match(r"(?:pub )?(impl|trait)\b(?:<(?:[^<>]|<[^<>]*>)*>)? (?:(.*) for )?(?:Box<dyn )?(\w+)", line)
        if begun:
            owner, kind = begun[3], "other" if begun[2] else begun[1]
        elif line.startswith("}"):
            owner = kind = ""
        function = FUNCTION.match(line)
        if function:
            head = at
            while lines[head - 1].strip().startswith("#["):
                head -= 1
            is_pub = kind == "trait" or (function[2] or "").strip() == "pub" and kind != "other"
            within = owner if function[1] else ""
            found.append(Function(function[3], within, is_pub and (within or function[3]) in names, bool(above(lines, head, "///"))))
            is_open = True
        clause = ENSURES.match(line)
        if clause and is_open:
            told = list(paragraphs(above(lines, at, "///")))
            found[-1].clauses.append(Clause(at, clause[1], told, not told and lines[at - 1].strip().startswith("//")))
        if re.match(r"\s*\{\}?\s*$", line):
            is_open = False
    return found


def named_in(cell):
    """The functions that a cell names, each with the clauses of it that are named, or none where all of it is meant."""
    for part in re.split(r";\s*", cell.replace("the private ", "")):
        clauses = re.match(r"((?:`\w+`(?:, | and )?)+) of (.*)$", part)
        for name in re.findall(r"`([\w:]+)`", clauses[2] if clauses else part):
            yield name.split("::")[-1], set(re.findall(r"`(\w+)`", clauses[1])) if clauses else None


class Crate:
    """The promises of a crate in the order of its files, and the clauses of its public functions that none tells of."""

    def __init__(self, root, name):
        self.promises, self.functions, names, folder = [], [], exported(root, name), f"{root}/crates/{name}/src"
        for path in files(folder, ".rt"):
            lines = read(f"{folder}/{path}")
            here = functions(lines, names)
            self.functions += [(path, it) for it in here]
            for function in here:
                for at, clause in enumerate(function.clauses):
                    group = function.group(at)
                    is_of_all = clause.is_remarked or any(not cell for _, cell in clause.told)
                    for each in group if is_of_all else [clause] if clause.told else []:
                        each.is_covered = True
                    for sentence, cell in clause.told:
                        self.promises.append(Promise(path, clause.line, function.full, sentence, cell or function.carried(group)))
            for at, line in enumerate(lines):
                if line.startswith(("pub ", "impl", "#[")) and not lines[at - 1].startswith("#["):
                    told = [it for it in paragraphs(above(lines, at, "///")) if it[1]]
                    self.promises += [Promise(path, at, "", *it) for it in told]
        self.promises.sort(key=lambda it: (it.path in LASTS, it.path, it.line))

    def untold(self, named):
        """Public clauses without a sentence: none tells of them, and no comment stands above them or, where no clause of their
        function has one, above the function."""
        for path, function in self.functions:
            meant = named.get(function.name, [])
            is_whole, is_told = None in meant, any(it.told for it in function.clauses)
            for clause in function.clauses if function.is_public and not is_whole else []:
                is_named = any(clause.name in it for it in meant if it)
                if not (clause.is_covered or is_named or function.has_comment and not is_told):
                    yield path, clause, function


def all_crates(root):
    return {it: Crate(root, it) for it in crates(root) if not it.endswith("_tests") and it != "bench"}


def untold(read_crates):
    """Each public clause that has no sentence. What a line `Carried by:` names is of its own crate, where that has such a function."""
    owners, named = {}, {}
    for name, crate in read_crates.items():
        for _, function in crate.functions:
            owners.setdefault(function.name, set()).add(name)
    for name, crate in read_crates.items():
        for called, clauses in (it for promise in crate.promises for it in named_in(promise.cell)):
            of = owners.get(called, set())
            for owner in {name} if name in of else of:
                named.setdefault(owner, {}).setdefault(called, []).append(clauses)
    for name, crate in read_crates.items():
        for path, clause, function in crate.untold(named.get(name, {})):
            yield f"crates/{name}/src/{path}:{clause.line + 1}: a public clause without a sentence: {clause.name or ''} of {function.full}"


def homes(crate):
    """The file of each function of a crate, by its name and by that of its type with it."""
    found = {}
    for path, function in crate.functions:
        found.setdefault(function.full, path)
        found.setdefault(function.name, path)
    return found


def item_at(lines, at):
    """What an item is called that begins at a line or behind the attributes there."""
    while lines[at].startswith("#["):
        at += 1
    named = ITEM.match(lines[at])
    return named[1] or named[2] if named else ""


def also(promise, where, heads, link):
    """The other functions of the crate that carry a promise and have no sentence of their own."""
    told = []
    for name in re.findall(r"(?<! of )`([\w:]+)`(?!(?:, `\w+`| and `\w+`)* of)", promise.cell):
        at = where.get(name)
        if at and name.split("::")[-1] not in heads:
            told.append(f"`{name}`" if at == promise.path else link(name, at))
    return f" ({', '.join(dict.fromkeys(told))})" if told else ""


def promises_of(name, crate, root, links):
    """The lines of docs/PROMISES.md on a crate: of each function, or other item, a link to its file and its sentences; and behind them
    where the links lead."""
    where, texts, groups, before = homes(crate), {}, {}, len(links)
    link = lambda shown, path: f"[`{shown}`][{links.setdefault(f'../crates/{name}/src/{path}', len(links) + 1)}]"
    heads = {it.full.split("::")[-1] for it in crate.promises}
    for promise in crate.promises:
        lines = texts.setdefault(promise.path, read(f"{root}/crates/{name}/src/{promise.path}"))
        groups.setdefault((promise.path, promise.full or item_at(lines, promise.line)), []).append(promise)
    for (path, head), promises in groups.items():
        yield from (link(head, path), *(f"- {it.sentence}{also(it, where, heads, link)}" for it in promises), "")
    yield from (*(f"[{number}]: {path}" for path, number in links.items() if number > before), "")


def promises_page(root, read_crates):
    """The page of the promises: its introduction by hand, and behind it all that is made."""
    page, links = read(f"{root}/docs/frames/promises.md"), {}
    for name, crate in read_crates.items():
        if crate.promises:
            page += [f"## {name}", "", *promises_of(name, crate, root, links)]
    return "\n".join(page)


def definitions(root):
    """The paragraphs that tell definitions, each with its file and the line where its comment begins."""
    for crate in crates(root):
        for path in [*(f"specs/{it}" for it in files(f"{root}/crates/{crate}/specs", ".antt")), *(f"src/{it}" for it in files(f"{root}/crates/{crate}/src", ".rt"))]:
            mark, begin = "///" if path.endswith(".rt") else "--", None
            lines = [it.strip() for it in read(f"{root}/crates/{crate}/{path}")] + [""]
            for number, line in enumerate(lines):
                is_comment = line.startswith(mark)
                if is_comment and begin is None:
                    begin = number
                elif not is_comment and begin is not None:
                    for sentence, cell in paragraphs([it[len(mark) :].strip() for it in lines[begin:number]]):
                        if sentence.startswith("**") and not cell:
                            yield f"crates/{crate}/{path}", begin + 1, sentence
                    begin = None


# The pages that are made of crates.txt.

BEGIN, END = "<!-- made of crates.txt by make docs -->", "<!-- to here -->"
README = """# The crates

`make docs` makes this page of [crates.txt](../crates.txt), which names them in the order in which they can be proved. What a crate stands on is named without what that stands on in turn. [ARCHITECTURE](../docs/ARCHITECTURE.md) tells how they fit together, [PROMISES](../docs/PROMISES.md) what is proved of each.
"""


def direct(known, name):
    """The crates that a crate stands on and that no other of these stands on."""
    named = [it for it in known[name] if it in known]
    under = {each for it in named for each in below(known, it) if each != it}
    return [it for it in named if it not in under]


def from_above(text):
    """The layers from above: first those of code, behind them the laws, and then the tests."""
    found = layers(text)
    lasts = [it for it in found if it and it.startswith(("Laws", "Tests"))]
    return {it: found[it] for it in [*(it for it in reversed(found) if it not in lasts), *lasts]}


def crates_page(root):
    known, page = listed(text_of(root)), [README]
    for layer, them in from_above(text_of(root)).items():
        page += [f"## {layer}", "", "| Crate | What it is | Stands on |", "|---|---|---|"]
        page += [f"| [{it}]({it}) | {told} | {', '.join(direct(known, it))} |" for it, told in reversed(them.items())]
        page.append("")
    return "\n".join(page)


def layers_table(root):
    anchor = lambda layer: layer.lower().replace(" ", "-")
    rows = [f"| [{layer}](../crates/README.md#{anchor(layer)}) | {', '.join(f'`{it}`' for it in reversed(them))} |" for layer, them in from_above(text_of(root)).items()]
    return "\n".join([BEGIN, "", "| Layer | Crates |", "|---|---|", *rows, "", END])


def architecture_page(root):
    """docs/ARCHITECTURE.md with its table made anew, or none where it has no place for it."""
    page = "\n".join(read(f"{root}/docs/ARCHITECTURE.md"))
    before, begun, rest = page.partition(BEGIN)
    _, ended, behind = rest.partition(END)
    return before + layers_table(root) + behind if begun and ended else None


def pages(root, read_crates):
    """The pages that are made, by their paths, and what has no place on them."""
    lost = [f"crates.txt: {it} stands in no layer, or has no line behind a #" for it in without_line(text_of(root))]
    lost += [f"crates.txt: the crate {it} is not there" for it in crates(root) if not os.path.isdir(f"{root}/crates/{it}")]
    made = {"docs/PROMISES.md": promises_page(root, read_crates), "crates/README.md": crates_page(root), "docs/ARCHITECTURE.md": architecture_page(root)}
    lost += [f"{path}: it has no place for what is made of crates.txt" for path, text in made.items() if text is None]
    return {path: text for path, text in made.items() if text is not None}, lost
