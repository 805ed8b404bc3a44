"""The crates as crates.txt has them, for the scripts that go over them: what stands on what, and which files a program is
made of."""
import os

ROOT = os.path.dirname(os.path.dirname(os.path.abspath(__file__)))
PARTS = ("src", "specs", "proofs")


def listed(text):
    """The crates of the text of a crates.txt, each with the libraries that its line names, in the order of the lines."""
    found = {}
    for line in text.splitlines():
        head, colon, below = line.split("#")[0].partition(":")
        if colon:
            found[head.split()[0]] = below.split()
    return found


def layers(text):
    """The layers of the text of a crates.txt, the lowest first, each with its crates and what the line of each says of it. A layer
    begins with a line `# NAME` behind a blank one, and may come again."""
    found, layer, last = {}, None, "#"
    for line in text.splitlines():
        head, mark, told = line.partition("#")
        if not last.strip() and line.startswith("# "):
            layer = line[2:].strip()
        if ":" in head:
            found.setdefault(layer, {})[head.split(":")[0].split()[0]] = told.strip() if mark else ""
        last = line
    return found


def untold(text):
    """The crates of the text of a crates.txt that stand in no layer, or whose line says nothing of them."""
    return [name for layer, them in layers(text).items() for name, told in them.items() if not (layer and told)]


def text_of(root=ROOT):
    with open(f"{root}/crates.txt", encoding="utf-8") as file:
        return file.read()


def crates():
    return listed(text_of())


def below(known, name):
    """The crates that a crate stands on, the lowest first, with itself as the last; libraries of the kit are none of them."""
    found = []

    def visit(crate):
        if crate in known and crate not in found:
            for each in known[crate]:
                visit(each)
            found.append(crate)

    visit(name)
    return found


def above(known, name):
    """The crates that stand on a crate, the lowest first."""
    found = []
    for each in known:
        found += [it for it in below(known, each) if it not in found and it != name and name in below(known, it)]
    return found


def newest(names):
    """When the newest of all that these crates are made of was last changed: files, and folders, since one that lost a file is
    newer too."""
    times = [os.stat(f"{ROOT}/{it}").st_mtime for it in ("crates.txt", "HANDLES")]
    for name in names:
        for part in PARTS:
            for at, _, files in os.walk(f"{ROOT}/crates/{name}/{part}"):
                times += [os.lstat(it).st_mtime for it in [at, *(f"{at}/{file}" for file in files)]]
    return max(times)


def program(name):
    return f"{ROOT}/crates/{name}/out/{name}"


def is_up_to_date(known, name):
    """Whether a program is there and newer than all that it is made of."""
    try:
        return os.access(program(name), os.X_OK) and os.stat(program(name)).st_mtime > newest(below(known, name))
    except FileNotFoundError:
        return False
