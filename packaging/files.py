"""What is installed, and under which names: for packaging/install, which lays it into a prefix, and packaging/pack, which packs it.

In a Debian package scanimage and saned are called jufteard-scanimage and jufteard-saned, as SANE has programs of their names; its
pages, README, unit and examples say so.
"""
import fnmatch
import os
import re
import subprocess
import sys

sys.dont_write_bytecode = True
ROOT = os.path.dirname(os.path.dirname(os.path.abspath(__file__)))
sys.path.insert(0, f"{ROOT}/tests")

from crates import program  # noqa: E402

PROGRAMS, COMMANDS = ("scanimage", "saned"), ("jufteard-run", "jufteard-why")
PAGES = {"scanimage": 1, "saned": 8, "jufteard-run": 1, "jufteard-why": 1}
# Where the parts lie below a prefix, what stands before the names of programs, and where a reader finds what is to be copied.
PREFIX = {"bin": "bin", "links": None, "man": "share/man", "bash": "share/bash-completion/completions", "zsh": "share/zsh/site-functions", "share": "share/jufteard", "unit": "share/jufteard/examples", "before": ""}
DEB = {"bin": "usr/lib/jufteard/bin", "links": "usr/bin", "man": "usr/share/man", "bash": "usr/share/bash-completion/completions", "zsh": "usr/share/zsh/vendor-completions", "share": "usr/share/jufteard", "unit": "usr/lib/systemd/system", "before": "jufteard-"}


def said_by(*words):
    return subprocess.run(words, cwd=ROOT, capture_output=True, text=True, check=True).stdout.strip()


def version():
    with open(f"{ROOT}/VERSION", encoding="ascii") as file:
        return file.read().strip()


def read(path):
    with open(f"{ROOT}/{path}", "rb") as file:
        return file.read()


def tracked(*paths):
    """The files of the checkout below these paths; where it is no repository, all that lie there."""
    try:
        # root may install from another user's checkout
        ran = subprocess.run(["git", "-c", "safe.directory=*", "ls-files", *paths], cwd=ROOT, capture_output=True, text=True, check=False)
        found = ran.stdout.split("\n") if ran.returncode == 0 else []
    except FileNotFoundError:
        found = []
    if not any(found):
        found = [os.path.relpath(f"{at}/{it}", ROOT) for path in paths for at, _, names in os.walk(f"{ROOT}/{path}") for it in sorted(names) if not is_ignored(at, it)]
    return [it for it in found if it and not os.path.basename(it).startswith(".")]


def is_ignored(folder, name):
    """Whether the folder's .gitignore names the file."""
    try:
        with open(f"{folder}/.gitignore", encoding="utf-8") as file:
            return any(fnmatch.fnmatch(name, it) for it in file.read().split())
    except FileNotFoundError:
        return False


# The names of the package.


def commands_renamed(text, before):
    """Lines of commands in which our programs have the package's names; SANE's own are named by their paths."""
    return re.sub(r"(?<![\w./-])(scanimage|saned)(?= (?:\\?-|\\f|[|>&]|HOST)| *\\?\\e?$| )", rf"{before}\1", text, flags=re.MULTILINE) if before else text


def page(name, before, runs, share):
    """A manual page that knows where its examples are; where the programs have other names, in these: its title, its commands, and what
    it refers to."""
    text = read(f"docs/{name}.{PAGES[name]}").decode().replace("/usr/local/bin/saned", f"{runs}/saned")
    text = text.replace("examples/hills.ppm\nof the sources is", f"{share}/examples/hills.ppm\nis").replace("cp examples/", f"cp {share}/examples/")
    if not before:
        return text
    called = before.replace("-", r"\-")
    if name in PROGRAMS:
        text = text.replace(f".TH {name.upper()} ", f".TH {called.upper()}{name.upper()} ", 1).replace(f".SH NAME\n{name} ", f".SH NAME\n{called}{name} ", 1)
    head, mark, rest = text.partition(".SH DESCRIPTION\n")
    head = re.sub(r"^\.B (scanimage|saned)$", rf".B {called}\1", head, flags=re.MULTILINE)
    head = head.replace("why scanimage or saned", f"why {called}scanimage or {called}saned")
    head = head.replace(".BR scanimage | saned", f".BR {called}scanimage | {called}saned")
    text = head + mark + rest
    text = re.sub(r"^(\.(?:BR|RB) (?:\( )?)(scanimage|saned) \((\d)\)", rf"\1{called}\2 (\3)", text, flags=re.MULTILINE)
    text = re.sub(r"^\.EX\n.*?^\.EE$", lambda it: commands_renamed(it[0], called), text, flags=re.MULTILINE | re.DOTALL)
    text = text.replace("our own scanimage", f"{called}scanimage").replace("saned.service", f"{before}saned.service")
    return text.replace("of the sources", "of this package").replace("docs/INTERWORKING.md", "/usr/share/doc/jufteard/INTERWORKING.md")


def unit(at, runs):
    """The unit for systemd, with the program's path and, where it lies among the system's own, what is still to be done."""
    text = read("examples/saned.service").decode().replace("/usr/local/bin/saned", f"{runs}/saned")
    if at["before"]:
        head, mark, rest = text.partition("[Unit]\n")
        text = read("packaging/unit.head").decode() + mark + rest.replace("man:saned(8)", f"man:{at['before']}saned(8)")
    return text


def interworking(before, share):
    """docs/INTERWORKING.md without its pictures and without links to documents that are not packed."""
    text = read("docs/INTERWORKING.md").decode().replace("    cd examples\n", f"    cp {share}/examples/* .\n")
    text = re.sub(r"^!\[.*\]\(.*\)\n\n", "", text, flags=re.MULTILINE)
    text = re.sub(r"\[([^]]*)\]\((?!#|[a-z]+:)[^)]*\)", r"\1", text)
    text = re.sub(r"^The picture is the screen .*\n\n", "", text, flags=re.MULTILINE)
    if not before:
        return text
    text = re.sub(r"(?:^    .*\n)+", lambda it: commands_renamed(it[0], before), text, flags=re.MULTILINE)
    text = re.sub(r"(?<!SANE's )(?<!SANE's own )`[^`\n]+`(?! of SANE)", lambda it: commands_renamed(it[0], before), text)
    first, rest = text.split("\n\n", 1)
    return f"{first}\n\nIn this package our `scanimage` and `saned` are called `{before}scanimage` and `{before}saned`.\n\n{rest}"


def readme(at, share, doc):
    words = {"version": version(), "before": at["before"], "share": share, "doc": doc, "path": "" if at["before"] else "    export PATH=$PWD/bin:$PATH\n"}
    return read("packaging/README").decode().format(**words)


def parts(at, runs, share, python=None):
    """Each file that is installed: its path below the top, its bytes, its mode."""
    for name in PROGRAMS:
        yield f"{at['bin']}/{name}", read(os.path.relpath(program(name), ROOT)), 0o755
    for name in COMMANDS:
        text = read(f"commands/{name}")
        yield f"{at['links'] or at['bin']}/{name}", text.replace(b"#!/usr/bin/env python3", b"#!" + python.encode(), 1) if python else text, 0o755
    for name, section in PAGES.items():
        called = f"{at['before']}{name}" if name in PROGRAMS else name
        yield f"{at['man']}/man{section}/{called}.{section}", page(name, at["before"], runs, share).encode(), 0o644
    names = [f"{at['before']}{it}" for it in PROGRAMS] + list(COMMANDS)
    for name in names:
        yield f"{at['bash']}/{name}", read("commands/completion/jufteard.bash"), 0o644
    yield f"{at['zsh']}/_jufteard", f"#compdef {' '.join(names)}\n".encode() + read("commands/completion/_jufteard").split(b"\n", 1)[1], 0o644
    for name in ("dll.conf", "net.conf"):
        yield f"{at['share']}/sane.d/{name}", read(f"commands/sane.d/{name}"), 0o644
    for path in tracked("examples"):
        if not path.endswith(".service"):
            yield f"{at['share']}/{path}", read(path), 0o755 if os.access(f"{ROOT}/{path}", os.X_OK) else 0o644
    yield f"{at['unit']}/{at['before']}saned.service", unit(at, runs).encode(), 0o644


def put(text, path, mode=0o644):
    """A file of these bytes, in place of one that was there, which whoever runs it keeps."""
    os.makedirs(os.path.dirname(path), exist_ok=True)
    with open(f"{path}.new", "wb") as out:
        out.write(text if isinstance(text, bytes) else text.encode())
    os.chmod(f"{path}.new", mode)
    os.replace(f"{path}.new", path)
