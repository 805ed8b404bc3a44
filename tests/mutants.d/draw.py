"""Which edits the gate tries: of what has changed since all of a crate were tried, and a twentieth of all others. On which commit all
of a crate were tried last stands in the file `tried` beside this one, a line for each crate; where that commit is not in the
repository, or a crate has no line, all edits of the crate count as changed, behind those of which that is known."""
import functools
import hashlib
import os
import re
import subprocess

from parse import ROOT, functions, read

TRIED, MOST, SHARE = f"{ROOT}/tests/mutants.d/tried", 120, 20
EVERY_LINE = set(range(10**5))
HUNK = re.compile(r"^@@ \S+ \+(\d+)(?:,(\d+))? @@")
NO_TEXT = re.compile(r"^[+-]\s*((//|--).*)?$")


def git(*words):
    return subprocess.run(["git", "-C", ROOT, *words], capture_output=True, text=True, check=False).stdout


def tried():
    """Of each crate the commit on which all of its edits were tried last."""
    return dict(it.split() for it in read(TRIED).split("\n") if it.strip()) if os.path.isfile(TRIED) else {}


@functools.cache
def is_there(base):
    """Whether a commit is in the repository."""
    return bool(base) and git("cat-file", "-t", base).strip() == "commit"


@functools.cache
def changed_since(base):
    """The files below crates/ that changed since a commit, each with the lines of now that did, comments apart; all files, where the
    commit is not there."""
    found, path = {}, ""
    if not is_there(base):
        return {it: EVERY_LINE for it in git("ls-files", "-co", "--exclude-standard", "crates").split()}
    for line in git("diff", "-U0", "-M", "--no-color", base, "--", "crates").split("\n"):
        if hunk := HUNK.match(line):
            lines = range(int(hunk[1]), int(hunk[1]) + max(1, int(hunk[2] or 1)))
        elif line.startswith(("+++ ", "--- ")):
            path = line[6:] if line.startswith("+++ b/") else path
        elif line.startswith(("+", "-")) and not NO_TEXT.match(line):
            found.setdefault(path, set()).update(lines)
    return found | {path: EVERY_LINE for path in git("ls-files", "-o", "--exclude-standard", "crates").split()}


def around(text, line):
    """The lines of the function that a line stands in, or else of what stands between two blank lines."""
    inside = [range(first, last + 1) for first, _, last in functions(text) if first <= line <= last]
    blank = [0, *(at for at, it in enumerate(text.split("\n"), 1) if not it.strip()), 10**5]
    return inside[-1] if inside else range(max(it for it in blank if it < line) + 1, min(it for it in blank if it > line))


def is_touched(edit, changed):
    """Whether an edit, what it changes, or the proof of that function is among what changed."""
    at = f"crates/{edit.crate}/"
    proofs = edit.called and any(it.startswith(f"{at}proofs/") and f"/{edit.called}/" in it for it in changed)
    meets = (changed[at + file] & {*around(read(f"{ROOT}/{at}{file}"), line)} for file, line in edit.lines if at + file in changed)
    return proofs or edit.path in changed or any(meets)


def drawn(edits):
    """The edits that the gate tries, at most MOST: new ones, those that a change touches, and how many these are; then of the others
    one in SHARE by the commit's hash, by crates, since the edits of a crate share its checks."""
    commit, bases = git("rev-parse", "HEAD"), tried()
    changed, place = lambda it: changed_since(bases.get(it.crate, "")), lambda text: hashlib.sha256((commit + text).encode()).hexdigest()
    by_crate = sorted(edits, key=lambda it: (place(it.crate), place(it.name)))
    rank = lambda it: (not is_there(bases.get(it.crate, "")), it.path not in changed(it))
    touched = sorted((it for it in by_crate if is_touched(it, changed(it))), key=rank)[:MOST]
    rest = [it for it in by_crate if it not in touched]
    return touched + rest[: min(MOST - len(touched), -(-len(rest) // SHARE))], len(touched)
