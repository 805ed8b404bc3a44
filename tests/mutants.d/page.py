"""What all edits of crates came to: the page that is printed or written where it is asked for, by crate and by name those that count
for nothing; and in the file `tried` the commit of each crate."""
import collections
import os
import re
import subprocess
import threading
import time

from draw import TRIED, git, tried
from parse import read
from trying import BAD, CODE, GOAL, LAW, NOT, TEXT

FATES = (GOAL, LAW, CODE, TEXT, NOT, BAD)
HEAD = """# Mutants

An edit is a small change that the prover must refuse: of a body, or of a statement (a definition, a clause, a law). One of a body counts where a goal of its function is not proved, one of a statement where a law is not, a right body beside one where it is proved. What code alone refuses, or only a proof's text that no longer fits, counts for nothing, and is named below. How it is done stands in docs/TESTING.md.

| crate | kit | commit | date | tried | by a goal | by a law | by code alone | by a text alone | not refused | no edit |
|---|---|---|---|---|---|---|---|---|---|---|
"""
writing, whole = threading.Lock(), []


def row_of(crate, edits):
    """The row of a crate whose edits were all tried, and the lines on those that count for nothing."""
    kit = subprocess.run(["rt", "version"], capture_output=True, text=True, check=True).stdout.split()[0]
    counts = collections.Counter(it.fate for it in edits)
    row = [f"`{crate}`", kit, git("rev-parse", "--short=8", "HEAD").strip(), time.strftime("%B %-d, %Y"), len(edits), *(counts[it] for it in FATES)]
    lost = [f"- `{crate}`, {it.fate}: `{it.name.partition('/')[2]}`{' (right)' * it.is_right}" for it in edits if it.fate not in (GOAL, LAW)]
    return ["| " + " | ".join(map(str, row)) + " |", *lost]


def note(crate, edits):
    """Keeps what all edits of a crate came to for the page, and its commit in the file `tried`."""
    with writing:
        whole.extend(row_of(crate, edits))
        lines = tried() | {crate: git("rev-parse", "--short=8", "HEAD").strip()}
        with open(TRIED, "w", encoding="utf-8") as out:
            out.write("".join(f"{name} {commit}\n" for name, commit in sorted(lines.items())))


def page(path):
    """The page of the crates that were tried now, and of those that the page at a path has beside them."""
    lines = read(path).split("\n") if path and os.path.isfile(path) else []
    now = {it.split("`")[1] for it in whole}
    lines = [it for it in lines if re.match(r"(\| |- )`\w+`", it) and it.split("`")[1] not in now] + whole
    rows, names = sorted(it for it in lines if it.startswith("|")), sorted(it for it in lines if it.startswith("-"))
    sums = [sum(int(it.split("|")[at]) for it in rows) for at in range(5, 12)]
    return HEAD + "\n".join([*rows, f"| all | | | | {' | '.join(map(str, sums))} |", "", *names]) + "\n"


def give(path):
    """Prints the page, or writes it to a path; none where no crate was tried whole."""
    if whole and path:
        os.makedirs(os.path.dirname(os.path.abspath(path)), exist_ok=True)
        text = page(path)
        with open(path, "w", encoding="utf-8") as out:
            out.write(text)
    elif whole:
        print(page(path))
