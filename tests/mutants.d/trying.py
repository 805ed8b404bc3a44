"""Tries edits on copies of a crate, many in one check, each over what a check of the crate as it stands proved."""
import functools
import os
import re
import shutil
import subprocess
import tempfile
import threading
import time
from concurrent.futures import ThreadPoolExecutor
from contextlib import ExitStack, nullcontext

from crates import below, crates
from judge import Said, asked
from parse import FUNCTION, ROOT, functions, read

KIT = functools.cache(lambda: os.path.dirname(subprocess.run(["rt", "doc"], capture_output=True, text=True, check=True).stdout.strip()))
CALL = re.compile(r"\s*(?:\w+::)*\w+\(\);$")
# what an edit comes to: a goal, or of a statement a law, refuses it; only code does; only a proof's text; nothing; it is no edit
GOAL, LAW, CODE, TEXT, NOT, BAD, LEFT = "by a goal", "by a law", "by code alone", "by a text alone", "not refused", "no edit", "left, for time"
# held by a check that runs alone while it waits for every lane, so that two of them do not wait for each other
EVERY_LANE = threading.Lock()


def rattle(crate, folder, kept, jobs):
    """The command that checks a crate whose files are in a folder, over the libraries that stand in the checkout."""
    known, kit = crates(), KIT()
    rlib = lambda name: f"{ROOT}/crates/{name}/out/rlib/{name}.rlib" if name in known else f"{kit}/rlibs/{name}.rlib"
    words = [f"{kit}/bin/rattle", "check", "--crate-name", crate, "src/main.rt" if os.path.isfile(f"{folder}/src/main.rt") else "src/lib.rt"]
    words += [it for name in ["std", *known[crate]] for it in ("--extern", f"{name}={rlib(name)}")]
    words += [it for at in [f"{kit}/rlibs/", *map(rlib, below(known, crate)[:-1])] for it in ("-L", f"dependency={os.path.dirname(at)}")]
    words += ["--antt-project", f"{kit}/rattle/logic/antt-project.json", "--logic-built", f"{kit}/logic_built"]
    return [*words, "--links", f"{crate}=", "--incremental", kept, "--jobs", str(jobs)]


def link(one, other):
    """A check replaces such a file and never writes into it."""
    return os.link(one, other) if one.endswith(".oantt") else shutil.copy2(one, other)


def adopt(crate, lanes, jobs):
    """Where the gate took a crate's proof from an earlier run, its own folder has none: `rt check` adopts what the machine keeps."""
    with lanes:
        words = {"cwd": f"{ROOT}/crates/{crate}", "env": os.environ | {"RT_JOBS": str(jobs)}}
        subprocess.run(["rt", "check"], stdin=subprocess.DEVNULL, stdout=subprocess.DEVNULL, stderr=subprocess.DEVNULL, check=False, **words)


def laws_of(crate):
    """The functions of a crate whose bodies are empty, or only call other laws, on which they rest."""
    texts = [read(f"{at}/{it}").split("\n") for at, _, names in os.walk(f"{ROOT}/crates/{crate}/src") for it in names if it.endswith(".rt")]
    return {
        FUNCTION.match(lines[first - 1])[2]
        for lines in texts
        for first, body, last in functions("\n".join(lines))
        if all(CALL.match(it) for it in lines[body : last - 1])
    }


class Bench:
    """A crate that stands proved, and copies of it in which edits are tried, so many at a time as there are lanes."""

    def __init__(self, crate, at, lanes, count, jobs, until):
        self.crate, self.at, self.lanes, self.count, self.laws, self.seed, self.until = crate, at, lanes, count, laws_of(crate), f"{at}/seed", until
        started = f"{ROOT}/crates/{crate}/out/incremental"
        if not os.path.isdir(started):
            adopt(crate, lanes, jobs)
        shutil.copytree(started, self.seed, copy_function=link) if os.path.isdir(started) else os.makedirs(self.seed)
        self.said = self.ran({}, self.seed, jobs)
        self.said = self.said if self.said.is_judged else self.ran({}, self.seed, jobs, alone=True)

    def ran(self, texts, kept, jobs=1, alone=False):
        """A check of the crate with other texts of some files, beside others or, where memory may have been short, alone."""
        with EVERY_LANE if alone else nullcontext(), ExitStack() as held, tempfile.TemporaryDirectory(dir=self.at) as room:
            for _ in range(self.count if alone else 1):
                held.enter_context(self.lanes)
            for part in (it for it in ("src", "specs", "proofs") if os.path.isdir(f"{ROOT}/crates/{self.crate}/{it}")):
                shutil.copytree(f"{ROOT}/crates/{self.crate}/{part}", f"{room}/{part}")
            for file, text in texts.items():
                with open(f"{room}/{file}", "w", encoding="utf-8") as out:
                    out.write(text)
            ran = subprocess.run(rattle(self.crate, room, kept, jobs), cwd=room, stdin=subprocess.DEVNULL, stdout=subprocess.PIPE, stderr=subprocess.STDOUT, errors="replace", check=False)
        return Said(ran.returncode, ran.stdout.split("\n"), texts)

    def check(self, edits, other=None, alone=False):
        """What a check says of the crate with these edits, and with other texts of some files."""
        texts = dict(other or {})
        for file, old, new in (pair for edit in edits for pair in edit.pairs):
            text = texts.get(file) or read(f"{ROOT}/crates/{self.crate}/{file}")
            if text.count(old) != 1:
                return Said(1, [f"error: an 'old:' text stands {text.count(old)} times in {file} beside other edits"], {})
            texts[file] = text.replace(old, new)
        with tempfile.TemporaryDirectory(dir=self.at) as room:
            shutil.copytree(self.seed, f"{room}/kept", copy_function=link)
            return self.ran(texts, f"{room}/kept", alone=alone)


def asked_again(bench, edit, said):
    """Where an answer of its function has only another type than it must have: with that answer given to `search` as a fact the
    crate must be proved without the edit, and then the goal must not be proved with it."""
    texts = {}
    for _ in range(3):
        file, *place = said.unfit(edit) or [""]
        texts[file] = file and asked(texts.get(file) or read(f"{ROOT}/crates/{bench.crate}/{file}"), *place)
        if not file or not bench.check([], texts).is_proved:
            return ""
        said = bench.check([edit], texts)
        if said.is_proved or said.own_goal(edit):
            return said.own_goal(edit)
    return ""


def alone(bench, edit):
    """What an edit comes to in a check of its own; a right body is to be proved."""
    if time.time() > bench.until:
        return LEFT, ""
    said = bench.check([edit])
    said = said if said.is_judged else bench.check([edit], alone=True)
    if said.is_proved or edit.is_right:
        return (GOAL if said.is_proved and edit.is_right else NOT), "it is proved" if said.is_proved else said.first_error()
    if not said.is_judged:
        return BAD, "it did not reach the prover: " + said.first_error()
    law, goal = not edit.is_body and said.refused_law(bench.laws), said.other_goal()
    if edit.is_body and edit.place:
        goal = said.goal_of(edit)[0] or said.own_goal(edit) or asked_again(bench, edit, said) or goal
    return (LAW, law) if law else (GOAL if edit.is_body else CODE, goal) if goal else (TEXT, said.first_error())


def batch_of(waiting):
    """The next edits to try together: one of each function, and none of a function that an earlier check named in its way."""
    taken, places, shunned = [], set(), set()
    for edit in sorted(waiting, key=lambda it: not it.calls):
        names = {it.split("::")[-1] for it in edit.calls}
        if edit.place not in places and edit.called not in shunned and not names & {it.called for it in taken}:
            taken.append(edit)
            places.add(edit.place)
            shunned |= names
    return taken


def try_together(bench, waiting):
    """Tries edits of bodies, at most one of each function in a check, until a check judges none more."""
    while len(batch := batch_of(waiting)) > 1 and time.time() < bench.until and (said := bench.check(batch)).is_judged:
        before = [it.calls for it in batch]
        for edit in batch:
            edit.note, calls = said.goal_of(edit)
            # what is told without a goal of its own is tried alone, unless another edit stood in its way
            edit.fate = GOAL if edit.note else "" if calls and not edit.calls else "alone"
            edit.calls = calls or edit.calls
        waiting = [it for it in waiting if not it.fate]
        if before == [it.calls for it in batch] and not any(it.fate == GOAL for it in batch):
            return


def try_crate(crate, edits, lanes, count, jobs, until):
    """Tries these edits of a crate, begun until then; why it could not, where it is not proved without any."""
    if time.time() > until:
        for edit in edits:
            edit.fate, edit.note = LEFT, ""
        return ""
    with tempfile.TemporaryDirectory(prefix="mutants-") as at, ThreadPoolExecutor(max(1, len(edits))) as pool:
        bench = Bench(crate, at, lanes, count, jobs, until)
        if not bench.said.is_proved:
            return f"{crate}: it is not proved without any edit: {bench.said.first_error()[:300]}"
        together = [it for it in edits if it.is_body and it.place and not it.is_right]
        runs = {it: pool.submit(alone, bench, it) for it in edits if it not in together}
        try_together(bench, together)
        runs |= {it: pool.submit(alone, bench, it) for it in together if it.fate != GOAL}
        for edit, told in runs.items():
            edit.fate, edit.note = told.result()
    return ""
