"""What the prover says of a check, and what that says of an edit."""
import re
from dataclasses import dataclass

from parse import functions

NOTE = re.compile(r"^(?:note: )?(?:\./)?(src/\S+?):(\d+):\d+: (?:error: )?(.*)")
TOLD = re.compile(r"^(?:fn|impl|struct|enum|const|trait) (\S+): (.*)")
# what is said of a goal, and what a tactic within a function's proof says of one that it was given
GOAL = "it is not proved"
FOUND_NONE = re.compile(r"`search`: no proof of|`omega`: the goal does not follow|`grind`: no proof of")
PROOF_ERROR = re.compile(r"^(?:\./)?((?:proofs|specs)/\S+?):\d+:\d+: (?!warning:)(?:error: )?(.*)")
# in an Answers.antt: where a term has another type than it must, what ends one that no bracket ends, and the rules of `search`
UNFIT = re.compile(r"^(?:\./)?(proofs/\S+?):(\d+):(\d+): error: `[^`]+`: (?:.*\btwo (?:types|sides)\b|expected type `)")
BEHIND = re.compile(r"\s+in\s|\n\s*\||\n(?=\S)")
RULES = re.compile(r"^use Rattle\.std\.proofs\.Common\.\{[^}]*\brules\b", re.M)
LOST_NAME = re.compile(r"has no field|is not in scope|has no `|is no name|cannot stand|expected the end")


@dataclass
class Said:
    """What a check wrote, with which status, and the texts that it read in place of the crate's own."""

    status: int
    lines: list
    texts: dict

    def __post_init__(self):
        # what stands between two lines of functions belongs to the second
        self.told, self.notes, waiting = {}, [], []
        for line in self.lines:
            if note := NOTE.match(line):
                waiting.append((note[1], int(note[2]), note[3]))
            elif told := TOLD.match(line):
                self.told[told[1]] = told[2]
                self.notes += [(*it, told[1]) for it in waiting]
                waiting = []
        self.notes += [(*it, "") for it in waiting]
        self.is_proved = self.status == 0 and any(it.startswith("logic=proved") for it in self.lines)
        self.is_judged = self.is_proved or any(it.startswith("logic=not-proved") for it in self.lines)

    def goal_of(self, edit):
        """A goal of its function that is not proved, a false one first; and what of its crate it calls that is not proved."""
        file, at = edit.place
        first, _, last = functions(self.texts[file])[at]
        goals = [it[2] for it in self.notes if it[0] == file and first <= it[1] <= last and GOAL in it[2]]
        if goals:
            return next((it for it in goals if "this goal is false" in it), goals[0]), frozenset()
        calls = [told for at, told in self.told.items() if "it calls" in told and edit.called in at.split("::")]
        return "", frozenset(re.findall(r"`([\w:]+)`", " ".join(calls)))

    def own_goal(self, edit):
        """A goal of its function that a tactic in the function's proof was to prove, and did not."""
        found = [PROOF_ERROR.match(it) for it in self.lines]
        return next((it[2] for it in found if it and f"/{edit.called}/Answers.antt" in it[1] and FOUND_NONE.search(it[2])), "")

    def unfit(self, edit):
        """Where an answer of its function has another type than it must have: file, line and column."""
        found = [UNFIT.match(it) for it in self.lines]
        return next(((it[1], int(it[2]), int(it[3])) for it in found if it and f"/{edit.called}/Answers.antt" in it[1]), None)

    def other_goal(self):
        return next((f"{name or file}: {text}" for file, _, text, name in self.notes if GOAL in text), "")

    def refused_law(self, laws):
        """A law that is not proved any more, with what its proof lacks, where no text of a proof has only lost a name."""
        name = next((it for it, told in self.told.items() if ("no proof" in told or "not proved" in told) and it.split("::")[-1] in laws), "")
        found = [PROOF_ERROR.match(it) for it in self.lines]
        errors = [it[2] for it in found if it and "depend" not in it[2] and "note:" not in it[0]] or [it[2] for it in self.notes if it[3] == name and GOAL in it[2]]
        return f"{name}: {errors[0]}" if name and errors and not any(LOST_NAME.search(it) for it in errors) else ""

    def first_error(self):
        return next((it for it in self.lines if PROOF_ERROR.match(it) and ": note:" not in it), "") or next((it for it in self.lines if "error" in it or "no proof" in it), self.lines[0])


def asked(text, line, column):
    """The text of an Answers.antt in which the term that begins at that place, an argument or any other, is a fact that `search`
    is given, and no proof by itself, so that the goal is what is asked for."""
    start = end = sum(len(it) + 1 for it in text.split("\n")[: line - 1]) + column - 1
    before, depth, common = text[:start].rstrip(), 0, "use Rattle.std.proofs.Common.{"
    is_argument = before[-1] not in "([{=∙,;↦." and not before.endswith(" in") and text[start - 1].isspace()
    ends = lambda at: text[at] in ")]};,∙" or is_argument and text[at].isspace() or BEHIND.match(text, at)
    while end < len(text) and (depth or not ends(end)):
        depth += (text[end] in "([{") - (text[end] in ")]}")
        end += 1
    made = f"{text[:start]}(let it = {text[start:end].rstrip()} in search rules){text[end:]}"
    return made if RULES.search(made) else made.replace(common, f"{common}rules, ", 1) if common in made else f"{common}rules}}\n{made}"
