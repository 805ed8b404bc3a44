"""The commands that documents show, for the tests that run them: all of a document in their order, in one shell that begins in one
folder, and all of them once more where they ended, as a reader has it who copies them from top to bottom."""
import contextlib
import os
import re
import shutil
import signal
import subprocess
import tempfile

LIMIT = 180
# What is not run: what takes long or installs, another machine, a window.
LEFT = re.compile(r"(?:\$ )?(?:make|ssh|man|sudo|tar|dpkg|systemctl)\b|.*\b(?:xsane|simple-scan)\b")
THEIRS = "/usr/bin/scanimage"
MARK = "@@"


class Block:
    """Some commands, and what they are to print, where that is told; where each may end with any status it says so."""

    def __init__(self, commands, told, may_fail=False):
        self.commands, self.told, self.may_fail = commands, told, may_fail


def whole(lines):
    """Lines joined to commands: one goes on behind a line that ends in a backslash, a pipe or an operator."""
    found, open_one = [], ""
    for line in lines:
        open_one += line
        if re.search(r"(?:\\|\||&&)$", line):
            open_one += "\n"
            continue
        found.append(open_one)
        open_one = ""
    return found


def of_markdown(text):
    """The indented blocks of a document; what they print are its lines that begin with '# '."""
    for block in re.findall(r"(?:^    .*\n)+", text, re.MULTILINE):
        lines = [line[4:] for line in block.splitlines()]
        yield Block(whole(it for it in lines if not it.startswith("# ")), [it[2:] for it in lines if it.startswith("# ")])


def of_page(text):
    """The blocks under EXAMPLES of a manual page. Where lines begin with '$ ' these are the commands, and the others what they print."""
    part = text.partition(".SH EXAMPLES\n")[2].partition("\n.SH ")[0]
    for block in re.findall(r"^\.EX\n(.*?)^\.EE$", part, re.MULTILINE | re.DOTALL):
        lines = re.sub(r"\\f[A-Z]|\\&", "", block).replace("\\-", "-").replace("\\e", "\\").splitlines()
        if any(line.startswith("$ ") for line in lines):
            yield Block([it[2:] for it in lines if it.startswith("$ ")], [it for it in lines if not it.startswith("$ ")], True)
        else:
            yield Block(whole(lines), None)


def without_left(blocks, has_theirs):
    """The blocks without what is not run here, and what that is."""
    left, kept = [], []
    for block in blocks:
        is_left = lambda it: bool(LEFT.match(it)) or (THEIRS in it and not has_theirs)
        left += [it.split("\n")[0] for it in block.commands if is_left(it)]
        commands = [it for it in block.commands if not is_left(it)]
        kept += [Block(commands, block.told, block.may_fail)] if commands else []
    return kept, left


def script(blocks, rounds):
    """All commands, so often, each followed by its status on a line of its own."""
    lines = []
    for turn in range(rounds):
        for number, block in enumerate(blocks):
            lines.append(f"echo {MARK}block {turn} {number}")
            for command in block.commands:
                lines += [command, f'echo "{MARK}status $?"']
        lines.append(f'echo "{MARK}folder $(pwd)"')
    return "\n".join(lines) + "\n"


def is_noise(line):
    """What a shell says of a daemon that the commands end."""
    return bool(re.search(r"\bTerminated\b", line))


def parsed(text):
    """What came: of each block its statuses and its lines; and in which folder each round ended."""
    came, folders, now = {}, [], None
    for line in text.splitlines():
        if line.startswith(f"{MARK}block "):
            now = came.setdefault(tuple(int(it) for it in line.split()[1:]), ([], []))
        elif line.startswith(f"{MARK}status "):
            now[0].append(int(line.split()[1]))
        elif line.startswith(f"{MARK}folder "):
            folders.append(line.split(" ", 1)[1])
        elif now and not is_noise(line):
            now[1].append(line)
    return came, folders


def ran(shell, text, here, told, user):
    """Runs a script of a shell: whether it ended in time, what it printed, and which processes it left."""
    with tempfile.TemporaryFile("w+", errors="replace") as out:
        running = subprocess.Popen([shell, "-c", text], cwd=here, env=told, stdin=subprocess.DEVNULL, stdout=out, stderr=subprocess.STDOUT, start_new_session=True, **user)
        try:
            running.wait(LIMIT)
            is_over = True
        except subprocess.TimeoutExpired:
            is_over = False
        left = [it for it in of_session(running.pid) if it != running.pid]
        with contextlib.suppress(ProcessLookupError):
            os.killpg(running.pid, signal.SIGKILL)
        running.wait()
        out.seek(0)
        return is_over, out.read(), left


def of_session(number):
    """The processes of a session that have not ended."""
    for name in filter(str.isdigit, os.listdir("/proc")):
        with contextlib.suppress(OSError, ValueError):
            with open(f"/proc/{name}/stat", encoding="utf-8", errors="replace") as file:
                stat = file.read().rpartition(")")[2].split()
            if int(stat[3]) == number and stat[0] != "Z":
                yield int(name)


def faults(about, blocks, shell, here, told, user=None, rounds=2):
    """Runs the blocks of a document, and tells what did not come as it must."""
    is_over, text, left = ran(shell, script(blocks, rounds), here, told, user or {})
    came, folders = parsed(text)
    if not is_over:
        yield f"{about}: no end in {LIMIT} s; the last lines: {text.splitlines()[-5:]}"
    for turn in range(rounds):
        for number, block in enumerate(blocks):
            statuses, lines = came.get((turn, number), ([], []))
            where = f"{about}, round {turn + 1}, {block.commands[min(len(statuses), len(block.commands) - 1)]!r}"
            if len(statuses) != len(block.commands):
                yield f"{where}: not reached, or no end; it printed {lines}"
                return
            bad = [(one, command) for one, command in zip(statuses, block.commands) if one and not block.may_fail]
            yield from (f"{about}, round {turn + 1}: status {one} of {command!r}; the block printed {lines}" for one, command in bad)
            if block.told is not None and lines != block.told:
                yield f"{about}, round {turn + 1}: {block.commands[0]!r} and what follows: wanted {block.told}, came {lines}"
    yield from (f"{about}: a round ends in {it}, where it began in {here}" for it in folders if os.path.realpath(it) != os.path.realpath(here))
    if left:
        yield f"{about}: it leaves {len(left)} processes behind"


def shells():
    """The shells that readers have, as far as they are here, and those that are not."""
    names = ("sh", "bash", "zsh")
    return [it for it in names if shutil.which(it)], [it for it in names if not shutil.which(it)]
