"""Libraries proved and built side by side. rt keeps all crates below the one that it builds to itself, so each lane works in a
copy of the sources of its own; what one lane has built the others take, since rt shares its work among copies on one machine."""
import os
import shutil
import subprocess
import tempfile
import threading
import time

from crates import PARTS, ROOT, below


def linked(source, to):
    try:
        os.link(source, to)
    except OSError:
        shutil.copyfile(source, to)


def copied(known, top):
    """A copy of all that crates are made of: links, where the disk is the same, as rt changes no source."""
    os.makedirs(f"{top}/crates")
    for name in ("crates.txt", "HANDLES"):
        linked(f"{ROOT}/{name}", f"{top}/{name}")
    for name in known:
        for part in PARTS:
            if os.path.isdir(f"{ROOT}/crates/{name}/{part}"):
                shutil.copytree(f"{ROOT}/crates/{name}/{part}", f"{top}/crates/{name}/{part}", copy_function=linked)


def sizes(known, names):
    """The bytes of what each crate is made of: about what its proofs cost."""
    found = {}
    for name in names:
        files = [f"{at}/{it}" for part in PARTS for at, _, them in os.walk(f"{ROOT}/crates/{name}/{part}") for it in them]
        found[name] = sum(os.stat(it).st_size for it in files)
    return found


def behind(known, names):
    """For each crate its size with the longest chain of those that stand on it."""
    found = sizes(known, names)
    for name in reversed(names):
        found[name] += max([found[it] for it in names if name in known[it]], default=0)
    return found


class Lanes:
    """As many lanes as there are processors. `names` are the crates, the lowest first, with all that they stand on."""

    def __init__(self, known, names, say):
        self.known, self.names, self.say = known, names, say
        self.below = {it: {each for each in below(known, it) if each != it} for it in names}
        self.behind, self.count = behind(known, names), len(os.sched_getaffinity(0))
        self.done, self.running, self.failed = set(), {}, []
        self.turn, self.began, self.folder = threading.Condition(), time.time(), tempfile.mkdtemp(prefix="jufteard-")

    def __enter__(self):
        for lane in range(self.count):
            copied(self.known, f"{self.folder}/{lane}")
        return self

    def __exit__(self, *_):
        for ran in self.running.values():
            ran.kill()
        shutil.rmtree(self.folder, ignore_errors=True)

    def next_one(self):
        """A crate all of whose libraries are built, that with the most behind it, and how many jobs it may use; none at the end."""
        while not self.failed:
            left = [it for it in self.names if it not in self.done and it not in self.running]
            ready = [it for it in left if self.below[it] <= self.done]
            if ready:
                jobs = max(1, self.count // (len(self.running) + len(ready)))
                return max(ready, key=self.behind.get), jobs
            if not left:
                return None
            self.turn.wait()
        return None

    def work(self, lane):
        while True:
            with self.turn:
                found = self.next_one()
                if not found:
                    return
                name, jobs = found
                words = {"cwd": f"{self.folder}/{lane}/crates/{name}", "stdin": subprocess.DEVNULL, "stderr": subprocess.STDOUT}
                ran = subprocess.Popen(["rt", "lib", "--jobs", str(jobs)], stdout=subprocess.PIPE, text=True, errors="replace", **words)
                self.running[name] = ran
            said = ran.communicate()[0]
            with self.turn:
                del self.running[name]
                if ran.returncode and not self.failed:
                    self.failed.append(name)
                    self.say(f"{said}{name} is not proved")
                if not ran.returncode:
                    self.done.add(name)
                self.turn.notify_all()

    def run(self):
        """Builds all, and says whether that went well; every minute it says how far it is."""
        threads = [threading.Thread(target=self.work, args=(lane,), daemon=True) for lane in range(self.count)]
        for it in threads:
            it.start()
        told = time.time()
        while any(it.is_alive() for it in threads) and not self.failed:
            time.sleep(0.2)
            if time.time() - told >= 60:
                told = time.time()
                self.tell()
        return not self.failed

    def tell(self):
        seconds = int(time.time() - self.began)
        self.say(f"{seconds // 60}:{seconds % 60:02} so far, {len(self.done)} of {len(self.names)} libraries done; now {', '.join(sorted(self.running))}")
