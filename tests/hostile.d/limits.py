"""Limits of descriptors and of address space, allocations that are refused, calls that are interrupted or move one byte,
and seeks that fail."""
import collections
import contextlib
import os
import re
import resource
import shutil
import subprocess
import tempfile

import wire
from world import LIMIT, MEMORY, Daemon, Ended, connected, ending, is_whole, page, read, scan
from worked import COLORS, CONFIG, DOT, HAND, LISTED, NINE, OPTIONS, SEVEN, THREE, TRAY, WINDOW

NO_MEMORY = b"saned: out of memory\n"
HERE = os.path.dirname(os.path.abspath(__file__))
FLATBED = f"flatbed 0 26 {page('P5 1 1 255', bytes([10]))}\n"


def limit(which, size):
    return lambda: resource.setrlimit(which, (size, size))


def files_of(folder):
    found = {}
    for name in sorted(os.listdir(folder)):
        if name.startswith("out"):
            with open(f"{folder}/{name}", "rb") as file:
                found[name] = file.read()
    return found


def descriptors(tally, scale):
    """So many descriptors and no more."""
    with tempfile.TemporaryDirectory() as folder, Daemon(FLATBED) as daemon:
        with open(f"{folder}/config", "w", encoding="ascii") as file:
            file.write(FLATBED)
        for most in range(4, 12):
            for words in (["--config", "config", *WINDOW, "-o", "out"], ["-d", "net:localhost:flatbed:0", "--port", str(daemon.port), *WINDOW, "-o", "out"]):
                ended = scan(words, cwd=folder, preexec_fn=limit(resource.RLIMIT_NOFILE, most))
                got = files_of(folder).get("out", b"")
                is_right = ended.is_named() and (got == DOT if ended.status == 0 else not is_whole(got))
                tally.saw("scanimage with so many descriptors", ended.what(), is_right, f"{most}: {words}")
                if os.path.exists(f"{folder}/out"):
                    os.remove(f"{folder}/out")
    for most in range(3, 16):
        with Daemon(FLATBED, preexec_fn=limit(resource.RLIMIT_NOFILE, most)) as daemon:
            with_descriptors(tally, daemon, most)


def with_descriptors(tally, daemon, most):
    """A crowd that comes and goes, and then a scan, which takes three descriptors: it waits where there are fewer."""
    fault = "saned with so many descriptors"
    if daemon.port is None:
        ended = ending(daemon.process)
        is_right = ended.is_named() and ended.status != 0 or ended.status == 127
        tally.saw(fault, "not started by the system" if ended.status == 127 else ended.what(), is_right, str(most))
        return
    spare = most - sum(int(it) < most for it in os.listdir(f"/proc/{daemon.process.pid}/fd"))
    crowd = [connected(daemon.port) for _ in range(20)]
    for each in crowd:
        each.close()
    ended = scan(["-d", "net:localhost:flatbed:0", "--port", str(daemon.port), *WINDOW], limit=LIMIT if spare > 2 else 2)
    told = {0: "its picture, once the crowd has gone", None: "the client waits, as there is no descriptor for it"}.get(ended.status, ended.what())
    is_right = ended.out == DOT if ended.status == 0 else spare < 3 and not is_whole(ended.out) and (ended.status is None or ended.is_named())
    tally.saw(fault, told, is_right and daemon.is_up(), f"{most}, {spare} to spare")


LOADER = re.compile(rb".*(error while loading shared libraries|cannot allocate memory|cannot map|failed to map).*", re.DOTALL)


def address_space(tally, scale):
    """So much address space and no more: the system may not start the program; where it does, the ending is named."""
    jobs = [(["--config", "-", *WINDOW], FLATBED), (["--config", "-", "-d", "hand:0", "--resolution", "300"], CONFIG), (["--config", "-", "-A"], FLATBED)]
    for words, config in jobs:
        for size in range(1 << 20, 14 << 20, scale["space"]):
            ended = scan(words, config.encode(), preexec_fn=limit(resource.RLIMIT_AS, size))
            has_begun = not (ended.status in (127, -11, -9, -7) and (LOADER.match(ended.err) or not ended.err)) and ended.status is not None
            told = ended.what() if has_begun else "not started by the system"
            is_right = not has_begun or (ended.is_named() and ("-A" in words or is_whole(ended.out) == (ended.status == 0)))
            tally.saw("scanimage with so much address space", told, is_right, f"{size >> 10} KiB: {words}: {ended.err!r}")
    for size in range(1 << 20, 14 << 20, scale["space"]):
        with Daemon(CONFIG, "--sessions", "1", preexec_fn=limit(resource.RLIMIT_AS, size)) as daemon:
            if daemon.port is None:
                ended = ending(daemon.process)
                has_begun = ended.status not in (127, -11, -9, -7)
                tally.saw("saned with so much address space", ended.what() if has_begun else "not started by the system", not has_begun or ended.is_named(), f"{size >> 10} KiB: {ended.err!r}")
                continue
            # It may end as it finds no room for its sessions.
            with contextlib.suppress(OSError), connected(daemon.port) as client:
                client.sendall(wire.INIT + wire.opening("flatbed:0") + wire.asking() + wire.PIXEL + wire.EXIT)
                read(client, 1 << 20)
            ended = ending(daemon.process)
            is_right = ended.status == 0 or (ended.status, ended.err) == (10, NO_MEMORY)
            tally.saw("saned with so much address space", "served" if ended.status == 0 else ended.what(), is_right, f"{size >> 10} KiB")


def built(folder, name):
    """A library that is loaded before the C library; none where there is no C compiler."""
    compiler = shutil.which("cc")
    if not compiler:
        print("hostile: no C compiler, so no call is interrupted and no allocation is refused")
        return None
    source = f"{HERE}/faults.c" if name == "faults" else f"{os.path.dirname(HERE)}/failing_malloc.c"
    subprocess.run([compiler, "-O1", "-shared", "-fPIC", "-o", f"{folder}/{name}.so", source, "-ldl"], check=True)
    return f"{folder}/{name}.so"


# A job, its config or none where it is one over the net, and what it prints.
Job = collections.namedtuple("Job", "name words config out")
HERE_JOBS = [
    Job("a scan", ["--config", "-", *WINDOW], FLATBED, DOT),
    Job("a rounded value", ["--config", "-", "--resolution", "26", "-x", "1.25", "-y", "1"], FLATBED, DOT),
    Job("a hand scan", ["--config", "-", "-d", "hand:0", "--depth", "1"], CONFIG, HAND),
    Job("three colors", ["--config", "-", "-d", "flatbed:1", "--mode", "Color", "--resolution", "26", "--br-x", "2", "--br-y", "1"], CONFIG, COLORS),
    Job("the option table", ["--config", "-", "-d", "hand:0", "-A"], CONFIG, OPTIONS),
    Job("the list", ["--config", "-", "-L"], CONFIG, LISTED.replace(b"net:localhost:", b"")),
]
NET_JOBS = [
    Job("a scan over the net", ["-d", "net:localhost:flatbed:0", *WINDOW], None, DOT),
    Job("a hand scan over the net", ["-d", "net:localhost:hand:0", "--depth", "1"], None, HAND),
    Job("the option table over the net", ["-d", "net:localhost:hand:0", "-A"], None, OPTIONS),
    Job("the list over the net", ["-L", "--net", "localhost"], None, LISTED),
]


def words_of(job, daemon):
    return job.words if job.config else [*job.words, "--port", str(daemon.port)]


def bad_calls(tally, scale):
    """Of the calls that move bytes one in two is interrupted, or each moves one byte, or both: all is as ever."""
    with tempfile.TemporaryDirectory() as folder:
        library = built(folder, "faults")
        for kind in ("again", "short", "both") if library else ():
            told = {"again": "one call in two interrupted", "short": "each call moves one byte", "both": "each call moves one byte, one in two is interrupted"}[kind]
            bad = {**os.environ, "FAULTS": kind, "LD_PRELOAD": library}
            for who in ("scanimage", "saned", "both programs"):
                with Daemon(CONFIG, env=bad if who != "scanimage" else None) as daemon, Daemon(TRAY, env=bad if who != "scanimage" else None) as tray:
                    env = bad if who != "saned" else None
                    for job in (HERE_JOBS if who == "scanimage" else []) + NET_JOBS:
                        ended = scan(words_of(job, daemon), (job.config or "").encode(), env=env)
                        is_right = (ended.status, ended.out) == (0, job.out)
                        tally.saw(f"{who}: {told}", "as ever" if is_right else ended.what(), is_right, job.name)
                    ended = scan(["-d", "net:localhost:feeder:0", "-b", *WINDOW, "--port", str(tray.port)], cwd=folder, env=env)
                    is_right = ended.status == 0 and files_of(folder) == {"out1.pnm": SEVEN, "out2.pnm": NINE}
                    tally.saw(f"{who}: {told}", "as ever" if is_right else ended.what(), is_right, "a batch")


THREE_PASSES = "-d {}threepass:0 --mode Color --depth 16 --three-pass-order BGR --resolution 26 --br-x 2 --br-y 1"
PAGE_OF_COLORS = b"P6 2 1 65535\n" + bytes.fromhex("000100020003000400050100")
# One as the page is opened, and one as each pass begins.
SEEKS_AT_LEAST = 4


def seek_ending(ended):
    """Whether a scan of three passes, of which a seek failed, ended as it must: a device that is not there, or its fault."""
    told = re.fullmatch(rb"scanimage: (config line 1: cannot read page|SANE_STATUS_IO_ERROR \(answer\)|SANE_STATUS_INVAL \(answer\))\n", ended.err)
    return ended.status in (9, 65) and bool(told) and ended.out == b""


def bad_seeks(tally, scale):
    """Each seek in a page file fails in turn, until a run meets none: as the page is opened, and as each pass begins."""
    with tempfile.TemporaryDirectory() as folder:
        library = built(folder, "faults")
        for path, text in ((f"{folder}/page", PAGE_OF_COLORS), (f"{folder}/config", f"threepass 0 26 {folder}/page\n".encode())):
            with open(path, "wb") as file:
                file.write(text)
        for who in ("scanimage", "saned") if library else ():
            for number in range(1, 100):
                ended = scan_of_bad_seek(who, f"{folder}/config", {**os.environ, "BAD_SEEK": str(number), "LD_PRELOAD": library})
                is_done = (ended.status, ended.out) == (0, THREE)
                is_right = number > SEEKS_AT_LEAST if is_done else seek_ending(ended)
                tally.saw(f"{who}: a seek of a page file that fails", "its picture, as none did" if is_done else ended.what(), is_right, f"seek {number}")
                if is_done or not is_right:
                    break


def scan_of_bad_seek(who, config, env):
    """A scan of three passes, here or over the net, where this program has such an environment. A daemon that is not up ended."""
    if who == "scanimage":
        return scan([*THREE_PASSES.format("").split(), "--config", config], env=env)
    with open(config, encoding="ascii") as file, Daemon(file.read(), env=env) as daemon:
        if daemon.port is None:
            ended = ending(daemon.process)
            return Ended(ended.status, ended.out, ended.err.replace(b"saned: ", b"scanimage: "))
        return scan([*THREE_PASSES.format("net:localhost:").split(), "--port", str(daemon.port)])


def refused_ending(job, ended, place):
    """Whether a job whose allocation was refused ended as it must: want of memory, and no whole file."""
    if ended.status == 0:
        return ended.out == job.out
    is_memory = (ended.status, ended.err) == (10, MEMORY) or (ended.status == 65 and re.fullmatch(rb"scanimage: config line \d+: out of memory\n", ended.err))
    return bool(is_memory) and not is_whole(ended.out) and (ended.out == b"" or job.out.startswith(ended.out))


def refused(tally, scale):
    """Each allocation of scanimage refused in turn, until a run meets none."""
    with tempfile.TemporaryDirectory() as folder, Daemon(CONFIG) as daemon:
        library = built(folder, "failing_malloc")
        for job in (HERE_JOBS + NET_JOBS)[:: scale["refused"]] if library else ():
            for at in range(1, 5000):
                mark = f"{folder}/{at}"
                env = {**os.environ, "LD_PRELOAD": library, "FAIL_ALLOC": str(at), "FAIL_ALLOC_MARK": mark}
                ended = scan(words_of(job, daemon), (job.config or "").encode(), env=env)
                if not os.path.exists(mark):
                    tally.saw("scanimage: each allocation refused in turn", "Done where none was left to refuse", at > 1 and (ended.status, ended.out) == (0, job.out), job.name)
                    break
                os.remove(mark)
                tally.saw("scanimage: each allocation refused in turn", ended.what(), refused_ending(job, ended, at), f"{job.name}, the {at}th: {ended.err!r}")
            else:
                tally.saw("scanimage: each allocation refused in turn", "no run met none", False, job.name)


def daemon_refused(tally, library, job, at, mark):
    """A daemon whose allocation of that number is refused, and makes this file then, and two clients."""
    fault, about = "saned: each allocation refused in turn", f"{job.name}, the {at}th"
    with Daemon(CONFIG, env={**os.environ, "LD_PRELOAD": library, "FAIL_ALLOC": str(at), "FAIL_ALLOC_MARK": mark}) as daemon:
        if daemon.port is None:
            ended = ending(daemon.process)
            is_right = (ended.status, ended.err) == (10, NO_MEMORY) or (ended.status == 65 and ended.err.endswith(b": out of memory\n"))
            tally.saw(fault, f"before it serves: {ended.what()}", is_right, f"{about}: {ended.err!r}")
            return
        first = scan(words_of(job, daemon))
        if first.status == 0:
            tally.saw(fault, "its first client is done before it is refused, or in spite of it", first.out == job.out, about)
            return
        second = scan(words_of(job, daemon))
        if second.status == 9 and first.status == 9:
            # It listens, but has not made the room for its sessions.
            ended = ending(daemon.process, 5)
            tally.saw(fault, f"before its first session: {ended.what()}", (ended.status, ended.err) == (10, NO_MEMORY), about)
            return
        is_right = (second.status, second.out) == (0, job.out) and daemon.is_up()
        is_right &= first.keeps_the_promise("-d" in job.words and "-A" not in job.words) and first.status in (9, 10)
        tally.saw(fault, f"its session: {first.what()}; the next one: {second.what()}", is_right, about)


def daemons_refused(tally, scale):
    """Each allocation of a daemon refused in turn as a job comes: it ends before it serves, or its session ends, and no other."""
    with tempfile.TemporaryDirectory() as folder:
        library = built(folder, "failing_malloc")
        for job in NET_JOBS[:: scale["refused"]] if library else ():
            for at in range(1, 5000):
                mark = f"{folder}/{at}"
                daemon_refused(tally, library, job, at, mark)
                if not os.path.exists(mark):
                    tally.saw("saned: each allocation refused in turn", "no further one was left to refuse", at > 1, job.name)
                    break
                os.remove(mark)
            else:
                tally.saw("saned: each allocation refused in turn", "no run met none", False, job.name)


def limits(tally, scale):
    for each in (descriptors, address_space, bad_calls, bad_seeks, refused, daemons_refused):
        each(tally, scale)
