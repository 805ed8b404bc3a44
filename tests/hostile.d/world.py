"""The programs that are judged, what they are run with, and the tally of what came."""
import collections
import contextlib
import os
import re
import resource
import select
import signal
import socket
import subprocess
import tempfile
import time

ROOT = os.path.dirname(os.path.dirname(os.path.dirname(os.path.abspath(__file__))))
SCANIMAGE = os.path.abspath(os.environ.get("SCANIMAGE") or f"{ROOT}/crates/scanimage/out/scanimage")
SANED = os.path.abspath(os.environ.get("SANED") or f"{ROOT}/crates/saned/out/saned")

# Nothing that ends by itself takes longer, also on a machine that has much else to do.
LIMIT = int(os.environ.get("HOSTILE_LIMIT") or 120)
PAGE_OF_MEMORY = resource.getpagesize()

NAMES = "GOOD UNSUPPORTED CANCELLED DEVICE_BUSY INVAL EOF JAMMED NO_DOCS COVER_OPEN IO_ERROR NO_MEM ACCESS_DENIED".split()
ENDING = re.compile(
    rb"scanimage: SANE_STATUS_(\w+) \((answer|cancelled|lost|malformed|short|long|setting|plain password asked|memory|output)\)\n"
)
REFUSAL = re.compile(rb"(scanimage|saned): (bad command line|bad seed|cannot read .+|cannot listen|out of memory|config line \d+: .+|users line \d+: .+)\n")
ROUNDED = re.compile(rb"(scanimage: rounded value of \S+ from .* to .*\n)*")

LOST = b"scanimage: SANE_STATUS_IO_ERROR (lost)\n"
OUTPUT = b"scanimage: SANE_STATUS_IO_ERROR (output)\n"
MEMORY = b"scanimage: SANE_STATUS_NO_MEM (memory)\n"
BUSY = b"scanimage: SANE_STATUS_DEVICE_BUSY (answer)\n"


def netpbm(header, raster, comment=b"# SANE data follows\n"):
    """The text of a Netpbm file as scanimage writes it; of one without the comment, a page."""
    magic, size, *most = header.split(None, 1)[0].encode(), *header.split()[1:3], *header.split()[3:]
    return b"\n".join([magic, comment + " ".join([size, *most[:1]]).encode(), *(it.encode() for it in most[1:])]) + b"\n" + raster


def page(header, raster):
    """The field of a config that has this page in it."""
    return "hex:" + netpbm(header, raster, b"").hex()


HEAD = re.compile(rb"P([456])\n# SANE data follows\n(\d{1,5}) (\d{1,5})\n(?:(255|65535)\n)?")


def is_whole(text):
    """Whether these bytes are a whole file of scanimage's."""
    head = HEAD.match(text)
    if not head or (head[1] == b"4") != (head[4] is None):
        return False
    width, height = int(head[2]), int(head[3])
    line = {b"4": (width + 7) // 8, b"5": width, b"6": 3 * width}[head[1]] * (2 if head[4] == b"65535" else 1)
    return len(text) - head.end() == line * height


class Ended:
    """How a program ended: its status, none where it had to be ended, and what it wrote."""

    def __init__(self, status, out, err):
        self.status, self.out, self.err = status, out, err

    def what(self):
        """In a few words."""
        if self.status is None:
            return "no end"
        if self.status < 0:
            return f"ended by signal {-self.status}"
        told = self.err.strip().splitlines()
        if self.status == 0:
            return "Done"
        return f"{told[-1].decode('utf-8', 'replace').partition(': ')[2][:60] if told else 'nothing told'}, {self.status}"

    def is_named(self):
        """It ended by itself, with a status that its line tells, and nothing else is told."""
        if self.status == 0:
            return bool(ROUNDED.fullmatch(self.err))
        if self.status in (64, 65) or (self.status in (9, 10) and REFUSAL.fullmatch(self.err)):
            return bool(REFUSAL.fullmatch(self.err))
        told = ENDING.fullmatch(self.err)
        return bool(told) and self.status is not None and 0 < self.status < 12 and told[1].decode() == NAMES[self.status]

    def keeps_the_promise(self, is_picture=True):
        """A named ending, and a whole file on standard output where, and only where, it is Done."""
        return self.is_named() and (not is_picture or is_whole(self.out) == (self.status == 0))


def start(words, program=None, **more):
    """Starts scanimage, or another program; its standard input is empty where nothing is said."""
    more = {"stdin": subprocess.DEVNULL, "stdout": subprocess.PIPE, "stderr": subprocess.PIPE, "close_fds": False, **more}
    return subprocess.Popen([program or SCANIMAGE, *words], **more)


def ending(process, limit=LIMIT, given=None):
    """Waits for a program; one that does not end in time is ended."""
    try:
        out, err = process.communicate(given, timeout=limit)
    except subprocess.TimeoutExpired:
        process.kill()
        out, err = process.communicate()
        return Ended(None, out or b"", err or b"")
    return Ended(process.returncode, out or b"", err or b"")


def scan(words, given=b"", limit=LIMIT, program=None, **more):
    """Runs scanimage, or another program, to its end."""
    return ending(start(words, program, stdin=subprocess.PIPE, **more), limit, given)


class Daemon:
    """A saned with this config and these words, until it is left."""

    def __init__(self, config, *words, **more):
        self.folder = tempfile.TemporaryDirectory()
        path = f"{self.folder.name}/config"
        with open(path, "w", encoding="ascii") as file:
            file.write(config)
        self.process = start(["--config", path, "--port", "0", *words], SANED, **more)
        self.port = None
        if select.select([self.process.stdout], [], [], LIMIT)[0]:
            told = self.process.stdout.readline().split()
            self.port = int(told[1]) if len(told) == 2 else None

    def __enter__(self):
        return self

    def __exit__(self, *_):
        self.process.kill()
        self.process.wait()
        self.process.stdout.close()
        self.process.stderr.close()
        self.folder.cleanup()

    def is_up(self):
        return self.process.poll() is None

    def memory(self):
        """Its memory in KiB."""
        with open(f"/proc/{self.process.pid}/statm", encoding="ascii") as file:
            return int(file.read().split()[1]) * PAGE_OF_MEMORY // 1024

    def descriptors(self):
        return len(os.listdir(f"/proc/{self.process.pid}/fd"))

    def ports(self):
        """Where it listens, as everybody on this machine can read it."""
        return listening_ports(self.process.pid)

    def found(self, limit=30):
        """Its first port, found where it listens, where its line of the port goes to nobody."""
        until = time.time() + limit
        while self.is_up() and time.time() < until:
            for port in self.ports():
                return port
            time.sleep(0.01)
        return None

    def rests_at(self, descriptors, limit=30):
        """Whether it comes to have so many descriptors."""
        until = time.time() + limit
        while self.descriptors() != descriptors:
            if time.time() > until:
                return False
            time.sleep(0.01)
        return True

    def stop(self):
        """Stops it, and waits until it does nothing."""
        self.process.send_signal(signal.SIGSTOP)
        until = time.time() + LIMIT
        while self.is_up() and time.time() < until:
            with open(f"/proc/{self.process.pid}/stat", encoding="ascii", errors="replace") as file:
                if file.read().rpartition(")")[2].split()[0] == "T":
                    return
            time.sleep(0.0005)

    def go_on(self):
        self.process.send_signal(signal.SIGCONT)

    @contextlib.contextmanager
    def stopped(self):
        """All that is done within comes to it in one turn."""
        self.stop()
        try:
            yield
        finally:
            self.go_on()


def listening_ports(pid):
    """The ports of 127.0.0.1 at which a process listens."""
    held = set()
    for each in os.listdir(f"/proc/{pid}/fd"):
        try:
            held.add(os.readlink(f"/proc/{pid}/fd/{each}"))
        except OSError:
            pass
    with open(f"/proc/{pid}/net/tcp", encoding="ascii") as file:
        rows = [line.split() for line in file][1:]
    return [int(row[1][-4:], 16) for row in rows if row[3] == "0A" and f"socket:[{row[9]}]" in held]


def connected(port, source=None):
    made = socket.create_connection(("127.0.0.1", port), LIMIT, source)
    made.setsockopt(socket.IPPROTO_TCP, socket.TCP_NODELAY, 1)
    return made


def reset(connection):
    """Closes a connection at once, and its peer finds it reset."""
    connection.setsockopt(socket.SOL_SOCKET, socket.SO_LINGER, b"\1\0\0\0\0\0\0\0")
    connection.close()


def listening():
    made = socket.socket()
    made.bind(("127.0.0.1", 0))
    made.listen(64)
    return made


def read(connection, count):
    """So many bytes, or all before the end."""
    got = bytearray()
    while len(got) < count:
        try:
            piece = connection.recv(min(count - len(got), 1 << 20))
        except ConnectionError:
            break
        if not piece:
            break
        got += piece
    return bytes(got)


def is_at_end(connection):
    """Whether the peer closes it without a further byte."""
    return read(connection, 1) == b""


class Tally:
    """What was tried, how often, and what came; what came otherwise than it must is an exception."""

    def __init__(self):
        self.rows = {}

    def saw(self, fault, came, is_right, about=""):
        row = self.rows.setdefault(fault, [0, collections.Counter(), []])
        row[0] += 1
        row[1][came] += 1
        if not is_right:
            row[2].append(f"{about}: {came}")

    def table(self):
        """Lines of a table, as docs/MEASURED.md has it, whose cells have at most 60 words."""
        yield "| fault | tried | what came | exceptions |"
        yield "|---|---|---|---|"
        for fault, (tried, came, exceptions) in self.rows.items():
            told, left = [], sum(came.values())
            for what, count in came.most_common():
                line = f"{count:,} {what}"
                if len(" ".join([*told, line]).split()) > 50:
                    break
                told, left = [*told, line], left - count
            told += [f"{left:,} with other endings that are named"] if left else []
            yield f"| {fault} | {tried:,} | {'; '.join(told)} | {len(exceptions)} |"

    def exceptions(self):
        return [f"{fault}: {told}" for fault, row in self.rows.items() for told in row[2]]
