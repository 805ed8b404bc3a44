"""A stranger of another user, who dials a session's data ports before its client does: a frame goes to the user who asked for it.
Users are told apart by the system's table of sockets, so where the daemon has none all is as without it."""
import atexit
import contextlib
# What sockets import by themselves, where another user may not be able to read it.
import encodings.idna  # noqa: F401
import functools
import os
import random
import shutil
import signal
import socket
import struct
import tempfile
import time

import wire
from left import Differs, Session, noise_page
from strangers import can_hide, hide_the_table, is_passed, says
from world import SCANIMAGE, Daemon, connected, ending, is_whole, read, start

# Users whom nobody else has.
ROOT_USER, ANN, BOB = 0, 64_201, 64_202
# A client's user and the stranger's.
PAIRS = {(ROOT_USER, BOB): "root's client, a stranger of another user", (ANN, ROOT_USER): "a user's client, root as the stranger", (ANN, BOB): "two users"}
# A client that has not its frame after so many seconds waits for ever; one beside whom somebody dials without end, so that the
# daemon reads a table of many sockets again and again, has it later on a machine that is busy.
PATIENCE, LONG_PATIENCE = 20, 100


@contextlib.contextmanager
def acting_as(user):
    """Sockets that are made within are of that user."""
    os.seteuid(user)
    try:
        yield
    finally:
        os.seteuid(ROOT_USER)


def child(user, act):
    """Runs that in a process of that user; its number."""
    made = os.fork()
    if made == 0:
        try:
            os.setgroups([])
            os.setresgid(user, user, user)
            os.setresuid(user, user, user)
            act()
        finally:
            os._exit(0)
    return made


def ends_behind_its_connect(stranger, port):
    """His process ends at once: what he leaves is of no user any more."""
    os.waitpid(child(stranger.user, lambda: socket.socket().connect_ex(("127.0.0.1", port))), 0)
    stranger.dialled += 1


def dials_and(how):
    def act(stranger, port):
        made = stranger.dials(port)
        how(made)
    return act


# What the stranger does at a port, in turn.
MANNERS = [
    dials_and(lambda it: None),
    dials_and(says),
    dials_and(lambda it: it.shutdown(socket.SHUT_WR)),
    dials_and(socket.socket.close),
    ends_behind_its_connect,
    lambda stranger, port: stranger.dials(port, mapped),
]


class Stranger:
    """His connections, and how many bytes they brought him."""

    def __init__(self, user):
        self.user, self.made, self.bytes, self.dialled = user, [], 0, 0

    def dials(self, port, dial=connected):
        with acting_as(self.user):
            made = dial(port)
        made.settimeout(PATIENCE)
        self.made.append(made)
        self.dialled += 1
        return made

    def comes(self, port, at):
        for it in range(1 + at % 3):
            MANNERS[(at + it) % len(MANNERS)](self, port)

    def hears(self):
        """All that comes to him, to the end of each connection."""
        for made in self.made:
            if made.fileno() >= 0:
                with made:
                    self.bytes += len(read(made, 1 << 30))
        self.made = []


class Client(Session):
    """A session of that user."""

    def __init__(self, daemon, samples, user):
        self.user = user
        super().__init__(daemon, samples, "little")

    def reaches(self, port):
        with acting_as(self.user):
            return connected(port)


class MappedClient(Client):
    """A client whose sockets are IPv6 ones, as those of many programs are."""

    def reaches(self, port):
        with acting_as(self.user):
            return mapped(port)


def mapped(port):
    made = socket.create_connection(("::ffff:127.0.0.1", port), PATIENCE)
    made.setsockopt(socket.IPPROTO_TCP, socket.TCP_NODELAY, 1)
    return made


def before_start(client, stranger, at):
    if not client.port:
        client.starts(after=wire.cancelling())
    stranger.comes(client.port, at)
    client.starts()
    client.takes(client.dials(at % 2))


def behind_the_answer(client, stranger, at):
    client.starts()
    stranger.comes(client.port, at)
    if at % 4:
        is_passed(client)
    client.takes(client.dials(at % 2))


def while_it_streams(client, stranger, at):
    """The client takes nothing yet, and the frame is under way."""
    client.starts()
    frame = client.dials(at % 2)
    frame.recv(1, socket.MSG_PEEK)
    stranger.comes(client.port, at)
    client.takes(frame)


ROUNDS = {
    before_start: "comes before START",
    behind_the_answer: "comes between START's answer and the dial",
    while_it_streams: "comes while the frame streams",
}


def rounds(tally, daemon, samples, act, pair, count):
    """So many rounds in one session; behind the first that is wrong the others are not tried."""
    fault, at = f"a stranger of another user {ROUNDS[act]}", 0
    stranger = Stranger(pair[1])
    try:
        client = Client(daemon, samples, pair[0])
        with client.control:
            for at in range(count):
                act(client, stranger, at)
                tally.saw(fault, "the picture to its client", True)
    except (Differs, OSError) as error:
        told = "the client waits for ever" if isinstance(error, socket.timeout) else str(error)
        tally.saw(fault, told, False, f"{PAIRS[pair]}, the round {at}")
    stranger.hears()
    tally.saw(f"{fault}: what he reads", "0 bytes" if not stranger.bytes else "bytes of a page", not stranger.bytes, f"{stranger.bytes} bytes of {stranger.dialled} dials, {PAIRS[pair]}")


def ordered(tally, scale):
    with tempfile.TemporaryDirectory() as folder:
        path, samples = noise_page(folder)
        with Daemon(f"flatbed 0 26 {path}\n") as daemon:
            before = daemon.descriptors()
            for pair in PAIRS:
                for act in ROUNDS:
                    rounds(tally, daemon, samples, act, pair, scale["visits"])
                    daemon.rests_at(before)
            is_right = daemon.is_up() and daemon.rests_at(before)
            tally.saw("a daemon after strangers of another user", "it stands, with as many descriptors as before", is_right)


def prowl(ports, into):
    """Dials all of these ports for ever, in each manner, and notes how many bytes came."""
    heard, held, at = 0, [], 0
    is_over = []
    signal.signal(signal.SIGTERM, lambda *_: is_over.append(True))
    while not is_over:
        for port in ports:
            at += 1
            with contextlib.suppress(OSError):
                made = socket.create_connection(("127.0.0.1", port), PATIENCE)
                made.setblocking(False)
                held.append(made)
                if at % 5 == 1:
                    says(made)
                elif at % 5 == 2:
                    made.shutdown(socket.SHUT_WR)
                elif at % 5 == 3:
                    made.close()
        heard += sum(map(taken, held))
        held = [it for it in held if it.fileno() >= 0][-200:]
    time.sleep(0.2)
    os.write(into, struct.pack("<QQ", at, heard + sum(map(taken, held))))


def taken(made):
    """How many bytes a connection has for him now; one that is at its end is closed."""
    count = 0
    with contextlib.suppress(BlockingIOError, OSError):
        while made.fileno() >= 0:
            piece = made.recv(1 << 16)
            if not piece:
                made.close()
            count += len(piece)
    return count


def free_ports(count):
    """The first of so many ports in a row that are all free now."""
    while True:
        first = random.SystemRandom().randrange(20_000, 30_000)
        with contextlib.ExitStack() as held:
            try:
                for at in range(count):
                    made = held.enter_context(socket.socket())
                    made.bind(("", first + at))
                return first
            except OSError:
                continue


DEVICES = ["flatbed:0", "threepass:0"]


@functools.cache
def scanimage_for_all():
    """A copy of scanimage that every user may run, wherever the checkout stands."""
    folder = tempfile.mkdtemp()
    atexit.register(shutil.rmtree, folder, True)
    os.chmod(folder, 0o755)
    copy = shutil.copy(SCANIMAGE, folder)
    os.chmod(copy, 0o755)
    return copy


def begins_to_scan(daemon, at, user, **more):
    words = ["-d", f"net:localhost:{DEVICES[at % 2]}", "--port", str(daemon.port), "--resolution", "26", "--mode", "Color"]
    return start(words, scanimage_for_all(), user=user, **more)


def looped(tally, scale):
    """He dials all ports in a loop while somebody scans, also in three passes."""
    with tempfile.TemporaryDirectory() as folder:
        os.chmod(folder, 0o755)
        raster = random.Random(64).randbytes(3 * 300 * 300)
        with open(f"{folder}/page.ppm", "wb") as file:
            file.write(b"P6\n300 300\n255\n" + raster)
        for pair in PAIRS:
            first = free_ports(8)
            words = ["--data-ports", f"{first}-{first + 7}"]
            with Daemon("".join(f"{kind} 0 26 {folder}/page.ppm\n" for kind in ("flatbed", "threepass")), *words) as daemon:
                pictures = [ending(begins_to_scan(daemon, at, pair[0])).out for at in range(len(DEVICES))]
                tally.saw("a scan without strangers", "its picture", all(map(is_whole, pictures)))
                loops(tally, daemon, pair, range(first, first + 8), pictures, scale["visits"])


def loops(tally, daemon, pair, ports, pictures, count):
    fault = "a stranger of another user dials all data ports in a loop"
    out, into = os.pipe()
    prowler = child(pair[1], lambda: prowl(ports, into))
    os.close(into)
    for at in range(count):
        ended = ending(begins_to_scan(daemon, at, pair[0]), LONG_PATIENCE)
        is_right = (ended.status, ended.out) == (0, pictures[at % 2])
        told = "the client waits for ever" if ended.status is None else "the picture to its client" if is_right else ended.what()
        tally.saw(fault, told, is_right, f"{PAIRS[pair]}, the scan {at}")
        if not is_right:
            break
    os.kill(prowler, signal.SIGTERM)
    os.waitpid(prowler, 0)
    with os.fdopen(out, "rb") as told:
        dials, heard = struct.unpack("<QQ", told.read(16))
    tally.saw(f"{fault}: what he reads", "0 bytes" if not heard else "bytes of a page", not heard and dials > 0, f"{heard} bytes of {dials} dials, {PAIRS[pair]}")


def untold(tally, scale):
    """A daemon that has no such table takes whoever comes first, as the protocol has it."""
    fault = "a stranger of another user, where the daemon has no /proc"
    with tempfile.TemporaryDirectory() as folder:
        path, samples = noise_page(folder)
        with Daemon(f"flatbed 0 26 {path}\n", preexec_fn=hide_the_table) as daemon:
            for at in range(scale["visits"] // 10):
                try:
                    client, stranger = Client(daemon, samples, ANN), Stranger(BOB)
                    with client.control:
                        client.starts()
                        made = stranger.dials(client.port)
                        is_passed(client)
                        client.takes(made)
                        client.cancels()
                        client.starts()
                        client.takes(client.dials())
                    tally.saw(fault, "the frame is his; after CANCEL the next is its client's", True)
                except (Differs, OSError) as error:
                    tally.saw(fault, "otherwise", False, f"{at}: {error!r}")
                    return


def unlisted(tally, scale):
    """Clients whose sockets are in another table than the one that is read: they are served, as without it."""
    fault = "a client with an IPv6 socket"
    with tempfile.TemporaryDirectory() as folder:
        path, samples = noise_page(folder)
        with Daemon(f"flatbed 0 26 {path}\n") as daemon:
            for at in range(scale["visits"] // 10):
                try:
                    client = MappedClient(daemon, samples, ANN)
                    with client.control:
                        client.starts()
                        client.takes(client.dials(at % 2))
                    tally.saw(fault, "the picture", True)
                except (Differs, OSError) as error:
                    tally.saw(fault, "otherwise", False, f"{at}: {error!r}")
                    return


def owners(tally, scale):
    if os.geteuid() != ROOT_USER:
        print("hostile: not root, so no stranger of another user comes", flush=True)
        return
    for each in (ordered, looped, *([untold] if can_hide() else []), unlisted):
        each(tally, scale)
