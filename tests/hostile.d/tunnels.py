"""Data ports of a range: which of them a session gets, and scans through a relay of nine ports, which stands for ssh -L: SANE's
own scanimage, where it is installed, and ours."""
import contextlib
import os
import random
import select
import socket
import sys
import tempfile
import threading

from edges import frame_port, session
from left import PATIENCE
from owners import free_ports
from wire import PIXEL, PIXEL_REPLIES
from world import Daemon, connected, is_at_end, page, scan

sys.path.insert(0, os.path.dirname(os.path.dirname(os.path.abspath(__file__))))

from sane_peer import PORT, theirs  # noqa: E402

# Where the near ends of the relay are: an address of this machine at which nobody else listens.
NEAR = "127.0.0.2"
SEATS = 8
EIGHT = "".join(f"flatbed {it} 26 {page('P5 1 1 255', bytes([it + 1]))}\n" for it in range(SEATS))


def data_port(daemon, at):
    """A session that stands, and its data port; none where it was refused."""
    control = session(daemon.port, f"flatbed:{at}", PIXEL, len(PIXEL_REPLIES))
    return control, frame_port(control)


def ports_in_order(tally):
    """Eight sessions have the eight ports, the least first; one that is free again is the next one's."""
    first = free_ports(SEATS)
    with Daemon(EIGHT, "--data-ports", f"{first}-{first + SEATS - 1}") as daemon, contextlib.ExitStack() as held:
        before, found = daemon.descriptors(), []
        for at in range(SEATS):
            control, port = data_port(daemon, at)
            held.enter_context(control)
            found.append(port)
            third = control if at == 2 else third if at > 2 else None
        is_right = found == list(range(first, first + SEATS))
        tally.saw("eight sessions and --data-ports of eight", "each its own, the least first" if is_right else "others", is_right, f"{first}: {found}")
        third.close()
        is_free = daemon.rests_at(before + 2 * (SEATS - 1))
        control, port = data_port(daemon, 2)
        held.enter_context(control)
        is_right = is_free and port == first + 2
        tally.saw("a session behind one that left", "that one's port" if is_right else "another", is_right, f"{first}: {port}")


def ports_that_are_taken(tally):
    """Ports that others have are passed over; where none is free the session is refused, until one is."""
    first = free_ports(3)
    with contextlib.ExitStack() as held:
        others = [held.enter_context(socket.socket()) for _ in range(3)]
        for other, port in zip(others[:2], (first, first + 1)):
            other.bind(("127.0.0.1", port))
            other.listen(1)
        with Daemon(EIGHT, "--data-ports", f"{first}-{first + 2}") as daemon:
            control, port = data_port(daemon, 0)
            with control:
                tally.saw("--data-ports of which two are taken", "the third" if port == first + 2 else "another", port == first + 2, str(port))
                with connected(daemon.port) as refused:
                    refused.settimeout(PATIENCE)
                    is_right = is_at_end(refused)
                tally.saw("a session where no data port is free", "refused" if is_right else "answered", is_right)
            others[0].close()
            control, port = data_port(daemon, 1)
            control.close()
            is_right = port in (first, first + 2) and daemon.is_up()
            tally.saw("a session once a data port is free", "it has its port" if is_right else "none, or another", is_right, str(port))


class Tunnel:
    """Carries connections at NEAR to the same ports of 127.0.0.1, but that of control connections, until it is left."""

    def __init__(self, control, daemon_port, data):
        self.to, self.is_over, self.thread = {}, threading.Event(), None
        for near, far in [(control, daemon_port), *((it, it) for it in data)]:
            listener = socket.socket()
            listener.setsockopt(socket.SOL_SOCKET, socket.SO_REUSEADDR, 1)
            listener.bind((NEAR, near))
            listener.listen(16)
            self.to[listener] = far
        self.counts = dict.fromkeys(self.to.values(), 0)

    def __enter__(self):
        self.thread = threading.Thread(target=self.turn, daemon=True)
        self.thread.start()
        return self

    def __exit__(self, *_):
        self.is_over.set()
        self.thread.join()
        for each in self.to:
            each.close()

    def turn(self):
        while not self.is_over.is_set():
            with contextlib.suppress(OSError, ValueError):
                for listener in select.select(list(self.to), [], [], 0.2)[0]:
                    near = listener.accept()[0]
                    self.counts[self.to[listener]] += 1
                    far = connected(self.to[listener])
                    for pair in ((near, far), (far, near)):
                        threading.Thread(target=carry, args=pair, daemon=True).start()


def carry(source, target):
    """All bytes of one way, and its end."""
    with contextlib.suppress(OSError):
        while piece := source.recv(1 << 16):
            target.sendall(piece)
    with contextlib.suppress(OSError):
        target.shutdown(socket.SHUT_WR)


WINDOW = "--resolution 26 -x 120 -y 90".split()
JOBS = {
    "gray": ("flatbed:0", []),
    "color": ("flatbed:0", ["--mode", "Color"]),
    "gray at depth 16": ("flatbed:0", ["--depth", "16"]),
    "black and white": ("flatbed:0", ["--depth", "1"]),
    "color in three passes": ("threepass:0", ["--mode", "Color"]),
}


def relayed(tally, scale):
    with tempfile.TemporaryDirectory() as folder:
        with open(f"{folder}/page.ppm", "wb") as file:
            file.write(b"P6\n157 118\n255\n" + random.Random(65).randbytes(3 * 157 * 118))
        first = free_ports(SEATS)
        config = "".join(f"{kind} 0 26 {folder}/page.ppm\n" for kind in ("flatbed", "threepass"))
        with Daemon(config, "--pad-strings", "--data-ports", f"{first}-{first + SEATS - 1}") as daemon:
            data = range(first, first + SEATS)
            for name, (device, words) in JOBS.items():
                wanted = scan(["-d", f"net:localhost:{device}", "--port", str(daemon.port), *WINDOW, *words])
                with Tunnel(PORT + 30_000, daemon.port, data) as tunnel:
                    ours = scan(["-d", f"net:{NEAR}:{device}", "--port", str(PORT + 30_000), *WINDOW, *words])
                is_right = wanted.status == ours.status == 0 and ours.out == wanted.out and sum(tunnel.counts[it] for it in data) > 0
                tally.saw("our scanimage through a relay of nine ports", "the same file, byte for byte" if is_right else ours.what(), is_right, name)
                theirs_through(tally, daemon, data, name, folder, wanted.out)


def theirs_through(tally, daemon, data, name, folder, wanted):
    """SANE's scanimage, which knows no port but 6566."""
    program = theirs("scanimage", "--version", "sane-backends")
    if not program:
        return
    for file, line in (("dll.conf", "net\n"), ("net.conf", f"connect_timeout = 5\n{NEAR}\n")):
        with open(f"{folder}/{file}", "w", encoding="ascii") as config:
            config.write(line)
    device, words = JOBS[name]
    try:
        tunnel = Tunnel(PORT, daemon.port, data)
    except OSError:
        print(f"hostile: port {PORT} is taken, so SANE's scanimage is not tried through a relay", flush=True)
        return
    with tunnel:
        ended = scan(["-d", f"net:{NEAR}:{device}", "--format=pnm", *WINDOW, *words], program=program, env={**os.environ, "SANE_CONFIG_DIR": folder, "HOME": folder})
    is_right = (ended.status, ended.out) == (0, wanted)
    tally.saw("SANE's scanimage through a relay of nine ports", "the file of ours, byte for byte" if is_right else ended.what(), is_right, f"{name}: {ended.err!r}")


def tunnels(tally, scale):
    ports_in_order(tally)
    ports_that_are_taken(tally)
    relayed(tally, scale)
