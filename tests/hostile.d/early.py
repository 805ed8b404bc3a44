"""A daemon that says half of each reply before it was asked, and clients who come while the bytes of a frame move."""
import contextlib
import select
import statistics
import tempfile
import threading
import time

import wire
from noise import DATA, PARAMS, SCAN
from world import LIMIT, Daemon, connected, ending, listening, read, start
from worked import DOT

# Within this a daemon answers a new client, whatever else moves (median), and a client writes what it is to ask.
SOON, QUIET = 0.1, 0.05
RATE, PIECE = 8 << 20, 1 << 16
SIDE = 2362


def replies_of(port):
    """The replies to a scan of one pixel, one by one, up to that which tells its parameters."""
    values = [wire.words(0, 4) + wire.one_word(*it) + wire.NULL for it in [(1, 26), (2, 65536), (2, 65536)]]
    started = wire.words(0, port, 0x1234) + wire.NULL
    return [wire.INIT_REPLY, wire.OPEN_REPLY, wire.descriptors(wire.FLATBED), *values, started, PARAMS]


def came(control, least, limit):
    """How many bytes more come: at least so many, or as many as come in time; then all until it is quiet."""
    count, until = 0, time.time() + limit
    while time.time() < until:
        if not select.select([control], [], [], QUIET if count >= least else 0.5)[0]:
            if count >= least:
                break
            continue
        piece = control.recv(PIECE)
        if not piece:
            break
        count += len(piece)
    return count


def talk(wanted):
    """Speaks with scanimage; with what each request has in bytes the first half of each reply comes before its request. Gives what
    each request had, and how scanimage ended."""
    with listening() as one, listening() as data:
        replies, counts = replies_of(data.getsockname()[1]), []
        process = start([*SCAN, "--port", str(one.getsockname()[1])])
        one.settimeout(LIMIT)
        data.settimeout(LIMIT)

        def serve():
            with data.accept()[0] as frame:
                frame.sendall(DATA)
                frame.recv(1)

        threading.Thread(target=serve, daemon=True).start()
        with one.accept()[0] as control:
            told = 0
            for at, reply in enumerate(replies):
                if wanted:
                    control.sendall(reply[: len(reply) // 2])
                    told = len(reply) // 2
                counts.append(came(control, wanted[at] if wanted else 1, 20))
                if wanted and counts[-1] < wanted[at]:
                    break
                control.sendall(reply[told:])
            # It closes the device and goes, and need not wait for an answer.
            with contextlib.suppress(OSError):
                came(control, 1, 20)
                control.sendall(wire.word(0))
            return counts, ending(process)


def early(tally, scale):
    """Half a reply early at each place of a scan: the request comes all the same, and the picture."""
    plain, ended = talk([])
    tally.saw("a daemon that answers one request after the other", "its picture" if ended.out == DOT else ended.what(), (ended.status, ended.out) == (0, DOT))
    counts, ended = talk(plain)
    told = "each request, and the picture" if ended.out == DOT and counts == plain else f"requests of {counts} bytes, {ended.what()}"
    tally.saw("a daemon that says half of each reply before it was asked", told, (counts, ended.status, ended.out) == (plain, 0, DOT), f"{plain}")
    visits(tally, scale, "eight megabytes a second", "300", RATE)
    visits(tally, scale, "as fast as it goes", "1200", 0)


def drink(process, rate):
    """Reads what a program writes, at so many bytes a second, or as fast as it comes."""
    began, count = time.time(), 0
    while piece := process.stdout.read1(PIECE):
        count += len(piece)
        time.sleep(max(0, began + count / rate - time.time()) if rate else 0)


def written(page):
    """The name of a file with a page of SIDE by SIDE in one color."""
    page.write(b"P6 %d %d 255\n" % (SIDE, SIDE) + b"\x40\x80\xc0" * SIDE * SIDE)
    page.flush()
    return page.name


def visits(tally, scale, about, resolution, rate):
    """Clients who come while a frame streams are answered soon."""
    with tempfile.NamedTemporaryFile(suffix=".ppm") as page, Daemon(f"flatbed 0 300 {written(page)}\n") as daemon:
        words = ["-d", "net:localhost:flatbed:0", "--port", str(daemon.port), "--mode", "Color", "--depth", "16", "--resolution", resolution, "-x", "200", "-y", "200"]
        process = start(words)
        drinking = threading.Thread(target=drink, args=(process, rate))
        drinking.start()
        took = [visit(daemon.port) for _ in range(scale["visits"]) if process.poll() is None]
        process.kill()
        drinking.join()
        process.wait()
    middle = statistics.median(took) if took else LIMIT
    tally.saw(f"a client who comes while a frame streams, {about}", f"answered within {SOON:.1f} s" if middle < SOON else f"{middle:.2f} s", middle < SOON, f"{len(took)} visits, the longest {max(took, default=0):.3f} s")


def visit(port):
    began = time.time()
    with connected(port) as control:
        control.sendall(wire.INIT)
        read(control, len(wire.INIT_REPLY))
    return time.time() - began
