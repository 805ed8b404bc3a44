"""Clients that say nothing, speak slowly, never read, open the data connection late, twice or never, or are strangers to it;
more clients than there are slots; a daemon that is stopped and goes on."""
import socket
import time

import wire
from cuts import is_free
from world import BUSY, LIMIT, LOST, Daemon, connected, ending, is_at_end, is_whole, listening, page, read, reset, scan, start
from worked import CONFIG, DOT, HAND, LISTED, WINDOW

BIG = f"flatbed 0 1200 {page('P5 1 1 255', bytes([10]))}\nhand 0 75 {page('P5 1 10 255', bytes(10))}\n"
DOT_SCAN = ["-d", "net:localhost:flatbed:0", *WINDOW]
HAND_SCAN = ["-d", "net:localhost:hand:0", "--depth", "1"]


def served(tally, fault, daemon, words=HAND_SCAN, out=HAND, limit=LIMIT):
    """An honest scan beside it has its picture in time."""
    ended = scan([*words, "--port", str(daemon.port)], limit=limit)
    tally.saw(fault, "an honest scan beside it: its picture" if ended.out == out else ended.what(), (ended.status, ended.out) == (0, out))


def opened(daemon, device="flatbed:0", settings=wire.PIXEL, replies=wire.PIXEL_REPLIES):
    """A client that has this device, with settings."""
    client = connected(daemon.port)
    client.sendall(wire.INIT + wire.opening(device) + settings)
    wanted = wire.INIT_REPLY + wire.OPEN_REPLY + replies
    assert read(client, len(wanted)) == wanted
    return client


def started(client):
    """The port of a frame that it starts."""
    client.sendall(wire.starting())
    port = wire.is_started(read(client, 16))
    assert port
    return port


SHOWN = wire.word(1) + b"\x0a" + b"\xff\xff\xff\xff\x05"


def silent(tally, scale):
    with Daemon(CONFIG) as daemon:
        before = daemon.descriptors()
        guests = [connected(daemon.port) for _ in range(7)]
        served(tally, "seven clients that say nothing", daemon)
        for guest in guests:
            guest.close()
        tally.saw("seven clients that say nothing", "gone, and their descriptors with them", daemon.rests_at(before))


def slow(tally, scale):
    """One byte a second."""
    with Daemon(CONFIG) as daemon, connected(daemon.port) as guest:
        text = wire.INIT + wire.EXIT
        for byte in text if scale["seconds"] > 1 else text[:2]:
            guest.sendall(bytes([byte]))
            served(tally, "a client that says one byte a second", daemon)
            time.sleep(1)
        if scale["seconds"] > 1:
            is_right = read(guest, 8) == wire.INIT_REPLY and is_at_end(guest)
            tally.saw("a client that says one byte a second", "answered in the end" if is_right else "not answered", is_right)


def deaf(tally, scale):
    """A client that asks on and on and never reads: the daemon keeps no more for it than it needs."""
    with Daemon(CONFIG) as daemon:
        served(tally, "a client that asks on and on and never reads", daemon)
        before, guest, sent = daemon.memory(), opened(daemon), 0
        guest.settimeout(0.5)
        until = time.time() + scale["seconds"]
        try:
            while time.time() < until:
                sent += guest.send(wire.asking() * 4096)
        except socket.timeout:
            pass
        grown = daemon.memory() - before
        tally.saw("a client that asks on and on and never reads", "memory within 16 MiB" if grown < 16384 else f"{grown} KiB more after {sent} bytes", grown < 16384)
        served(tally, "a client that asks on and on and never reads", daemon)
        reset(guest)
        is_right = is_free(daemon.port, "flatbed:0")
        tally.saw("a client that asks on and on and never reads", "its device is free once it has gone" if is_right else "its device is held", is_right)


def data_connections(tally, scale):
    with Daemon(CONFIG) as daemon:
        before = daemon.descriptors()
        for name in ("late", "twice", "never", "a stranger's"):
            fault = f"a data connection: {name}"
            guest = opened(daemon)
            port = started(guest)
            if name == "late":
                served(tally, fault, daemon)
                time.sleep(min(2, scale["seconds"]))
                with connected(port) as frame:
                    is_right = read(frame, 10) == SHOWN and is_at_end(frame)
                    tally.saw(fault, "the frame" if is_right else "no frame", is_right)
            elif name == "twice":
                with connected(port) as frame:
                    # Of two that wait the newest is taken, so the second comes behind the first byte.
                    begun = read(frame, 1)
                    with connected(port) as second:
                        is_right = begun + read(frame, 9) == SHOWN and is_at_end(frame)
                        tally.saw(fault, "the frame to the first" if is_right else "no frame", is_right)
                        guest.close()
                        is_right = is_at_end(second)
                        tally.saw(fault, "the second closed with its session, without a byte" if is_right else "bytes for the second", is_right)
            elif name == "a stranger's":
                with connected(port) as stranger:
                    # Who speaks before the frame is begun is dropped, so he speaks behind its first byte.
                    begun = read(stranger, 1)
                    stranger.sendall(wire.INIT + wire.opening("hand:0") + b"x" * 1000)
                    is_right = begun + read(stranger, 9) == SHOWN
                    tally.saw(fault, "what it says is not heard; it has the frame, as whoever comes" if is_right else "no frame", is_right)
            served(tally, fault, daemon)
            guest.close()
            is_right = is_free(daemon.port, "flatbed:0") and daemon.rests_at(before)
            tally.saw(fault, "the device free, the connections closed once it has gone" if is_right else "held", is_right)


def unread_frames(tally, scale):
    """Clients that take frames and do not read them, and ones that take them byte by byte."""
    fault = "a frame whose reader does not read"
    with Daemon(BIG) as daemon:
        before = daemon.descriptors()
        guest = opened(daemon, settings=wire.setting(3, 1, 1200), replies=wire.words(0, 4) + wire.one_word(1, 1200) + wire.NULL)
        with connected(started(guest)) as frame:
            memory = daemon.memory()
            for _ in range(5):
                served(tally, fault, daemon)
            grown = daemon.memory() - memory
            tally.saw(fault, "memory within 1 MiB" if grown < 1024 else f"{grown} KiB more", grown < 1024)
            is_right = len(read(frame, 1 << 20)) == 1 << 20
            tally.saw(fault, "its bytes, once it reads" if is_right else "no bytes", is_right)
        guest.sendall(wire.cancelling())
        is_right = read(guest, 4) == wire.word(0)
        tally.saw(fault, "CANCEL answered after it has gone" if is_right else "CANCEL not answered", is_right)
        guest.close()
        tally.saw(fault, "the device free, the connections closed once it has gone", is_free(daemon.port, "flatbed:0") and daemon.rests_at(before))


def crowd(tally, scale):
    """Eight sessions that hold all devices, and a ninth."""
    kinds = ["flatbed:0", "flatbed:1", "hand:0", "hand:1", "threepass:0", "threepass:1", "flatbed:2", "hand:2"]
    dot = page("P5 1 1 255", bytes([10]))
    config = "".join(f"{it.replace(':', ' ')} 75 {dot}\n" for it in kinds)
    with Daemon(config) as daemon:
        before = daemon.descriptors()
        guests = [opened(daemon, it, b"", b"") for it in kinds]
        ninth = start(["-d", "net:localhost:hand:0", "--depth", "1", "--port", str(daemon.port)])
        tenth = start(["-L", "--net", "localhost", "--port", str(daemon.port)])
        time.sleep(0.5)
        tally.saw("eight sessions that hold all devices, and a ninth", "the ninth waits", ninth.poll() is None and tenth.poll() is None)
        guests[7].close()
        busy = ending(ninth)
        tally.saw("eight sessions that hold all devices, and a ninth", busy.what(), (busy.status, busy.err) == (3, BUSY))
        listed = ending(tenth)
        tally.saw("eight sessions that hold all devices, and a ninth", "the tenth has its list", listed.status == 0 and listed.out.count(b"\n") == 8)
        for guest in guests:
            guest.close()
        is_free_all = all(is_free(daemon.port, it) for it in kinds)
        tally.saw("eight sessions that hold all devices, and a ninth", "all devices free once they have gone", is_free_all and daemon.rests_at(before))


def stopped(tally, scale):
    """A daemon that is stopped again and again, as it serves, and goes on."""
    fault = "a daemon stopped and continued"
    with Daemon(CONFIG) as daemon:
        for _ in range(scale["stops"]):
            running = [start([*words, "--port", str(daemon.port)]) for words in (DOT_SCAN, HAND_SCAN)]
            for _ in range(3):
                daemon.stop()
                time.sleep(0.002)
                daemon.go_on()
            for process, out in zip(running, (DOT, HAND)):
                ended = ending(process)
                tally.saw(fault, "its picture" if ended.out == out else ended.what(), (ended.status, ended.out) == (0, out))
        daemon.stop()
        waiting = start(["-L", "--net", "localhost", "--port", str(daemon.port)])
        time.sleep(min(1, scale["seconds"]))
        tally.saw(fault, "a client waits for it", waiting.poll() is None)
        daemon.go_on()
        tally.saw(fault, "the client has its list", ending(waiting).out == LISTED)


def killed(tally, scale):
    """A daemon that is killed in the midst of a frame: its client is lost at once."""
    fault = "a daemon killed in the midst of a frame"
    # The file's head goes out before the data connection is made; who kills the daemon just while it is made may leave the
    # client one that nobody holds. So the kill comes behind bytes of the picture.
    for at in range(scale["stops"]):
        with Daemon(BIG) as daemon:
            process = start(["-d", "net:localhost:flatbed:0", "--resolution", "1200", "--mode", "Color", "--port", str(daemon.port)])
            got = process.stdout.read(64 + at * 4099)
            daemon.process.kill()
            ended = ending(process, 20)
            is_right = (ended.status, ended.err) == (9, LOST) and not is_whole(got + ended.out)
            tally.saw(fault, "IO_ERROR (lost), 9, at once, no whole file" if is_right else ended.what(), is_right)


def silent_daemon(tally, scale):
    """A daemon that says nothing: scanimage waits for it without work, and is lost when it goes."""
    fault = "a daemon that takes the connection and says nothing"
    with listening() as control:
        process = start(["-L", "--net", "localhost", "--port", str(control.getsockname()[1])])
        one = control.accept()[0]
        time.sleep(min(2, scale["seconds"]))
        with open(f"/proc/{process.pid}/stat", encoding="ascii") as file:
            ticks = sum(map(int, file.read().rpartition(")")[2].split()[11:13]))
        tally.saw(fault, "scanimage waits, without work" if ticks < 20 else f"{ticks} ticks of work", process.poll() is None and ticks < 20)
        one.close()
        ended = ending(process)
        tally.saw(fault, ended.what(), (ended.status, ended.err) == (9, LOST))


def guests(tally, scale):
    for each in (silent, slow, deaf, data_connections, unread_frames, crowd, stopped, killed, silent_daemon):
        each(tally, scale)
