"""What no contract can reach: at which addresses a daemon listens and scanimage dials, many data ports at once, and page files
that change between the passes of one scan."""
import os
import random
import socket
import tempfile

import wire
from noise import DATA, FAKE_REPLIES, PARAMS
from world import LIMIT, Daemon, connected, ending, page, read, start
from worked import CONFIG, DOT, WINDOW

OTHER = "127.0.0.2"
SEATS = 8


def is_refused(host, port):
    try:
        with socket.create_connection((host, port), LIMIT):
            return False
    except ConnectionRefusedError:
        return True


def session(port, device, settings=b"", replies=0):
    """A client that has opened a device and put settings, whose replies have so many bytes."""
    control = connected(port)
    control.sendall(wire.INIT + wire.opening(device) + settings)
    read(control, len(wire.INIT_REPLY + wire.OPEN_REPLY) + replies)
    return control


def frame_port(control):
    control.sendall(wire.starting())
    return wire.is_started(read(control, 16))


def listens_here_alone(tally):
    """A daemon is reached at 127.0.0.1, and at no other address of this machine."""
    with Daemon(CONFIG) as daemon, session(daemon.port, "flatbed:0", wire.PIXEL, len(wire.PIXEL_REPLIES)) as control:
        for what, port in (("control port", daemon.port), ("data port", frame_port(control))):
            is_right = bool(port) and is_refused(OTHER, port)
            tally.saw(f"a {what} dialled at {OTHER}", "refused" if is_right else "taken", is_right, str(port))


def listening_at(host, port=0):
    made = socket.socket()
    made.setsockopt(socket.SOL_SOCKET, socket.SO_REUSEADDR, 1)
    made.bind((host, port))
    made.listen(8)
    made.settimeout(LIMIT)
    return made


def dials_what_is_named(tally):
    """scanimage dials the host that its device names, the data port too, where others listen at these ports of 127.0.0.1."""
    with listening_at(OTHER) as control, listening_at(OTHER) as data:
        ports = [it.getsockname()[1] for it in (control, data)]
        with listening_at("127.0.0.1", ports[0]) as near, listening_at("127.0.0.1", ports[1]) as near_data:
            process = start(["-d", f"net:{OTHER}:flatbed:0", "--port", str(ports[0]), *WINDOW])
            with control.accept()[0] as one:
                one.sendall(FAKE_REPLIES + wire.words(0, ports[1], 0x1234) + wire.NULL + PARAMS + wire.word(0))
                with data.accept()[0] as frame:
                    frame.sendall(DATA)
                    ended = ending(process)
            for it in (near, near_data):
                it.settimeout(0)
            is_right = (ended.status, ended.out) == (0, DOT) and not any(map(comes, (near, near_data)))
    tally.saw(f"a daemon at {OTHER}", "its picture" if is_right else ended.what(), is_right)


def comes(listener):
    try:
        listener.accept()[0].close()
        return True
    except BlockingIOError:
        return False


def many_ports(tally):
    """As many frames at once as there are slots, dialled from the last to the first: each has its own device's picture."""
    config = "".join(f"flatbed {it} 26 {page('P5 1 1 255', bytes([it + 1]))}\n" for it in range(SEATS))
    with Daemon(config) as daemon:
        controls = [session(daemon.port, f"flatbed:{it}", wire.PIXEL, len(wire.PIXEL_REPLIES)) for it in range(SEATS)]
        ports = [frame_port(it) for it in controls]
        frames = [connected(it) for it in reversed(ports)]
        for at, frame in zip(reversed(range(SEATS)), frames):
            with frame:
                got = wire.payload(read(frame, 64))
            is_right = got == bytes([at + 1]) and len(set(ports)) == SEATS
            tally.saw(f"{SEATS} frames at once, each at its own port", "its own picture" if is_right else f"{got!r}", is_right, str(ports))
        for control in controls:
            control.close()


# A page of three colors, at its own dots, as wide and high as the window of 80 by 100 mm.
DPI, COLUMNS, ROWS = 50, 157, 196
COLOR = wire.words(5, 0, 1, 1, 3, 6, 6) + b"Color\0"
COLOR_REPLY = 30
CHANGES = {
    "is cut": (lambda path: os.truncate(path, 1000), b"\x09"),
    "is emptied": (lambda path: os.truncate(path, 0), b"\x09"),
    "grows": (lambda path: open(path, "ab").write(b"more"), b"\x05"),
    "is replaced": (lambda path: os.replace(f"{path}.other", path), b"\x05"),
    "can be read no more": (lambda path: os.chmod(path, 0), b"\x05"),
    "vanishes": (os.remove, b"\x05"),
}


def changes_between_passes(tally):
    for name, (change, told) in CHANGES.items():
        with tempfile.TemporaryDirectory() as folder:
            raster = random.Random(7).randbytes(3 * COLUMNS * ROWS)
            for path, samples in ((f"{folder}/page", raster), (f"{folder}/page.other", bytes(len(raster)))):
                with open(path, "wb") as file:
                    file.write(b"P6 %d %d 255\n" % (COLUMNS, ROWS) + samples)
            with Daemon(f"threepass 0 {DPI} {folder}/page\n") as daemon, session(daemon.port, "threepass:0", COLOR, COLOR_REPLY) as control:
                first = took(frame_port(control))
                change(f"{folder}/page")
                second = took(frame_port(control))
            is_right = first == (raster[0::3], b"\x05")
            is_right &= second == (raster[1::3], told) if told == b"\x05" else second[1] == told and raster[1::3].startswith(second[0])
            came = "the pass as it was" if told == b"\x05" else "IO_ERROR at the end of the pass"
            tally.saw(f"a page file that {name} between two passes", came if is_right else f"{second[1]!r}, {len(second[0])} bytes", is_right)


def took(port):
    """What a frame's data connection brings: its payload, and the status of its end."""
    with connected(port) as frame:
        got, out = read(frame, 1 << 20), b""
    while got[:4] != b"\xff\xff\xff\xff" and got:
        size = int.from_bytes(got[:4], "big")
        out, got = out + got[4 : 4 + size], got[4 + size :]
    return out, got[4:]


def edges(tally, scale):
    listens_here_alone(tally)
    dials_what_is_named(tally)
    many_ports(tally)
    changes_between_passes(tally)
