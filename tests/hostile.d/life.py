"""Many sessions in one life of a daemon, which counts each: memory and descriptors are the same at the end."""
import random

import wire
from world import LIMIT, Daemon, connected, read, reset
from worked import CONFIG

DATA = wire.word(1) + b"\x0a" + b"\xff\xff\xff\xff\x05"


def scans(client):
    client.sendall(wire.INIT + wire.opening("flatbed:0") + wire.PIXEL + wire.starting())
    greeted = wire.INIT_REPLY + wire.OPEN_REPLY
    got = read(client, len(greeted) + len(wire.PIXEL_REPLIES) + 16)
    port = wire.is_started(got[-16:])
    if not port or not got.startswith(greeted + wire.PIXEL_REPLIES):
        return False
    with connected(port) as frame:
        is_right = read(frame, 10) == DATA
    client.sendall(wire.closing() + wire.EXIT)
    return is_right and read(client, 5) == wire.word(0)


def asks(client):
    client.sendall(wire.INIT + wire.opening("hand:0") + wire.asking() + wire.EXIT)
    greeted = wire.INIT_REPLY + wire.OPEN_REPLY
    return read(client, 1 << 20).startswith(greeted + wire.word(5))


def babbles(client):
    client.sendall(b"GET / HTTP/1.0\r\n\r\n")
    return read(client, 1) == b""


def goes(client):
    reset(client)
    return True


def leaves_a_frame(client):
    # The session that had the device before may just be going.
    client.sendall(wire.INIT + wire.opening("threepass:0"))
    opened = read(client, 20)[8:]
    if opened == wire.words(3, 0) + wire.NULL:
        return True
    client.sendall(wire.starting())
    return opened == wire.OPEN_REPLY and wire.is_started(read(client, 16)) is not None


KINDS = [scans, asks, babbles, goes, leaves_a_frame]


def life(tally, scale):
    count, chance, first = scale["sessions"], random.Random(28), None
    fault = "sessions in one life of a daemon"
    with Daemon(CONFIG, "--sessions", str(count)) as daemon:
        descriptors = daemon.descriptors()
        for at in range(count - 1):
            kind = chance.choice(KINDS)
            with connected(daemon.port, (f"127.{at >> 14 & 63}.{at >> 7 & 127}.{(at & 63) + 2}", 0)) as client:
                is_right = kind(client)
                tally.saw(fault, {True: f"{kind.__name__.replace('_', ' ')}, as it must"}.get(is_right, f"{kind.__name__}: otherwise"), is_right)
            if at == min(999, count // 2):
                tally.saw(fault, "descriptors as at first, early in it", daemon.rests_at(descriptors))
                first = daemon.memory()
        is_right = daemon.rests_at(descriptors) and daemon.is_up()
        last = daemon.memory() if is_right else 0
        told = f"descriptors as at first; memory {first} KiB after 1,000 sessions, {last} KiB at the end"
        tally.saw(fault, told, is_right and last <= first + 512)
        with connected(daemon.port) as client:
            client.sendall(wire.INIT + wire.EXIT)
            read(client, 9)
        status = daemon.process.wait(LIMIT)
        tally.saw(fault, f"it ended by itself after the {count:,}th, with status {status}", status == 0)
