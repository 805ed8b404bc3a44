"""Random bytes and mutated sessions, at the daemon and at scanimage, from a fixed seed."""
import os
import random
import select
import socket
import time

import wire
from relay import hush, is_open
from world import LIMIT, Daemon, Ended, connected, ending, listening, read, reset, start
from worked import CONFIG, DOT, WINDOW

TALKS = [
    wire.PIXEL_SCAN,
    wire.INIT + wire.LIST + wire.EXIT,
    wire.INIT + wire.opening("hand:0") + wire.asking() + wire.getting(1) + wire.getting(2) + wire.closing() + wire.EXIT,
    wire.INIT + wire.opening("threepass:0") + wire.setting(2, 1, 16) + wire.starting() + wire.cancelling() + wire.starting() + wire.measuring(),
    wire.INIT + b"".join(wire.opening(f"flatbed:{it}") for it in (0, 1)) + wire.starting(1) + wire.starting(0) + wire.closing(1) + wire.EXIT,
    wire.INIT + wire.opening("flatbed:0") + wire.words(5, 0, 8, 1, 1, 1024, 256, *range(256)) + wire.getting(8) + wire.EXIT,
    wire.INIT + wire.opening("flatbed:0") + wire.words(5, 0, 1, 1, 3, 6, 6) + b"Color\0" + wire.starting() + wire.EXIT,
    wire.INIT + wire.opening("flatbed:0") + wire.authorizing("flatbed$MD5$0"),
]
WORDS = [0, 1, 4, 5, 255, 1023, 1024, 1025, 4096, 4097, 65535, 65536, 0xFFFF, 0x7FFFFFFF, 0x80000000, 0xFFFFFFFF, 0x00100001]


def mutated(chance, text, kept=()):
    """The text after one to four changes, which leave the kept places alone."""
    out, after = bytearray(text), max((high for _, high in kept), default=0)
    for _ in range(chance.randint(1, 4)):
        at = chance.randrange(len(out) + 1) if out else 0
        how = chance.randrange(7)
        if any(low - 8 < at < high + 4 for low, high in kept):
            continue
        if how == 0 and at < len(out):
            out[at] ^= 1 << chance.randrange(8)
        elif how == 1 and len(out) >= 4:
            at = min(at // 4 * 4, len(out) - 4)
            out[at : at + 4] = wire.word(chance.choice(WORDS))
        elif how == 2 and at >= after:
            del out[at : at + chance.randint(1, 12)]
        elif how == 3 and at >= after:
            out[at:at] = out[at : at + chance.randint(1, 40)]
        elif how == 4 and at >= after:
            out[at:at] = chance.randbytes(chance.randint(1, 12))
        elif how == 5:
            del out[max(at, after) :]
        elif at < len(out):
            out[at] = chance.randrange(256)
    return bytes(out)


def said(chance):
    """What a client says: bytes of no kind, a beginning and such bytes, or a session that was changed."""
    kind = chance.randrange(8)
    if kind == 0:
        return chance.randbytes(chance.randrange(64))
    if kind == 1:
        return wire.INIT + chance.randbytes(chance.randrange(64))
    if kind == 2:
        return b"".join([wire.INIT, *(wire.words(chance.randrange(12), *(chance.choice(WORDS) for _ in range(chance.randrange(5)))) for _ in range(4))])
    return mutated(chance, chance.choice(TALKS))


def say(port, chance, at):
    """A client that says it, and goes by a reset, or hears it out; from changing addresses, so that no port runs out."""
    client = connected(port, (f"127.{at >> 16 & 63}.{at >> 8 & 255}.{(at & 127) + 2}", 0))
    try:
        client.sendall(said(chance))
        if chance.randrange(2):
            reset(client)
            return "left by a reset"
        client.shutdown(socket.SHUT_WR)
        while client.recv(65536):
            pass
    except ConnectionError:
        pass
    client.close()
    return "answered, then at its end"


# What the hand scanner that no other client names shows: ten dots below each other.
SHOWN = (b"\0" + b"\xff" * 323) * 10


def frame_of(port):
    """The payload of a frame, out of its records; none where it does not end as it must."""
    with connected(port) as frame:
        return wire.payload(read(frame, 1 << 20))


def is_served(port):
    """Whether an honest client gets its own replies and its own picture."""
    with connected(port) as client:
        client.sendall(wire.INIT + wire.opening("hand:42") + wire.starting())
        greeted = wire.INIT_REPLY + wire.OPEN_REPLY
        got = read(client, len(greeted) + 16)
        at = wire.is_started(got[len(greeted) :])
        return got.startswith(greeted) and at is not None and frame_of(at) == SHOWN


def probe(tally, daemon, first):
    """An honest job gets its own bytes, every device is free, and memory and descriptors are as they were."""
    is_right = is_served(daemon.port)
    tally.saw("an honest scan between them", "its picture" if is_right else "another", is_right)
    with connected(daemon.port) as client:
        client.sendall(wire.INIT + b"".join(wire.opening(f"{it}:0") for it in ("flatbed", "hand", "threepass")) + wire.EXIT)
        wanted = wire.INIT_REPLY + b"".join(wire.words(0, it) + wire.NULL for it in range(3))
        is_free = read(client, len(wanted)) == wanted
    tally.saw("devices between them", "all free" if is_free else "one is held", is_free)
    is_rested = daemon.rests_at(first[0])
    memory = daemon.memory()
    is_bounded = is_rested and (first[1] is None or memory <= first[1] + 8192)
    tally.saw("memory and descriptors between them", "as before" if is_bounded else f"{daemon.descriptors()}, {memory} KiB", is_bounded)
    return memory


def daemon_noise(tally, scale, seed):
    chance, count, memory = random.Random(seed), scale["said"], None
    with Daemon(CONFIG) as daemon:
        descriptors = daemon.descriptors()
        for at in range(count):
            how = say(daemon.port, chance, at)
            tally.saw("random bytes and mutated sessions at the daemon", how, True)
            if at % max(count // 20, 500) == 0:
                told = probe(tally, daemon, (descriptors, memory))
                memory = told if at and memory is None else memory
        probe(tally, daemon, (descriptors, memory))
        tally.saw("a daemon after them", "it stands", daemon.is_up())


FAKE_REPLIES = b"".join([
    wire.INIT_REPLY, wire.OPEN_REPLY, wire.descriptors(wire.FLATBED), wire.PIXEL_REPLIES,
])
PARAMS = wire.words(0, 0, 1, 1, 1, 1, 8)
DATA = wire.word(1) + b"\x0a" + b"\xff\xff\xff\xff\x05"


class Stranger:
    """A daemon that says what it is told to, whatever it is asked, and ends what it says."""

    def __init__(self):
        self.control, self.data = listening(), listening()
        port = self.data.getsockname()[1]
        self.started = wire.words(0, port, 0x1234) + wire.NULL
        self.replies = FAKE_REPLIES + self.started + PARAMS + wire.word(0)
        at = len(FAKE_REPLIES) + 4
        self.kept = [(at, at + 4)]

    def serve(self, words, replies, data, is_reset=False):
        process = start([*words, "--port", str(self.control.getsockname()[1])])
        watched, until, ends = os.pidfd_open(process.pid), time.time() + LIMIT, []
        poll = select.poll()
        for it in (watched, self.control, self.data):
            poll.register(it, select.POLLIN)
        is_over = False
        while not is_over and time.time() < until:
            for ready, _ in poll.poll(1000):
                is_over |= ready == watched
                if ready in (self.control.fileno(), self.data.fileno()):
                    ends.append(self.speak(*((self.control, replies) if ready == self.control.fileno() else (self.data, data)), is_reset))
        os.close(watched)
        for one in ends:
            one.close()
        return ending(process, LIMIT) if is_over else Ended(ending(process, 0).status and None, b"", b"")

    @staticmethod
    def speak(listener, said, is_reset):
        one = listener.accept()[0]
        try:
            one.sendall(said)
            if is_reset:
                reset(one)
        except OSError:
            pass
        if is_open(one):
            hush(one)
        return one


SCAN = ["-d", "net:localhost:flatbed:0", *WINDOW]
JOBS = [SCAN, SCAN, ["-d", "net:localhost:flatbed:0", "-A"], ["-L", "--net", "localhost"], ["-d", "net:localhost:flatbed:0", "-n", *WINDOW]]


def client_noise(tally, scale, seed):
    chance, stranger = random.Random(seed), Stranger()
    ended = stranger.serve(SCAN, stranger.replies, DATA)
    tally.saw("a daemon's words unchanged at scanimage", "its picture" if ended.out == DOT else ended.what(), ended.out == DOT and ended.status == 0)
    for at in range(scale["heard"]):
        words, replies, data = chance.choice(JOBS), stranger.replies, DATA
        kind = chance.randrange(8)
        if kind == 0:
            replies = chance.randbytes(chance.randrange(64))
        elif kind == 1:
            cut = chance.randrange(len(FAKE_REPLIES))
            replies = replies[:cut] + chance.randbytes(chance.randrange(64))
        elif kind < 6:
            replies = mutated(chance, replies, stranger.kept if words is SCAN else ())
        if kind in (5, 6, 7):
            data = mutated(chance, data) if kind != 7 else chance.randbytes(chance.randrange(32))
        ended = stranger.serve(words, replies, data, chance.randrange(8) == 0)
        is_right = ended.keeps_the_promise("-d" in words and "-A" not in words and "-n" not in words)
        tally.saw("random bytes and mutated sessions at scanimage", ended.what(), is_right, f"seed {seed}, the {at}th: {ended.err!r}, {ended.out[:80]!r}")
