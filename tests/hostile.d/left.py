"""Data connections that a client leaves behind, and the frames that it starts after them; connections that come early, and
ones whose side is shut at once, as SANE's own clients do."""
import random
import socket
import struct
import tempfile

import wire
from world import Daemon, connected, read, reset

# A reply, a record or an end that has not come after so many seconds does not come: its client waits for ever.
PATIENCE = 20
# Dots of a side; one of a line has two bytes, so that a frame takes more than one record.
SIDE = 200
ORDERS = {"little": 0x1234, "big": 0x4321}
SIDES = [wire.setting(2, 1, 16), wire.setting(3, 1, 26), wire.setting(6, 2, 196 << 16), wire.setting(7, 2, 196 << 16)]
SIDES_REPLIES = b"".join(
    words + wire.one_word(*value) + wire.NULL
    for words, value in zip([wire.words(0, 6), *[wire.words(0, 4)] * 3], [(1, 16), (1, 26), (2, 196 << 16), (2, 196 << 16)])
)
CANCELLED = wire.word(0)


class Differs(Exception):
    """What came is not what must come."""


def noise_page(folder):
    """A page file of samples of 16 bits that are all different enough; its path and its samples."""
    samples = [random.Random(43).randrange(65536) for _ in range(SIDE * SIDE)]
    with open(f"{folder}/noise.pgm", "wb") as file:
        file.write(f"P5\n{SIDE} {SIDE}\n65535\n".encode() + struct.pack(f">{len(samples)}H", *samples))
    return f"{folder}/noise.pgm", samples


class Session:
    """A client of a daemon with that page, at depth 16, and its data port once a frame was started."""

    def __init__(self, daemon, samples, order):
        self.daemon, self.order, self.port = daemon, ORDERS[order], None
        self.picture = struct.pack(f"{'<' if order == 'little' else '>'}{len(samples)}H", *samples)
        self.control = self.reaches(daemon.port)
        self.control.settimeout(PATIENCE)
        self.tells(wire.INIT + wire.opening("flatbed:0") + b"".join(SIDES), wire.INIT_REPLY + wire.OPEN_REPLY + SIDES_REPLIES)

    def reaches(self, port):
        return connected(port)

    def tells(self, requests, replies):
        self.control.sendall(requests)
        got = read(self.control, len(replies))
        if got != replies:
            raise Differs(f"wanted {replies.hex()}, came {got.hex()}")

    def starts(self, before=b"", after=b""):
        """A START, with these requests before and behind it in one piece, each of which is a CANCEL."""
        self.control.sendall(before + wire.starting() + after)
        got = read(self.control, len(before) // 8 * 4 + 16 + len(after) // 8 * 4)
        told = got[len(before) // 8 * 4 :][:16]
        self.port = wire.is_started(told, self.order)
        if not self.port:
            raise Differs(f"START is answered {told.hex()}")

    def resolves(self, dots):
        self.tells(wire.setting(3, 1, dots), wire.words(0, 4) + wire.one_word(1, dots) + wire.NULL)

    def cancels(self):
        self.tells(wire.cancelling(), CANCELLED)

    def dials(self, is_shut=False):
        frame = self.reaches(self.port)
        frame.settimeout(PATIENCE)
        if is_shut:
            frame.shutdown(socket.SHUT_WR)
        return frame

    def takes(self, frame):
        """The whole picture comes on that connection, and its end."""
        with frame:
            got = wire.payload(read(frame, len(self.picture) + 4096))
        if got != self.picture:
            raise Differs("no picture" if got is None else f"another picture, of {len(got)} bytes")

    def gets_nothing(self, frame):
        """That connection comes to its end without a byte."""
        with frame:
            got = read(frame, 64)
        if got:
            raise Differs(f"bytes on a connection that must have none: {got.hex()}")


def leave(frame, at):
    """The ways in which a connection is left: at its end, by a reset, or shut first."""
    if at % 3 == 1:
        reset(frame)
    else:
        frame.close()


def before_the_cancel(session, at):
    session.starts()
    frame = session.dials(at % 3 == 2)
    session.control.sendall(wire.cancelling())
    leave(frame, at)
    session.tells(b"", CANCELLED)
    session.starts()
    session.takes(session.dials(at % 2))


def in_one_turn(session, at):
    """As before, where the daemon finds the connection, the CANCEL and the end in the same turn."""
    session.starts()
    with session.daemon.stopped():
        frame = session.dials(at % 3 == 2)
        session.control.sendall(wire.cancelling())
        leave(frame, at)
    session.tells(b"", CANCELLED)
    session.starts()
    session.takes(session.dials(at % 2))


def behind_the_cancel(session, at):
    session.starts()
    session.cancels()
    leave(session.dials(at % 3 == 2), at)
    session.starts()
    session.takes(session.dials(at % 2))


def behind_both(session, at):
    session.starts(after=wire.cancelling())
    leave(session.dials(at % 3 == 2), at)
    session.starts()
    session.takes(session.dials(at % 2))


def several(session, at):
    """Five that are left, before and behind the CANCEL."""
    session.starts()
    frames = [session.dials() for _ in range(2)]
    session.cancels()
    frames += [session.dials(it == 2) for it in range(3)]
    for it, frame in enumerate(frames):
        leave(frame, at + it)
    session.starts()
    session.takes(session.dials(at % 2))


def only_reads(session, at):
    """As SANE's own clients: what is shut as soon as it is dialled takes the frame."""
    session.starts()
    session.takes(session.dials(True))


def comes_early(session, at):
    """A connection that was dialled before START, and stands, takes the frame."""
    if not session.port:
        session.starts(after=wire.cancelling())
    frame = session.dials()
    session.starts()
    session.takes(frame)


def shut_early(session, at):
    """One that was dialled and shut before START counts as left: it has its end without a byte, and the next takes the frame."""
    if not session.port:
        session.starts(after=wire.cancelling())
    early = session.dials(True)
    session.starts()
    session.takes(session.dials(at % 2))
    session.gets_nothing(early)


# The orders that a client may come to, of which all rounds are run; of the others a quarter.
ALL_ROUNDS = (before_the_cancel, in_one_turn, behind_the_cancel, behind_both)
# What is told of each in the table.
ROUNDS = {
    before_the_cancel: "a data connection left behind: dialled before the CANCEL",
    in_one_turn: "a data connection left behind: dialled before the CANCEL, all in one turn",
    behind_the_cancel: "a data connection left behind: dialled behind the CANCEL",
    behind_both: "a data connection left behind: dialled behind a START and a CANCEL in one piece",
    several: "five data connections left behind, before and behind a CANCEL",
    only_reads: "a data connection whose side is shut at once, as SANE's own clients do",
    comes_early: "a data connection dialled before START that stands",
    shut_early: "a data connection dialled and shut before START",
}
RIGHT = {shut_early: "its end without a byte, and the picture to the next", comes_early: "the picture", only_reads: "the picture"}


def rounds(tally, daemon, samples, order, act, count):
    """So many rounds in one session; behind the first that is wrong the others are not tried."""
    fault, at = ROUNDS[act], 0
    try:
        session = Session(daemon, samples, order)
        with session.control:
            for at in range(count):
                act(session, at)
                tally.saw(fault, RIGHT.get(act, "the next frame's picture"), True)
    except (Differs, OSError) as error:
        told = "the client waits for ever" if isinstance(error, socket.timeout) else str(error)
        tally.saw(fault, told, False, f"{order}, the round {at}")


def left(tally, scale):
    with tempfile.TemporaryDirectory() as folder:
        path, samples = noise_page(folder)
        for order in ORDERS:
            with Daemon(f"flatbed 0 26 {path}\n", "--byte-order", order) as daemon:
                before = daemon.descriptors()
                for act in ROUNDS:
                    rounds(tally, daemon, samples, order, act, scale["rounds"] if act in ALL_ROUNDS else scale["rounds"] // 4)
                is_right = daemon.is_up() and daemon.rests_at(before)
                tally.saw("a daemon after data connections left behind", "it stands, with as many descriptors as before", is_right, order)
