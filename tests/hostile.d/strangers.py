"""A stranger without a password, who reads off the system where a daemon listens for data connections: he comes and goes
between two frames, stays, or takes a frame for which its own client has not dialled yet. He is of the client's own user, or the
daemon has no table of sockets by which it could tell users apart; strangers of other users are in owners.py."""
import ctypes
import os
import socket
import subprocess
import tempfile

import wire
from cuts import pages_of
from left import PATIENCE, Differs, Session, noise_page
from relay import Relay
from world import Daemon, connected, netpbm, page, read, reset

PAGES = [netpbm("P5 1 1 255", bytes([it])) for it in range(1, 11)]
TRAY = "feeder 0 26 " + " ".join(page("P5 1 1 255", bytes([it])) for it in range(1, 11)) + f"\nflatbed 0 26 {page('P5 1 1 255', bytes([11]))}\n"
SCAN = netpbm("P5 1 1 255", bytes([11]))
BUSY_BEHIND_CANCEL = wire.word(0) + wire.words(3, 0, 0x1234) + wire.NULL
MODE = wire.words(0, 0, 3, 5, 5) + b"Gray\0" + wire.NULL
PIXEL = "--resolution 26 --br-x 1 --br-y 1".split()


def says(stranger):
    """He leaves bytes behind that nobody reads, so his connection does not seem to be at its end."""
    stranger.sendall(b"GET / HTTP/1.0\r\n\r\n")


# How he goes, in turn: at his end, by a reset, shut first, or having said something.
GOES = [socket.socket.close, reset, lambda it: it.shutdown(socket.SHUT_RDWR), says]


def visit(daemon, at):
    """Comes to each data port and goes."""
    for port in daemon.ports():
        if port == daemon.port:
            continue
        try:
            stranger = connected(port)
        except ConnectionError:
            # The session of that port has just gone.
            continue
        with stranger:
            GOES[at % len(GOES)](stranger)


class Visited(Relay):
    """A relay at which a stranger comes to the daemon and goes before each START goes on."""

    def __init__(self, daemon):
        super().__init__()
        self.daemon, self.visits = daemon, 0

    def passes(self, way, piece):
        if way == "requests" and piece[-8:] == wire.starting():
            visit(self.daemon, self.visits)
            self.visits += 1


def users_of(folder):
    """A user of both scanners: the words of the daemon and those of scanimage."""
    for name, told in (("users", "ann:secret:flatbed\nann:secret:feeder\n"), ("password", "secret\n")):
        with open(f"{folder}/{name}", "w", encoding="ascii") as file:
            file.write(told)
    return ["--users", f"{folder}/users", "--seed", "00" * 32], ["--user", "ann", "--password-file", f"{folder}/password"]


def batches(tally, scale):
    """Batches of ten pages, with a stranger before each."""
    fault = "a stranger comes and goes before each page of a batch"
    for _ in range(scale["visits"] // len(PAGES)):
        with tempfile.TemporaryDirectory() as folder, tempfile.TemporaryDirectory() as here:
            guard, user = users_of(folder)
            with Daemon(TRAY, *guard) as daemon:
                relay = Visited(daemon)
                ended = relay.carry(daemon.port, ["-d", "net:localhost:feeder:0", "-b", *PIXEL, *user], cwd=here)
                found = pages_of(here)
                for at, wanted in enumerate(PAGES, 1):
                    is_right = found.pop(f"out{at}.pnm", None) == wanted
                    tally.saw(fault, "the page" if is_right else "no page, or another", is_right, f"page {at}: {ended.what()}")
                is_right = (ended.status, found, relay.visits) == (0, {}, len(PAGES) + 1)
                tally.saw(fault, "the batch Done" if is_right else ended.what(), is_right, f"{relay.visits} visits, {sorted(found)}")


def scans(tally, scale):
    """Scans one behind the other, with a stranger before the frame of each."""
    fault = "a stranger comes and goes before the frame of a scan"
    with tempfile.TemporaryDirectory() as folder:
        guard, user = users_of(folder)
        with Daemon(TRAY, *guard) as daemon:
            relay = Visited(daemon)
            for at in range(scale["visits"]):
                ended = relay.carry(daemon.port, ["-d", "net:localhost:flatbed:0", *PIXEL, *user])
                is_right = (ended.status, ended.out, relay.visits) == (0, SCAN, at + 1)
                tally.saw(fault, "its picture" if is_right else ended.what(), is_right, f"the scan {at}, {relay.visits} visits")
                if not is_right:
                    return


def is_passed(session):
    """Two requests are answered, so a whole turn has gone by since the first of them came."""
    for _ in range(2):
        session.tells(wire.getting(1), MODE)


def waits_in_vain(frame):
    """No byte comes on that connection, and no end, in a while."""
    frame.settimeout(0.2)
    try:
        got = frame.recv(64)
    except socket.timeout:
        return
    raise Differs(f"on the connection of a client whose frame is taken came {got.hex() or 'the end'}")


def goes_on(session):
    """A CANCEL is answered, and the frame that its client starts anew is its own."""
    session.cancels()
    session.starts()
    session.takes(session.dials())


def stays(session):
    """He was there before START: the frame is his, and nothing comes to the client that was granted it."""
    stranger = session.dials()
    session.starts()
    is_passed(session)
    with session.dials() as own:
        session.takes(stranger)
        waits_in_vain(own)
    goes_on(session)


def stays_behind(session):
    """He comes behind START's answer and before the client's own connection."""
    session.starts()
    stranger = session.dials()
    is_passed(session)
    with session.dials() as own:
        session.takes(stranger)
        waits_in_vain(own)
    goes_on(session)


def speaks(session):
    """He comes behind START's answer, says something and stays: no client speaks there, so he is dropped without a byte."""
    session.starts()
    with session.daemon.stopped():
        stranger = session.dials()
        says(stranger)
    is_passed(session)
    session.takes(session.dials())
    session.gets_nothing(stranger)


def slips_in(session):
    """He comes and goes between START's answer and the client's own connection: nobody owns what he left, so it is dropped."""
    session.starts()
    session.dials().close()
    is_passed(session)
    session.takes(session.dials())


def slips_in_unseen(session):
    """The same where no owner is told: nothing tells him from a client that only reads, so he takes the frame, which goes to
    nobody."""
    session.starts()
    session.dials().close()
    is_passed(session)
    with session.dials() as own:
        waits_in_vain(own)
    goes_on(session)


def one_piece(session):
    """CANCEL and START in one piece while a frame waits, and the connection of the first frame closed before the daemon
    takes either: nobody owns it then, so it is dropped. Where the daemon was stopped behind its look at the requests it took
    the connection first, and the frame streams."""
    told = starts_in_one_piece(session)
    if not told:
        session.takes(session.dials())
    return told


def one_piece_unseen(session):
    """The same where no owner is told: the daemon saw no moment without a frame that waits, so the connection that was left
    takes the second."""
    told = starts_in_one_piece(session)
    if not told:
        with session.dials() as own:
            waits_in_vain(own)
        goes_on(session)
    return told


def starts_in_one_piece(session):
    """What came where the START is refused, as the first frame streams already, and the next frame is its client's."""
    session.starts()
    with session.daemon.stopped():
        session.dials().close()
        session.control.sendall(wire.cancelling() + wire.starting())
    answer = read(session.control, 20)
    if answer == BUSY_BEHIND_CANCEL:
        is_passed(session)
        session.starts()
        session.takes(session.dials())
        return "START is refused, busy, as the first frame streams; the next frame is its client's"
    if answer != wire.word(0) + wire.words(0, session.port, session.order) + wire.NULL:
        raise Differs(f"CANCEL and START are answered {answer.hex()}")
    is_passed(session)
    return None


def one_piece_behind(session):
    """The same while the frame streams, which is larger than what sockets hold: the START is refused, since the frame's end
    record is to come."""
    session.resolves(1200)
    session.starts()
    frame = session.dials()
    frame.recv(1)
    session.tells(wire.cancelling() + wire.starting(), BUSY_BEHIND_CANCEL)
    frame.close()
    is_passed(session)
    session.resolves(26)
    session.starts()
    session.takes(session.dials())


# What is told of each in the table.
THEFTS = {
    stays: ("a stranger who stays at a data port before START", "the frame is his; after CANCEL the next is its client's"),
    stays_behind: ("a stranger who comes behind START's answer and stays", "the frame is his; after CANCEL the next is its client's"),
    speaks: ("a stranger who comes behind START's answer and speaks", "he is dropped without a byte; the frame is its client's"),
    slips_in: ("a stranger who comes and goes between START's answer and the dial", "he is dropped; the frame is its client's"),
    one_piece: ("CANCEL and START in one piece, the connection left in between", "it is dropped; the frame is its client's"),
    one_piece_behind: ("CANCEL and START in one piece while a frame streams", "START is refused, busy; the next frame is its client's"),
}
# The same, where the daemon has no table of sockets.
UNTOLD = {
    stays: THEFTS[stays],
    stays_behind: THEFTS[stays_behind],
    speaks: THEFTS[speaks],
    slips_in_unseen: (THEFTS[slips_in][0], "the frame is lost, its client waits; after CANCEL the next is its client's"),
    one_piece_unseen: (THEFTS[one_piece][0], "the frame is lost, its client waits; after CANCEL the next is its client's"),
    one_piece_behind: THEFTS[one_piece_behind],
}


def hide_the_table():
    """In a process that has just begun: no /proc for it and what it starts."""
    system = ctypes.CDLL(None, use_errno=True)
    new_mounts, private = 0x20000, 0x44000
    if system.unshare(new_mounts) or system.mount(b"none", b"/", None, private, None) or system.mount(b"none", b"/proc", b"tmpfs", 0, None):
        raise OSError(ctypes.get_errno(), "no mounts of its own")


def can_hide():
    """Whether what this process starts may have mounts of its own: root's, where the system lets him."""
    try:
        return os.geteuid() == 0 and subprocess.run(["true"], preexec_fn=hide_the_table, check=False).returncode == 0
    except (OSError, subprocess.SubprocessError):
        return False


def thefts(tally, scale):
    """What a data connection that carries no password lets happen, and that its client goes on behind it."""
    theft(tally, scale, THEFTS, "")
    if can_hide():
        theft(tally, scale, UNTOLD, ", no /proc", preexec_fn=hide_the_table)
    else:
        print("hostile: no mounts of its own here, so no daemon is without /proc", flush=True)


def theft(tally, scale, acts, where, **more):
    with tempfile.TemporaryDirectory() as folder:
        path, samples = noise_page(folder)
        with Daemon(f"flatbed 0 26 {path}\n", **more) as daemon:
            before = daemon.descriptors()
            for act, (fault, told) in acts.items():
                fault += where
                for at in range(max(2, scale["visits"] // 10)):
                    try:
                        session = Session(daemon, samples, "little")
                        with session.control:
                            session.starts(after=wire.cancelling())
                            came = act(session)
                        tally.saw(fault, came or told, True)
                    except (Differs, OSError) as error:
                        tally.saw(fault, "otherwise", False, f"{at}: {error!r}")
                        break
                    if not daemon.rests_at(before):
                        tally.saw(fault, "connections are held", False)
                        break


def strangers(tally, scale):
    for each in (batches, scans, thefts):
        each(tally, scale)
