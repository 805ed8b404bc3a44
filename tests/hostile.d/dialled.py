"""Data connections that scanimage makes before the parameters of their frame are told (--dial-first), by daemons that wait for
them, never answer, hang up, or name a port where nobody listens."""
import contextlib
import select
import signal
import socket

from early import came, replies_of
from noise import DATA, PARAMS, SCAN
from world import LIMIT, LOST, ending, listening, start
from worked import DOT

# Within this a connection comes that is made first.
SOON = 0.5


def begun(control, port):
    """Answers a scan of one pixel up to START; its request for the parameters is heard then, and not answered."""
    control.settimeout(LIMIT)
    for reply in replies_of(port)[:-1]:
        came(control, 1, 20)
        control.sendall(reply)
    came(control, 1, 20)


def played(words, play, port=None):
    """A scan with these words from a daemon that waits behind START; `play` is given its control connection, where data connections
    come, and the scan. Gives what `play` did, and how the scan ended."""
    with listening() as one, listening() as data:
        process = start([*SCAN, *words, "--port", str(one.getsockname()[1])])
        one.settimeout(LIMIT)
        with one.accept()[0] as control:
            begun(control, port or data.getsockname()[1])
            did = play(control, data, process)
        return did, ending(process)


def is_there(data):
    """Whether a data connection has come."""
    return bool(select.select([data], [], [], SOON)[0])


def ends_of(frame):
    """Whether the other end of a data connection is closed."""
    frame.settimeout(LIMIT)
    with contextlib.suppress(OSError):
        return frame.recv(1) == b""
    return True


def waits(control, data, _process):
    """As SANE's own daemon: the connection first, and then the parameters; no other connection comes."""
    if not is_there(data):
        return "no connection"
    with data.accept()[0] as frame:
        control.sendall(PARAMS)
        frame.sendall(DATA)
        closed = ends_of(frame)
    came(control, 1, 20)
    with contextlib.suppress(OSError):
        control.sendall(bytes(4))
    return "one connection, closed behind its frame" if closed and not is_there(data) else "another connection"


def hangs_up(control, data, _process):
    with data.accept()[0] as frame:
        control.shutdown(socket.SHUT_RDWR)
        return "closed" if ends_of(frame) else "left open"


def is_interrupted(_control, data, process):
    with data.accept()[0] as frame:
        process.send_signal(signal.SIGINT)
        return "closed" if ends_of(frame) else "left open"


def refuses(control, data, _process):
    """An error in the place of the parameters."""
    with data.accept()[0] as frame:
        control.sendall(b"\0\0\0\x06" + PARAMS[4:])
        return "closed" if ends_of(frame) else "left open"


def goes_on(control, data, _process):
    """The parameters where no connection could be made: it is tried again, at that port, and cannot be made."""
    control.sendall(PARAMS)
    return "none" if not is_there(data) else "a connection"


def comes_late(control, data, _process):
    """Without the flag none comes before the parameters."""
    before = is_there(data)
    control.sendall(PARAMS)
    with data.accept()[0] as frame:
        frame.sendall(DATA)
        ends_of(frame)
    with contextlib.suppress(OSError):
        came(control, 1, 20)
        control.sendall(bytes(4))
    return "early" if before else "behind the parameters"


def dialled(tally, _scale):
    """What becomes of a connection that is made first, and of the scan."""
    first = ["--dial-first"]
    did, ended = played(first, waits)
    tally.saw("a daemon that waits for the connection", f"{did}; {'its picture' if ended.out == DOT else ended.what()}",
              (did, ended.status, ended.out) == ("one connection, closed behind its frame", 0, DOT))
    did, ended = played(first, hangs_up)
    tally.saw("a daemon that hangs up behind the connection", f"{did}; {ended.what()}", (did, ended.status, ended.out, ended.err) == ("closed", 9, b"", LOST))
    did, ended = played(first, refuses)
    tally.saw("a daemon that refuses the parameters", f"{did}; {ended.what()}", (did, ended.status, ended.out) == ("closed", 6, b""))
    did, ended = played(first, is_interrupted)
    tally.saw("a daemon that never answers, and an interrupt", f"{did}; {ended.what()}", (did, ended.status, ended.out) == ("closed", -signal.SIGINT, b""))
    with socket.socket() as free:
        free.bind(("127.0.0.1", 0))
        did, ended = played(first, goes_on, free.getsockname()[1])
    tally.saw("a port where nobody listens", f"{did}; {ended.what()}", (did, ended.status, ended.err) == ("none", 9, LOST) and ended.out in (b"", DOT[:-1]))
    did, ended = played([], comes_late)
    tally.saw("a connection without the flag", f"{did}; {'its picture' if ended.out == DOT else ended.what()}", (did, ended.status, ended.out) == ("behind the parameters", 0, DOT))
