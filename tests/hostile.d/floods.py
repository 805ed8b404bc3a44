"""A daemon whose lines are a megabyte long for one place of a picture: the frames of a scan that scanimage keeps until the
picture is whole. The file is right, and the row tells the most memory that a scanimage took, at most BOUND, in MiB."""
import threading

import wire
from gauge import Gauge
from noise import FAKE_REPLIES, SCAN
from world import LIMIT, Ended, listening, netpbm, start

LINE = 1 << 20
BOUND = 8
UNKNOWN = 0xFFFFFFFF
END = b"\xff\xff\xff\xff\x05"


def params(frame, is_last, lines):
    return wire.words(0, frame, is_last, LINE, 1, lines, 8)


def ended_of(process):
    """How a program ended; one that does not end in time is ended."""
    clock = threading.Timer(LIMIT, process.kill)
    clock.start()
    out, err = process.stdout.read(), process.stderr.read()
    process.wait()
    clock.cancel()
    return Ended(None if process.returncode == -9 else process.returncode, out, err)


def flood(frames, lines):
    """Runs scanimage against these frames of so many lines, each in a record of 65,536 bytes and its end in others: how it
    ended, and the most memory that it had, in MiB."""
    with listening() as control, listening() as data:
        port = data.getsockname()[1]
        started = wire.words(0, port, 0x1234) + wire.NULL
        process = start([*SCAN, "--port", str(control.getsockname()[1])])
        for listener in (control, data):
            listener.settimeout(LIMIT)
        with Gauge(process, "scanimage") as gauge, control.accept()[0] as one:
            one.sendall(FAKE_REPLIES + b"".join(started + it for it in frames))
            for at in range(len(frames)):
                with data.accept()[0] as frame:
                    send(frame, bytes([at + 1]), lines)
            return ended_of(process), gauge.most / 1024


def send(frame, sample, lines):
    line = sample + b"\xee" * (LINE - 1)
    line = b"".join(wire.word(65536) + line[it : it + 65536] for it in range(0, LINE, 65536))
    try:
        for _ in range(lines):
            frame.sendall(line)
        frame.sendall(END)
    except OSError:
        # What scanimage says of the job is looked at.
        pass


def floods(tally, scale):
    lines = scale["lines"]
    known = [params(it, it == 4, lines) for it in (2, 3, 4)]
    for name, frames, wanted in (
        ("a frame of no known height", [params(0, 1, UNKNOWN)], netpbm(f"P5 1 {lines} 255", b"\1" * lines)),
        ("three passes", known, netpbm(f"P6 1 {lines} 255", b"\1\2\3" * lines)),
    ):
        ended, most = flood(frames, lines)
        is_right = (ended.status, ended.out) == (0, wanted) and 0 < most <= BOUND
        told = f"its picture of {len(wanted):,} bytes, in {most:.0f} MiB of memory" if ended.out == wanted else ended.what()
        tally.saw(f"lines of a megabyte for one place: {name}", told, is_right, f"{len(frames) * lines} lines")
