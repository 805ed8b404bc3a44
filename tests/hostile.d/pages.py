"""Page files that shrink, grow, vanish or become something else between open and read, and pages that are no files."""
import functools
import os
import pty
import tempfile

from world import SANED, Daemon, ending, is_whole, netpbm, page, scan, start

IO_ERROR = b"scanimage: SANE_STATUS_IO_ERROR (answer)\n"

# A page whose rows have a shade each. Its picture in color has 53 MB, so that behind the first byte of it far less than a half
# can be on the way: sockets and pipes together hold a few MB.
COLUMNS, ROWS, DPI = 944, 9448, 1200
SHADES = [bytes([it % 251]) for it in range(ROWS)]
PAGE = netpbm(f"P5 {COLUMNS} {ROWS} 255", b"".join(it * COLUMNS for it in SHADES), b"")
WINDOW = f"--resolution {DPI} --br-x 20 --br-y 200".split()


@functools.cache
def picture(is_color):
    if is_color:
        return netpbm(f"P6 {COLUMNS} {ROWS} 65535", b"".join(it * (6 * COLUMNS) for it in SHADES))
    return netpbm(f"P5 {COLUMNS} {ROWS} 255", PAGE[-COLUMNS * ROWS :])


def shrink(path):
    os.truncate(path, len(PAGE) // 2)


def empty(path):
    os.truncate(path, 0)


def grow(path):
    with open(path, "ab") as file:
        file.write(b"more" * 1000)


def vanish(path):
    os.remove(path)


def become(make):
    def change(path):
        os.rename(path, path + ".old")
        make(path)
    return change


CHANGES = [
    ("shrinks", shrink, 9), ("is emptied", empty, 9), ("grows", grow, 0), ("vanishes", vanish, 0),
    ("becomes a directory", become(os.mkdir), 0), ("becomes a pipe", become(os.mkfifo), 0),
    ("becomes a terminal", become(lambda path: os.symlink("/dev/tty", path)), 0),
]


def changed_at(tally, name, change, status, way):
    """The page changes after it was opened: before a daemon's scan, or in the midst of a frame, here and there."""
    with tempfile.TemporaryDirectory() as folder:
        path, config = f"{folder}/page", f"flatbed 0 {DPI} {folder}/page\nhand 0 75 {page('P5 1 10 255', bytes(10))}\n"
        with open(path, "wb") as file:
            file.write(PAGE)
        with open(f"{folder}/config", "w", encoding="ascii") as file:
            file.write(config)
        with Daemon(config) as daemon:
            words = ["--config", f"{folder}/config"] if way == "here" else ["--port", str(daemon.port)]
            words += ["-d", "flatbed:0" if way == "here" else "net:localhost:flatbed:0", *WINDOW]
            if way == "before":
                change(path)
                ended, got = scan(words), None
                got = ended.out
            else:
                process = start([*words, "--mode", "Color", "--depth", "16"], bufsize=0)
                got = process.stdout.read(1)
                change(path)
                ended = ending(process)
                got += ended.out
            if status == 0:
                is_right = ended.status == 0 and got == picture(way != "before")
            else:
                is_right = (ended.status, ended.err) == (9, IO_ERROR) and not is_whole(got)
            again = scan(["-d", "net:localhost:hand:0", "-n", "--port", str(daemon.port)])
            is_right &= again.status == 0
    place = {"before": "between open and read", "there": "in the midst of a frame", "here": "in the midst of a frame"}[way]
    told = "its picture, as it was" if ended.status == 0 else "IO_ERROR (answer), 9, no whole file"
    tally.saw(f"a page file that {name} {place}", told if is_right else ended.what(), is_right, way)


def opened_as(tally, name, make):
    """A page that is no file: it cannot be read, at once."""
    with tempfile.TemporaryDirectory() as folder:
        held = make(f"{folder}/page")
        config = f"flatbed 0 254 {folder}/page\n"
        for program, words in ((None, ["--config", "-", "-L"]), (SANED, ["--config", "-", "--port", "0", "--idle-turns", "1"])):
            ended = scan(words, config.encode(), limit=20, program=program)
            is_right = ended.status == 65 and ended.err.endswith((b": config line 1: cannot read page\n", b": config line 1: page fault 1\n"))
            tally.saw(f"a page that is {name}", ended.what(), is_right, str(program))
        if held:
            held()


def terminal(path):
    main, other = pty.openpty()
    os.symlink(os.ttyname(other), path)
    return lambda: (os.close(main), os.close(other))


def held_pipe(path):
    os.mkfifo(path)
    held = os.open(path, os.O_RDWR)
    return lambda: os.close(held)


def pages(tally, scale):
    for name, change, status in CHANGES:
        for way in ("before", "there", "here"):
            changed_at(tally, name, change, status, way)
    opened_as(tally, "a directory", os.mkdir)
    opened_as(tally, "a pipe with a writer", held_pipe)
    opened_as(tally, "a terminal", terminal)
    opened_as(tally, "a broken link", lambda path: os.symlink("nowhere", path))
    opened_as(tally, "/dev/null", lambda path: os.symlink("/dev/null", path))
    opened_as(tally, "/dev/zero", lambda path: os.symlink("/dev/zero", path))
