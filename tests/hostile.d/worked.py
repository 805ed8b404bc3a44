"""The worked sessions: what scanimage is asked, what must come, and what stands on the daemon for them."""
import collections

from world import netpbm, page

DOT = netpbm("P5 1 1 255", b"\x0a")
THREE = netpbm("P6 2 1 65535", bytes.fromhex("000100020003000400050100"))
COLORS = netpbm("P6 2 1 255", bytes.fromhex("010203040506"))
SEVEN, NINE = netpbm("P5 1 1 255", b"\7"), netpbm("P5 1 1 255", b"\x09")

# Page of the hand scanner: ten black dots below each other; off the page all is white.
HAND = b"P4\n# SANE data follows\n324 10\n" + (b"\x80" + b"\0" * 40) * 10

CONFIG = "\n".join([
    f"flatbed 0 26 {page('P5 1 1 255', bytes([10]))}",
    f"hand 0 75 {page('P5 1 10 255', bytes(10))}",
    f"threepass 0 26 {page('P6 2 1 65535', bytes.fromhex('000100020003000400050100'))}",
    f"flatbed 1 26 {page('P6 2 1 255', bytes.fromhex('010203040506'))}",
    f"hand 42 75 {page('P5 1 10 255', bytes(10))}",
]) + "\n"
TRAY = f"feeder 0 26 {page('P5 1 1 255', bytes([7]))} {page('P5 1 1 255', bytes([9]))}\n"

WINDOW = "--resolution 26 --br-x 1 --br-y 1".split()
OPTIONS = b"""All options specific to device `hand:0':
    --mode Gray|Color [Gray]
    --depth 1|8bit [8]
    --resolution 75|100|150|300dpi [75]
    --hand-scanner yes|no [yes] [read-only]
"""
LISTED = b"""device `net:localhost:flatbed:0' is a Virtual Flatbed flatbed scanner
device `net:localhost:hand:0' is a Virtual Hand handheld scanner
device `net:localhost:threepass:0' is a Virtual ThreePass flatbed scanner
device `net:localhost:flatbed:1' is a Virtual Flatbed flatbed scanner
device `net:localhost:hand:42' is a Virtual Hand handheld scanner
"""

# What is asked of which device, what is printed, the status and what is told, and how many bytes of requests and of
# replies come once the job is Done.
Session = collections.namedtuple("Session", "name words out status err after after_replies device")


def job(name, device, words, out, status=0, err=b"", after=(12, 4)):
    return Session(name, ["-d", f"net:localhost:{device}", *words], out, status, err, *after, device)


SESSIONS = [
    job("one pixel", "flatbed:0", WINDOW, DOT),
    job("three passes", "threepass:0", "--mode Color --depth 16 --three-pass-order BGR --resolution 26 --br-x 2 --br-y 1".split(), THREE),
    job("a frame of no known height", "hand:0", ["--depth", "1"], HAND),
    job("records of one byte", "flatbed:1", "--mode Color --resolution 26 --br-x 2 --br-y 1 --ppl-loss 3 --read-limit-size 1".split(), COLORS),
    job("the option table", "hand:0", ["-A"], OPTIONS),
    job("settings alone", "flatbed:0", ["-n", "--br-x", "80.5"], b"", 0, b"scanimage: rounded value of br-x from 80.5 to 81\n"),
    job("a scan that is refused", "flatbed:0", "--resolution 25 --br-x 1 --br-y 1".split(), b"", 4, b"scanimage: SANE_STATUS_INVAL (answer)\n", (0, 0)),
    job("a frame that ends at once", "flatbed:0", [*WINDOW, "--read-return-value", "SANE_STATUS_EOF"], DOT[:-1], 9,
        b"scanimage: SANE_STATUS_IO_ERROR (short)\n", (0, 0)),
    Session("the list", ["-L", "--net", "localhost"], LISTED, 0, b"", 4, 0, None),
]
