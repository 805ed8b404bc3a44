"""The wire's words, as the formats spell them, and the daemon's replies, as its rules have them."""
import struct

VERSION = 0x01000003


def word(number):
    return struct.pack(">I", number & 0xFFFFFFFF)


def words(*numbers):
    return b"".join(map(word, numbers))


def text(name):
    return word(len(name) + 1) + name.encode() + b"\0"


EMPTY = text("")
NULL = word(0)

INIT = words(0, VERSION) + text("user")
OLD_INIT = words(0, 0x02000003) + text("user")
LIST = word(1)
EXIT = word(10)


def opening(name):
    return word(2) + text(name)


def closing(device=0):
    return words(3, device)


def asking(device=0):
    return words(4, device)


def one_word(kind, number):
    """A value of one word: its type, its size, and it."""
    return words(kind, 4, 1, number)


def setting(number, kind, value, device=0):
    return words(5, device, number, 1) + one_word(kind, value)


def getting(number, device=0):
    return words(5, device, number, 0) + one_word(1, 0)


def measuring(device=0):
    return words(6, device)


def starting(device=0):
    return words(7, device)


def cancelling(device=0):
    return words(8, device)


def authorizing(resource, user="ann", password="$MD5$" + "0" * 32):
    return word(9) + text(resource) + text(user) + text(password)


# The settings of one pixel at 26 dots per inch: resolution, br-x, br-y.
PIXEL = setting(3, 1, 26) + setting(6, 2, 65536) + setting(7, 2, 65536)
PIXEL_REPLIES = b"".join(words(0, 4) + one_word(*it) + NULL for it in [(1, 26), (2, 65536), (2, 65536)])
INIT_REPLY = words(0, VERSION)
OPEN_REPLY = words(0, 0) + NULL

# A scan of that pixel, its frame's data connection apart.
PIXEL_SCAN = INIT + opening("flatbed:0") + asking() + PIXEL + starting() + measuring() + closing() + EXIT

MODE = ["Gray", "Color"]
TOLD = ["Default"] + [
    f"SANE_STATUS_{it}"
    for it in "UNSUPPORTED CANCELLED DEVICE_BUSY INVAL EOF JAMMED NO_DOCS COVER_OPEN IO_ERROR NO_MEM ACCESS_DENIED".split()
]
LENGTH = (0, 200 << 16, 1 << 16)

# The options of a flatbed: name, title, type, unit, size, capabilities, range, list of numbers, or list of texts.
FLATBED = [
    ("", "Number of options", 1, 0, 4, 4, None),
    ("mode", "Scan mode", 3, 0, 6, 5, MODE),
    ("depth", "Bit depth", 1, 2, 4, 5, [1, 8, 16]),
    ("resolution", "Scan resolution", 1, 4, 4, 5, (1, 1200, 1)),
    ("tl-x", "Top-left x", 2, 3, 4, 5, LENGTH),
    ("tl-y", "Top-left y", 2, 3, 4, 5, LENGTH),
    ("br-x", "Bottom-right x", 2, 3, 4, 5, LENGTH),
    ("br-y", "Bottom-right y", 2, 3, 4, 5, LENGTH),
    ("gamma-table", "Gamma table", 1, 0, 1024, 5, (0, 255, 1)),
    ("ppl-loss", "Lost pixels per line", 1, 1, 4, 5, (0, 64, 1)),
    ("read-limit-size", "Read limit", 1, 0, 4, 5, (1, 65536, 1)),
    ("read-return-value", "Read return value", 3, 0, 26, 5, TOLD),
    *((f"{it.lower()}-gamma-table", f"{it} gamma table", 1, 0, 1024, 37, (0, 255, 1)) for it in ("Red", "Green", "Blue")),
]


def constraint(allowed):
    if allowed is None:
        return word(0)
    if isinstance(allowed, tuple):
        return words(1, 0, *allowed)
    if isinstance(allowed[0], int):
        return words(2, len(allowed) + 1, len(allowed), *allowed)
    return words(3, len(allowed) + 1) + b"".join(map(text, allowed)) + NULL


def descriptors(options):
    told = [
        word(0) + text(name) + text(title) + text(title) + words(kind, unit, size, caps) + constraint(allowed)
        for name, title, kind, unit, size, caps, allowed in options
    ]
    return word(len(options)) + b"".join(told)


def devices(*infos):
    """The reply of GET_DEVICES: name, vendor, model and type of each."""
    return words(0, len(infos) + 1) + b"".join(word(0) + b"".join(map(text, it)) for it in infos) + word(1)


def is_started(reply, order=0x1234):
    """Whether these 16 bytes answer a START that was granted; its port, then."""
    status, port, told = struct.unpack(">III", reply[:12])
    return port if len(reply) == 16 and status == 0 and told == order and reply[12:] == NULL and 0 < port < 65536 else None


def payload(text):
    """The payload of a frame out of all bytes of its data connection; none where it does not end as it must."""
    out = b""
    while text[:4] != b"\xff\xff\xff\xff":
        size = int.from_bytes(text[:4], "big")
        out, text = out + text[4 : 4 + size], text[4 + size :]
        if len(text) < 5:
            return None
    return out if text[4:] == b"\x05" else None
