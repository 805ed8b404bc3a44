"""Requests in every order of length three, also such orders as no client sends, each with the reply that the
request context's rules tell."""
import itertools
import tempfile

import wire
from world import Daemon, connected, is_at_end, read
from worked import CONFIG

DEVICES = wire.devices(
    ("flatbed:0", "Virtual", "Flatbed", "flatbed scanner"),
    ("hand:0", "Virtual", "Hand", "handheld scanner"),
    ("threepass:0", "Virtual", "ThreePass", "flatbed scanner"),
    ("flatbed:1", "Virtual", "Flatbed", "flatbed scanner"),
    ("hand:42", "Virtual", "Hand", "handheld scanner"),
)

# A reply in which the two bytes of a frame's port may be any, and one in which the challenge may be any.
PORT, CHALLENGE = b"port", b"challenge"
ASKED = wire.words(0, 0, 45) + b"flatbed$MD5$"


def answers(got, wanted):
    if wanted is PORT:
        return wire.is_started(got) is not None
    if wanted is CHALLENGE:
        return got.startswith(ASKED) and len(got) == 57 and got[-1] == 0
    return got == wanted


def size(reply):
    return 16 if reply is PORT else 57 if reply is CHALLENGE else len(reply)


class RequestContext:
    """One session, one flatbed, by the rules: a reply, or none where the session ends."""

    def __init__(self, has_users):
        self.has_users, self.has_begun, self.has_device, self.has_frame = has_users, False, False, False
        self.awaits, self.is_set, self.resolution = False, False, 50

    def answer(self, name):
        if not self.has_begun and name not in ("init", "old init"):
            return None
        if self.awaits:
            self.awaits = False
            return wire.word(0) + wire.words(11, 0) + wire.NULL if name == "authorize" else None
        return getattr(self, "on_" + name.replace(" ", "_"))()

    def on_init(self):
        self.has_begun = True
        return wire.INIT_REPLY

    def on_old_init(self):
        return wire.words(4, wire.VERSION), None

    def on_list(self):
        return DEVICES

    def on_open(self):
        if self.has_users:
            self.awaits = True
            return CHALLENGE
        status, self.has_device = (3 if self.has_device else 0), True
        return wire.words(status, 0) + wire.NULL

    def on_open_none(self):
        return wire.words(4, 0) + wire.NULL

    def on_close(self):
        self.has_device = self.has_frame = self.is_set = False
        self.resolution = 50
        return wire.word(0)

    def on_close_none(self):
        return wire.word(0)

    def on_describe(self):
        return wire.descriptors(wire.FLATBED) if self.has_device else wire.word(0)

    def on_get(self):
        if not self.has_device:
            return wire.words(4, 0) + wire.one_word(1, 0) + wire.NULL
        return wire.words(0, 0) + wire.one_word(1, self.resolution) + wire.NULL

    def on_set(self):
        status = 4 if not self.has_device else 3 if self.has_frame else 0
        self.resolution = 26 if status == 0 else self.resolution
        return wire.words(status, 4 if status == 0 else 0) + wire.one_word(1, 26) + wire.NULL

    def on_params(self):
        if not self.has_device:
            return wire.words(4, 0, 0, 0, 0, 0, 0)
        if self.is_set:
            return wire.words(0, 0, 1, 1, 1, 1, 8)
        # The whole dots of 80 mm and of 100 mm.
        dots = (self.resolution * 800 // 254, self.resolution * 1000 // 254)
        return wire.words(0, 0, 1, dots[0], dots[0], dots[1], 8)

    def on_start(self):
        if not self.has_device:
            return wire.words(4, 0, 0x1234) + wire.NULL
        if self.has_frame:
            return wire.words(3, 0, 0x1234) + wire.NULL
        self.has_frame = True
        return PORT

    def on_cancel(self):
        self.has_frame = False
        return wire.word(0)

    def on_authorize(self):
        return None

    def on_exit(self):
        return None


REQUESTS = {
    "init": wire.INIT,
    "old init": wire.OLD_INIT,
    "list": wire.LIST,
    "open": wire.opening("flatbed:0"),
    "open none": wire.opening("flatbed:7"),
    "close": wire.closing(),
    "close none": wire.closing(3),
    "describe": wire.asking(),
    "get": wire.getting(3),
    "set": wire.setting(3, 1, 26),
    "params": wire.measuring(),
    "start": wire.starting(),
    "cancel": wire.cancelling(),
    "authorize": wire.authorizing("flatbed$MD5$0"),
    "exit": wire.EXIT,
}


def differs(client, context, order):
    """What the replies to these requests, sent at once, differ in; and whether the session goes on."""
    client.sendall(b"".join(REQUESTS[it] for it in order))
    for name in order:
        answer = context.answer(name)
        if answer is None:
            return None, False
        reply, goes_on = (answer[0], False) if isinstance(answer, tuple) else (answer, True)
        got = read(client, size(reply))
        if not answers(got, reply):
            return f"another reply to {name}: {got.hex()}", True
        if not goes_on:
            return None, False
    return None, True


def try_order(port, prefix, order):
    context = RequestContext(prefix == "a challenge")
    with connected(port) as client:
        if prefix == "a device":
            client.sendall(wire.INIT + wire.opening("flatbed:0") + wire.PIXEL)
            if read(client, 20 + len(wire.PIXEL_REPLIES)) != wire.INIT_REPLY + wire.OPEN_REPLY + wire.PIXEL_REPLIES:
                return "another reply to the settings"
            context.has_begun = context.has_device = context.is_set = True
            context.resolution = 26
        if prefix == "a challenge":
            client.sendall(wire.INIT + wire.opening("flatbed:0"))
            if not answers(read(client, 65)[8:], CHALLENGE):
                return "no challenge"
            context.has_begun = context.awaits = True
        told, goes_on = differs(client, context, order)
        if told:
            return told
        if goes_on:
            client.sendall(wire.EXIT)
        return None if is_at_end(client) else "bytes behind the last reply"


def orders(tally, scale):
    for prefix, words in (("nothing", []), ("a device", []), ("a challenge", ["--users"])):
        with tempfile.NamedTemporaryFile("w") as users:
            users.write("ann:secret:flatbed\n")
            users.flush()
            words = ["--users", users.name, "--seed", "00" * 32] if words else []
            with Daemon(CONFIG, *words) as daemon:
                before = daemon.descriptors()
                for order in itertools.islice(itertools.product(REQUESTS, repeat=3), 0, None, scale["orders"]):
                    told = try_order(daemon.port, prefix, order)
                    tally.saw(f"requests in each order of three, behind {prefix}", told or "each reply as the rules tell it", told is None, " ".join(order))
                is_well = daemon.is_up() and daemon.rests_at(before)
                tally.saw("a daemon after all orders", "it stands, with as many descriptors as before", is_well, prefix)
