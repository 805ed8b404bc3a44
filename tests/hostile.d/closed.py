"""Standard descriptors that are closed: each of the eight subsets of input, output and error, at each kind of job, here and
over the net, and at a daemon. Where standard output is closed and something is to be written there the job ends as output,
9; else it is Done with the right file; and no byte comes on a connection that is not of the job."""
import itertools
import os
import tempfile

import wire
from cuts import pages_of
from relay import Relay
from world import OUTPUT, SANED, Daemon, connected, ending, is_at_end, page, read, scan, start
from worked import DOT, NINE, SEVEN, WINDOW

FAULT = "standard descriptors that are closed"
SUBSETS = [gone for count in range(4) for gone in itertools.combinations(range(3), count)]
CONFIG = (
    f"flatbed 0 26 {page('P5 1 1 255', bytes([10]))}\n"
    f"feeder 0 26 {page('P5 1 1 255', bytes([7]))} {page('P5 1 1 255', bytes([9]))}\n"
)

# A job: its words here, those over the net, what it prints and the files that it makes.
LISTED = b"device `%sflatbed:0' is a Virtual Flatbed flatbed scanner\ndevice `%sfeeder:0' is a Virtual Feeder sheetfed scanner\n"
JOBS = {
    "-L": (["-L"], ["-L", "--net", "localhost"], {}),
    "-A": (["-A"], ["-A", "-d", "net:localhost:flatbed:0"], {}),
    "a scan": (WINDOW, ["-d", "net:localhost:flatbed:0", *WINDOW], {}),
    "a scan to a file": ([*WINDOW, "-o", "picture"], ["-d", "net:localhost:flatbed:0", *WINDOW, "-o", "picture"], {"picture": DOT}),
    "a batch": (["-d", "feeder:0", "-b", *WINDOW], ["-d", "net:localhost:feeder:0", "-b", *WINDOW], {"out1.pnm": SEVEN, "out2.pnm": NINE}),
}


def closing(gone):
    """Before a program starts: these descriptors are closed."""
    return lambda: [os.close(it) for it in gone]


class Recorded(Relay):
    """A relay that keeps what goes each way."""

    def begin(self):
        self.said = {"requests": b"", "replies": b"", "data": b"", "nothing": b""}

    def passes(self, way, piece):
        self.said[way] += piece


def printed(name, is_net):
    """What a job prints where its standard output is open."""
    if name == "-L":
        prefix = b"net:localhost:" if is_net else b""
        return LISTED % (prefix, prefix)
    return {"a scan": DOT}.get(name, b"" if name != "-A" else None)


def outcome(name, gone, ended, files, is_net, table):
    """What came of a job, in words; and whether that is right."""
    out = table if name == "-A" else printed(name, is_net)
    wanted = JOBS[name][2]
    if 1 in gone and out:
        is_right = ended.status == 9 and ended.err == (b"" if 2 in gone else OUTPUT) and not files
        return "IO_ERROR (output), 9" if is_right else f"{ended.what()}, files {sorted(files)}", is_right
    is_right = (ended.status, ended.err, files) == (0, b"", wanted) and ended.out == (b"" if 1 in gone else out)
    return "Done, as with all open" if is_right else f"{ended.what()}, files {sorted(files)}", is_right


def jobs_here(tally):
    with tempfile.TemporaryDirectory() as folder:
        with open(f"{folder}/config", "w", encoding="ascii") as file:
            file.write(CONFIG)
        config = ["--config", f"{folder}/config"]
        table = scan([*config, "-A"]).out
        for name, gone in itertools.product(JOBS, SUBSETS):
            with tempfile.TemporaryDirectory() as here:
                ended = scan([*config, *JOBS[name][0]], cwd=here, preexec_fn=closing(gone))
                told, is_right = outcome(name, gone, ended, pages_of(here), False, table)
                with open(f"{folder}/config", encoding="ascii") as file:
                    is_right &= file.read() == CONFIG
                tally.saw(f"{FAULT}: {name}", told, is_right and table.startswith(b"All options"), f"{gone} closed: {ended.err!r}")
        for gone in SUBSETS:
            ended = scan(["--config", "-", *WINDOW], CONFIG.encode(), preexec_fn=closing(gone))
            if 0 in gone:
                is_right = ended.status == 65 and ended.err == (b"" if 2 in gone else b"scanimage: cannot read -\n") and ended.out == b""
                tally.saw(f"{FAULT}: a config on standard input", "cannot read -, 65" if is_right else ended.what(), is_right, f"{gone} closed")


def carried(relay, words, here, gone):
    """Runs a job over a relay to a daemon of its own; how it ended, and what was said each way."""
    with Daemon(CONFIG) as daemon:
        relay.begin()
        ended = relay.carry(daemon.port, words, cwd=here, preexec_fn=closing(gone))
        return ended, dict(relay.said)


def jobs_over_the_net(tally):
    """What scanimage says on its connections is what it says with all descriptors open; where its output fails it is what it
    says where the output is a full device."""
    relay = Recorded()
    for name, (_, words, _) in JOBS.items():
        with tempfile.TemporaryDirectory() as here:
            open_end, open_said = carried(relay, words, here, ())
            with open("/dev/full", "wb") as full, Daemon(CONFIG) as daemon:
                relay.begin()
                relay.carry(daemon.port, words, cwd=here, stdout=full)
                full_said = dict(relay.said)
        for gone in SUBSETS:
            with tempfile.TemporaryDirectory() as here:
                ended, said = carried(relay, words, here, gone)
                told, is_right = outcome(name, gone, ended, pages_of(here), True, open_end.out)
            own = full_said if told.startswith("IO_ERROR") else open_said
            is_own = said["requests"] == own["requests"] and said["nothing"] == b""
            told += "" if is_own else f", and other bytes on its connections: {said['requests']!r}, {said['nothing']!r}"
            tally.saw(f"{FAULT}: {name}, over the net", told, is_right and is_own, f"{gone} closed: {ended.err!r}")


def serves(port):
    """Two clients at once, whose every byte is theirs: of a scan, and of one that asks for the list and then says nothing."""
    with connected(port) as quiet, connected(port) as client:
        quiet.sendall(wire.INIT + wire.LIST)
        client.sendall(wire.INIT + wire.opening("flatbed:0") + wire.PIXEL + wire.starting())
        greeted = wire.INIT_REPLY + wire.OPEN_REPLY + wire.PIXEL_REPLIES
        got = read(client, len(greeted) + 16)
        at = wire.is_started(got[len(greeted) :])
        if not got.startswith(greeted) or not at:
            return False
        with connected(at) as frame:
            is_right = wire.payload(read(frame, 1 << 16)) == b"\x0a"
        client.sendall(wire.closing() + wire.EXIT)
        is_right &= read(client, 4) == wire.word(0) and is_at_end(client)
        listed = wire.INIT_REPLY + wire.devices(("flatbed:0", "Virtual", "Flatbed", "flatbed scanner"), ("feeder:0", "Virtual", "Feeder", "sheetfed scanner"))
        quiet.sendall(wire.EXIT)
        return is_right and read(quiet, len(listed)) == listed and is_at_end(quiet)


def daemons(tally):
    """Its port is found where it listens, also where its line of the port is written to nobody."""
    for gone in SUBSETS:
        with Daemon(CONFIG, "--sessions", "2", preexec_fn=closing(gone)) as daemon:
            port = daemon.port or daemon.found()
            is_right = port is not None and serves(port)
            ended = ending(daemon.process)
            is_right &= (ended.status, ended.out, ended.err) == (0, b"", b"")
            tally.saw(f"{FAULT}: saned", "two clients with their own bytes" if is_right else f"otherwise: {ended.what()}", is_right, f"{gone} closed")
    for gone in SUBSETS:
        if 0 in gone:
            ended = ending(start(["--config", "-", "--port", "0", "--idle-turns", "100"], SANED, preexec_fn=closing(gone)))
            is_right = ended.status == 65 and ended.err == (b"" if 2 in gone else b"saned: cannot read -\n") and ended.out == b""
            tally.saw(f"{FAULT}: a config on saned's standard input", "cannot read -, 65" if is_right else ended.what(), is_right, f"{gone} closed")


def closed(tally, scale):
    jobs_here(tally)
    jobs_over_the_net(tally)
    daemons(tally)
