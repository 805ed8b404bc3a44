"""Every cut of each worked session: at every byte, each way, by a reset and by an orderly end."""
import os
import tempfile

import wire
from relay import Cut, Relay
from world import LOST, Daemon, connected, is_whole, read
from worked import CONFIG, NINE, SESSIONS, SEVEN, TRAY, WINDOW


def is_free(port, device, tries=2000):
    """Whether that device comes to be free."""
    for _ in range(tries):
        with connected(port) as client:
            client.sendall(wire.INIT + wire.opening(device) + wire.EXIT)
            if read(client, 20) == wire.INIT_REPLY + wire.OPEN_REPLY:
                return True
    return False


def allowed(session, cut, counts, frames):
    """The endings that may come: that of the whole session, and a lost connection."""
    total = counts[cut.way]
    if cut.way == "data":
        ends = {sum(frames[: it + 1]) for it in range(len(frames))}
        if cut.at in ends and (cut.is_reset or cut.at < total):
            return {"whole", "lost"}
        return {"whole"} if cut.at >= total else {"lost"}
    needed = total - (session.after if cut.way == "requests" else session.after_replies)
    if cut.at < needed:
        return {"lost"}
    # The byte that is needed last: the peer may be gone before the job has heard all else.
    return {"whole", "lost"} if cut.at == needed else {"whole"}


def came(session, ended):
    if (ended.status, ended.out, ended.err) == (session.status, session.out, session.err):
        return "whole"
    if ended.status == 9 and ended.err == LOST and not is_whole(ended.out) and session.out.startswith(ended.out):
        return "lost"
    return ended.what()


TELL = {"whole": "ended as if it were not cut, after what it needed last", "lost": "IO_ERROR (lost), 9, a front of the file at most"}


def cut_session(tally, daemon, relay, session, step):
    counts, frames = {}, []
    for _ in range(3):
        # What the job needs no more may be on its way as it ends.
        whole = relay.carry(daemon.port, session.words)
        counts, frames = {way: max(counts.get(way, 0), count) for way, count in relay.counts.items()}, list(relay.frames)
        tally.saw("no cut: the worked sessions over a relay", "as worked" if came(session, whole) == "whole" else whole.what(),
                  came(session, whole) == "whole", session.name)
    for way, total in counts.items():
        for at in range(0, total + 1, step):
            for is_reset in (True, False):
                cut = Cut(way, at, is_reset)
                ended = relay.carry(daemon.port, session.words, cut)
                how = came(session, ended)
                is_right = how in allowed(session, cut, counts, frames)
                is_right &= daemon.is_up() and (session.device is None or is_free(daemon.port, session.device))
                fault = f"{way} cut at a byte, by {'a reset' if is_reset else 'an orderly end'}"
                tally.saw(fault, TELL.get(how, how), is_right, f"{session.name}, {way} at {at} of {total}")


def cuts(tally, scale, only):
    """The sessions whose place is that, of all; a step of more than one leaves bytes out."""
    relay = Relay()
    with Daemon(CONFIG, "--byte-order", "big") as daemon:
        before = daemon.descriptors()
        for session in SESSIONS[only]:
            cut_session(tally, daemon, relay, session, scale["step"])
        tally.saw("a daemon after all cuts", "it stands, with as many descriptors as before", daemon.is_up() and daemon.rests_at(before))


USERS = "ann:secret:flatbed\n"


def password_cuts(tally, scale):
    """The same of a session that answers a challenge."""
    relay = Relay()
    with tempfile.TemporaryDirectory() as folder:
        for name, told in (("users", USERS), ("password", "secret\n")):
            with open(f"{folder}/{name}", "w", encoding="ascii") as file:
                file.write(told)
        first = SESSIONS[0]
        session = first._replace(name="a password", device=None, words=[*first.words, "--user", "ann", "--password-file", f"{folder}/password"])
        with Daemon(CONFIG, "--users", f"{folder}/users", "--seed", "00" * 32) as daemon:
            cut_session(tally, daemon, relay, session, scale["step"])
            ended = relay.carry(daemon.port, session.words)
            tally.saw("a password after all cuts", ended.what(), came(session, ended) == "whole")


def pages_of(folder):
    found = {}
    for name in sorted(os.listdir(folder)):
        with open(f"{folder}/{name}", "rb") as file:
            found[name] = file.read()
    return found


def batch_came(ended, found):
    """How a batch ended: its files are whole but for the last, and one is missing or cut where it is lost."""
    wanted = {"out1.pnm": SEVEN, "out2.pnm": NINE}
    if (ended.status, ended.err, found) == (0, b"", wanted):
        return "whole"
    names = sorted(found)
    fronts = all(wanted.get(it, b"").startswith(found[it]) for it in names) and all(found[it] == wanted[it] for it in names[:-1])
    return "lost" if ended.status == 9 and ended.err == LOST and fronts else ended.what()


def batch_cuts(tally, scale):
    """The same of a batch of two pages, each time on a tray that is full."""
    relay, words, totals, at = Relay(), ["-d", "net:localhost:feeder:0", "-b", *WINDOW], None, {}
    ways = [(way, is_reset) for way in ("requests", "replies", "data") for is_reset in (True, False)]
    while totals is None or ways:
        cut = None if totals is None else Cut(ways[0][0], at.setdefault(ways[0], 0), ways[0][1])
        with tempfile.TemporaryDirectory() as folder, Daemon(TRAY) as daemon:
            ended = relay.carry(daemon.port, words, cut, cwd=folder)
            how = batch_came(ended, pages_of(folder))
            is_right = how in ("whole", "lost") and daemon.is_up() and is_free(daemon.port, "feeder:0")
        if totals is None:
            totals = dict(relay.counts)
            tally.saw("no cut: the worked sessions over a relay", "as worked" if how == "whole" else how, how == "whole", "a batch")
            continue
        needed = totals[cut.way] - {"requests": 12, "replies": 4, "data": 0}[cut.way]
        is_right &= how == "lost" or cut.at >= needed or cut.way == "data"
        told = {**TELL, "lost": "IO_ERROR (lost), 9, the pages before it whole"}.get(how, how)
        tally.saw("a batch cut at a byte", told, is_right, f"{cut} of {totals}")
        at[ways[0]] += scale["batch"]
        if at[ways[0]] > totals[cut.way]:
            ways.pop(0)
