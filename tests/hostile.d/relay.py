"""What stands between scanimage and a daemon, counts what goes each way, and cuts one way after so many bytes."""
import collections
import os
import re
import select
import socket
import time

from world import LIMIT, Ended, connected, ending, listening, reset, start

# Which way, after how many bytes of it, and whether both peers find a reset or an orderly end.
Cut = collections.namedtuple("Cut", "way at is_reset")

# A START that is granted: its port is made the relay's.
STARTED = re.compile(b"\0\0\0\0\0\0(..)\0\0[\x12\x43][\x34\x21]\0\0\0\0", re.DOTALL)


class Pair:
    """A connection of scanimage and that of the daemon which belongs to it."""

    def __init__(self, client, daemon, ways):
        self.ends, self.ways, self.is_cut, self.deaf = (client, daemon), ways, False, set()

    def other(self, one):
        return self.ends[one is self.ends[0]]

    def way(self, one):
        return self.ways[one is self.ends[1]]

    def cut(self, is_reset):
        self.is_cut = True
        for one in self.ends:
            if is_reset:
                reset(one)
            else:
                hush(one)

    def close(self):
        for one in self.ends:
            one.close()


def hush(connection):
    try:
        connection.shutdown(socket.SHUT_WR)
    except OSError:
        pass


def is_open(connection):
    return connection.fileno() >= 0


class Relay:
    """One session at a time."""

    def __init__(self):
        self.control, self.data = listening(), listening()
        self.port = self.control.getsockname()[1]
        self.to_control = self.to_data = self.cut = None
        self.counts, self.frames, self.pairs = collections.Counter(), [], []

    def carry(self, daemon_port, words, cut=None, **more):
        """Runs scanimage with these words over this relay, and says how it ended."""
        self.to_control, self.to_data, self.cut = daemon_port, None, cut
        self.counts, self.frames, self.pairs = collections.Counter(), [], []
        process = start([*words, "--port", str(self.port)], **more)
        watched = os.pidfd_open(process.pid)
        is_over = self.turn_until_over(watched)
        os.close(watched)
        for pair in self.pairs:
            pair.close()
        return ending(process, LIMIT) if is_over else Ended(ending(process, 0).status and None, b"", b"")

    def turn_until_over(self, watched):
        """Turns until scanimage has ended and all that was on its way has been heard; whether it has ended."""
        until, has_ended = time.time() + LIMIT, False
        while time.time() < until:
            poll = select.poll()
            for it in (self.control, self.data) + (() if has_ended else (watched,)):
                poll.register(it, select.POLLIN)
            of = {one.fileno(): (pair, one) for pair in self.pairs for one in pair.ends if is_open(one) and one not in pair.deaf}
            if has_ended and not of:
                return True
            for it in of:
                poll.register(it, select.POLLIN)
            ready = [it for it, _ in poll.poll(1000)]
            has_ended |= watched in ready
            self.turn(ready, of)
        return has_ended

    def turn(self, ready, of):
        if self.control.fileno() in ready:
            self.join(self.control, self.to_control, ("requests", "replies"))
        if self.data.fileno() in ready:
            self.frames.append(0)
            self.join(self.data, self.to_data, ("nothing", "data"))
        for it in ready:
            if it in of and is_open(of[it][1]):
                self.pass_on(*of[it])

    def join(self, listener, port, ways):
        client = listener.accept()[0]
        client.setsockopt(socket.IPPROTO_TCP, socket.TCP_NODELAY, 1)
        try:
            pair = Pair(client, connected(port), ways)
        except OSError:
            # The daemon's session is over.
            client.close()
            return
        self.pairs.append(pair)
        if self.is_due(pair, ways[0]) or self.is_due(pair, ways[1]):
            pair.cut(self.cut.is_reset)

    def is_due(self, pair, way):
        return self.cut and not pair.is_cut and self.cut.way == way and self.counts[way] >= self.cut.at

    def pass_on(self, pair, one):
        try:
            piece = one.recv(65536)
        except OSError:
            piece = b""
        if not piece:
            pair.deaf.add(one)
            hush(pair.other(one))
            return
        if pair.is_cut:
            return
        way = pair.way(one)
        self.passes(way, piece)
        if way == "replies":
            piece = self.with_port(piece)
        if self.cut and self.cut.way == way:
            piece = piece[: max(0, self.cut.at - self.counts[way])]
        self.count(way, len(piece))
        try:
            pair.other(one).sendall(piece)
        except OSError:
            pass
        if self.is_due(pair, way):
            pair.cut(self.cut.is_reset)

    def passes(self, way, piece):
        """What is done before a piece goes on: nothing here."""

    def count(self, way, size):
        self.counts[way] += size
        if way == "data":
            self.frames[-1] += size

    def with_port(self, piece):
        found = STARTED.search(piece)
        if not found:
            return piece
        self.to_data = int.from_bytes(found[1], "big")
        return piece[: found.start(1)] + self.data.getsockname()[1].to_bytes(2, "big") + piece[found.end(1) :]
