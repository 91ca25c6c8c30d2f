"""Shared code of `lasting_links`: peers that send and read single lines of protocol 4, and clients of the conformance kit whose connections are cut."""
import contextlib
import math
import random
import socket
import struct
import sys

from peers import ROOT, Peer

sys.path.append(f"{ROOT}/conformance/fakes")
import resuming  # noqa: E402
import sites  # noqa: E402

# How many seconds a peer waits for a line, and for the end of an answer. What `rest` says if a connection does not end.
PATIENCE, SHORT_PATIENCE = 60, 20
NO_END = b" (and no end)"
# After so many bytes of the way up, or of the way down, a connection is cut at the latest.
MOST_BEFORE_A_CUT = {"up": 150, "down": 600}


class LinesOfALink:
    """The lines that come on a connection, without each `got`. It counts the lines of the link and their bytes."""

    def __init__(self, lines):
        self.lines, self.taken, self.size, self.got = lines, 0, 0, None

    def readline(self):
        """The next line, or no bytes at the end of the connection."""
        line = self.lines.readline()
        while line.startswith(b"got "):
            self.got, line = int(line.split()[1]), self.lines.readline()
        self.taken, self.size = self.taken + line.endswith(b"\n"), self.size + len(line)
        return line

    def close(self):
        self.lines.close()


class LastingPeer(Peer):
    """One connection of a link of protocol 4. It confirms nothing by itself."""

    def __init__(self, daemon, receive_buffer=None):
        super().__init__(daemon, receive_buffer)
        self.socket.settimeout(PATIENCE)
        self.notes, self.lines = self.lines, LinesOfALink(self.lines)
        self.token, self.seconds = b"", None

    def hello(self):
        """Opens a link, and reads to `ready`."""
        self.send(b"hello 4\n")
        word, self.token, seconds = self.notes.readline().split()
        assert word == b"link", word
        self.seconds = int(seconds)
        self.site = int(self.lines.readline().split()[1])
        while self.lines.readline() != b"ready\n":
            pass

    def resumes(self, older, taken=None):
        """Says that it goes on with the link of an older connection. Returns the server's first line."""
        self.lines.taken = older.lines.taken if taken is None else taken
        self.token, self.site, self.pings = older.token, older.site, older.pings
        self.edits, self.items, self.heard = older.edits, older.items, older.heard
        self.send(b"resume %s %d\n" % (self.token, self.lines.taken))
        return self.notes.readline()

    def confirms(self, count=None):
        """Confirms so many lines of the way down, or all that it has read."""
        self.send(b"got %d\n" % (self.lines.taken if count is None else count))

    def is_cut(self):
        """Ends its direction, and waits until the server has noticed and ended the other."""
        self.socket.shutdown(socket.SHUT_WR)
        rest(self)
        self.close()

    def leaves(self):
        """Says `bye`, and confirms the server's last line. Returns that line."""
        self.send(b"bye\n")
        line = self.lines.readline()
        while line not in (b"bye\n", b"") and not line.startswith(b"error "):
            line = self.lines.readline()
        self.confirms()
        self.is_cut()
        return line

    def reset(self):
        """Resets the connection, whatever is on its way."""
        self.socket.setsockopt(socket.SOL_SOCKET, socket.SO_LINGER, struct.pack("ii", 1, 0))
        self.close()


def opened(daemon, receive_buffer=None):
    """The first connection of a new link, which has read to `ready`."""
    peer = LastingPeer(daemon, receive_buffer)
    peer.hello()
    return peer


def resumed(daemon, older, taken=None):
    """A connection that goes on with the link of an older one, and confirms at its beginning."""
    peer = LastingPeer(daemon)
    line = peer.resumes(older, taken)
    assert line.startswith(b"resumed "), line
    peer.confirms()
    return peer


def rest(peer):
    """All bytes up to the end of the connection. NO_END follows them if that does not come."""
    came, lines = b"", peer.notes if isinstance(peer, LastingPeer) else peer.lines
    with contextlib.suppress(ConnectionError):
        try:
            while piece := lines.read1():
                came += piece
        except TimeoutError:
            return came + NO_END
    return came


def answer(daemon, text, ends=False):
    """All that the server sends to a connection that sends these bytes, and then ends its direction or leaves it open."""
    peer = Peer(daemon)
    peer.socket.settimeout(SHORT_PATIENCE)
    try:
        with contextlib.suppress(ConnectionError):
            peer.send(text)
            if ends:
                peer.socket.shutdown(socket.SHUT_WR)
        return rest(peer)
    finally:
        peer.close()


class Cuts:
    """How many of a client's connections are still to be cut, and at which byte of which way each of them is."""

    def __init__(self, count, seed):
        self.left, self.made, self.dice = count, 0, random.Random(seed)

    def next(self):
        """The way whose bytes count on the next connection, and after how many of them it is cut."""
        if not self.left:
            return "up", math.inf
        way = self.dice.choice(tuple(MOST_BEFORE_A_CUT))
        return way, self.dice.randrange(1, MOST_BEFORE_A_CUT[way])

    def has_made_one(self):
        self.left, self.made = self.left - 1, self.made + 1


class BrittleConnection:
    """A connection of a link that ends after so many bytes of one way, once `ready` has come. Half of them end by a reset."""

    def __init__(self, connection, link):
        self.connection, self.link, self.cuts, self.left = connection, link, link.cuts, {}

    def room(self, way, size):
        """How many of `size` bytes still pass. If none does, it cuts the connection."""
        if not self.link.is_ready:
            return size
        if not self.left:
            counted, most = self.cuts.next()
            self.left = {"up": math.inf, "down": math.inf, counted: most}
        if not self.left[way]:
            self.cuts.has_made_one()
            if self.cuts.made % 2:
                self.connection.setsockopt(socket.SOL_SOCKET, socket.SO_LINGER, struct.pack("ii", 1, 0))
            raise resuming.Cut("the script has cut it")
        return min(size, self.left[way])

    def send(self, data):
        sent = self.connection.send(data[: self.room("up", len(data))])
        self.passed("up", sent)
        return sent

    def recv(self, size):
        data = self.connection.recv(self.room("down", size))
        self.passed("down", len(data))
        return data

    def passed(self, way, count):
        if self.left:
            self.left[way] -= count

    def fileno(self):
        return self.connection.fileno()

    def setblocking(self, flag):
        self.connection.setblocking(flag)

    def shutdown(self, how):
        self.connection.shutdown(how)


class BrittleCarrier(resuming.Carrier):
    """A carrier over a connection that ends early."""

    def __init__(self, connection, link, first):
        super().__init__(BrittleConnection(connection, link), link, first)


class ShortWaits(resuming.Waits):
    """The client connects again soon after each cut."""

    longest = 0.05


class BrittleLink(resuming.Link):
    """A link whose connections are cut as `cuts` says, once its `ready` has come."""

    carrier, waits = BrittleCarrier, ShortWaits

    def __init__(self, daemon, cuts):
        self.cuts = cuts
        super().__init__(f"127.0.0.1:{daemon.port}")


class BrittleClient(resuming.LastingClient):
    """A client of the kit over such a link, which has greeted."""

    def __init__(self, daemon, cuts):
        super().__init__(BrittleLink(daemon, cuts), iter(()), lambda _: None)
        self.greet()
        self.cuts, self.edits = self.connection.cuts, 0

    def makes(self, *commands):
        """Makes the commands as one edit."""
        self.typed = iter(commands)
        said = self.does(f"batch {len(commands)}")
        assert said.startswith("made "), said
        self.edits += 1

    def shown(self):
        return list(sites.printed(self.board))

    def quits(self):
        """Leaves, and closes the link."""
        self.leave()
        self.connection.close()
