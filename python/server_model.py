"""server_model: a server without threads and sockets, for the tests of `jupfile`. Its star and its sessions are the plain ones of conformance/fakes, and its links outlive their connections (docs/WIRE.md)."""
import collections
import os
import sys

sys.path.insert(0, f"{os.path.dirname(os.path.dirname(os.path.abspath(__file__)))}/conformance/fakes")
import boards
import stars

# After how many looks the server reads what came, and for how many seconds it says that a link waits.
SLOW, SECONDS = 2, 300


class Quiet(stars.Session):
    """A session of the server without threads."""

    def join(self):
        self.seat = self.star.join()

    def waiting(self):
        """The lines that wait for its site."""
        texts, self.seat.waiting[:] = list(self.seat.waiting), []
        return [line for text in texts for line in text.split("\n")]

    def is_waiting(self):
        return bool(self.seat and self.seat.waiting)


class Server:
    """A star, and the links to it by their tokens. An older server has links of one connection only. `faults` are the numbers by which it refused something of protocol 4."""

    def __init__(self, layout, limit, is_older=False):
        self.star, self.links, self.is_older, self.faults = stars.Star(layout, limit), {}, is_older, []

    def open(self):
        """A new link."""
        token = f"{id(self) % 16**16:016x}{len(self.links):016x}"
        self.links[token] = Link(self, token)
        return self.links[token]


class Link:
    """A link at the server. `taken` counts the lines of its client, and `covered` those of them that had their effect. `down` has all lines of the way down, of which the client has confirmed some."""

    def __init__(self, server, token):
        self.server, self.session, self.token, self.carrier = server, Quiet(server.star, None), token, None
        self.taken, self.covered, self.down, self.confirmed, self.is_over = 0, 0, [], 0, False
        self.session.join()

    def has_edits(self):
        """Whether it holds its place at the server, and the star has taken an edit of it."""
        return not self.is_over and self.session.seat.end.heard > 0

    def has_only_count(self):
        return self.is_over and self.confirmed == len(self.down)

    def put(self):
        """Puts what waits for the site on the way down."""
        if not self.is_over:
            self.down += self.session.waiting()

    def takes(self, line):
        """Takes a line of the way up."""
        if self.is_over:
            return
        self.taken += 1
        try:
            goes_on = self.session.goes_on(line)
            self.covered = self.covered if self.session.gathering.left else self.taken
            if not goes_on:
                self.ends("bye")
        except boards.Fault as fault:
            self.refuses(fault.number)

    def ends(self, last):
        """Ends the link by its last line."""
        self.put()
        self.down.append(last)
        self.leaves()

    def refuses(self, number):
        self.server.faults.append(number)
        self.ends(f"error {number}")

    def leaves(self):
        """Ends the link."""
        self.is_over = True
        self.session.star.leave(self.session.seat)

    def expires(self):
        """The link has waited for too long: only its count is left."""
        if not self.is_over:
            self.leaves()
        self.confirmed = len(self.down)

    def confirm(self, count):
        """Takes a `got`. A wrong one ends the link."""
        if self.confirmed <= count <= self.carrier.written:
            self.confirmed = count
        elif not self.is_over:
            self.refuses(36)

    def resumes(self, carrier, taken):
        """The lines that answer a `resume`. A right one takes the link from its older carrier."""
        if not self.has_only_count() and not self.confirmed <= taken <= len(self.down):
            return carrier.refuses(36)
        if self.carrier:
            self.carrier.is_cut()
        if self.has_only_count():
            carrier.is_over = True
            return [f"ended {self.covered}"]
        self.carrier, carrier.link, carrier.written = carrier, self, taken
        return [f"resumed {self.covered if self.is_over else self.taken}", f"got {self.covered}"]


class Served:
    """The server's end of a connection: the lines that it has not read. It reads all of them some looks after the first came. `last` is its last line until that is sent."""

    def __init__(self, server):
        self.server, self.session, self.link = server, Quiet(server.star, None), None
        self.part, self.lines, self.looks, self.is_over, self.last = "", collections.deque(), 0, False, []
        # Whether the program's end is broken, what comes there all the same, and whether nothing passes any more.
        self.is_broken, self.held, self.is_silent = False, b"", False
        # Of a carrier: how many lines of the way down were written up to here, and the count of its last `got`.
        self.written, self.said, self.notes = 0, 0, []

    def come(self, data):
        if self.is_silent:
            return
        self.looks = self.looks if self.lines else SLOW
        *lines, self.part = (self.part + data.decode("latin-1")).split("\n")
        self.lines.extend(lines)

    def passes(self):
        """A look passes."""
        self.looks -= 1
        if self.looks <= 0:
            self.read()

    def read(self, left=0):
        """Reads the lines, except so many of the last."""
        while len(self.lines) > left and not self.is_over:
            self.takes(self.lines.popleft())

    def takes(self, line):
        word, *rest = line.split(" ")
        if self.link:
            self.link.confirm(int(rest[0])) if word == "got" else self.link.takes(line)
        elif word == "resume":
            self.notes += self.resumes(rest[0], int(rest[1]))
        elif line == "hello 4":
            self.notes += self.greets()
        elif not self.session.goes_on(line):
            self.is_over = True

    def greets(self):
        if self.server.is_older:
            return self.refuses(42)
        try:
            self.link = self.server.open()
        except boards.Fault as fault:
            return self.refuses(fault.number)
        self.link.carrier = self
        return [f"link {self.link.token} {SECONDS}"]

    def resumes(self, token, taken):
        if token not in self.server.links:
            return self.refuses(35)
        return self.server.links[token].resumes(self, taken)

    def refuses(self, number):
        self.server.faults.append(number)
        self.is_over = True
        return [f"error {number}"]

    def is_cut(self):
        """The server takes nothing more of it."""
        self.lines.clear()
        self.is_over = True

    def breaks(self):
        """Both ends lose it, with all that was on its way."""
        self.is_broken = True
        self.is_cut()

    def stop(self):
        """The server stops: it has read half of what came, and says that the bytes have ended."""
        self.read(len(self.lines) // 2)
        session = self.link.session if self.link else self.session
        last = "error 43" if session.gathering.left else "bye"
        if self.link and not self.link.is_over and self.link.carrier is self:
            self.link.ends(last)
        elif not self.link and not self.is_over:
            self.last, self.is_over = [last], True

    def going(self):
        """The bytes that are sent: what has to be said of the carrier, and what waits."""
        lines, self.notes = self.notes, []
        if self.link and self.link.carrier is self:
            lines += self.carried()
        elif self.session.seat:
            lines += self.session.waiting()
        lines += self.last
        self.last = []
        return "".join(f"{it}\n" for it in lines).encode()

    def carried(self):
        self.link.put()
        if self.link.covered > self.said and self.written < len(self.link.down):
            self.said = self.link.covered
            yield f"got {self.said}"
        yield from self.link.down[self.written :]
        self.written = len(self.link.down)

    def has_something(self):
        """Whether bytes, or their end, can be read."""
        if self.is_silent:
            return False
        if self.is_broken or self.is_over or self.notes or self.last:
            return True
        return self.link.is_over or self.written < len(self.link.down) or self.link.session.is_waiting() if self.link else self.session.is_waiting()
