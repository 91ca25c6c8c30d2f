"""The client's end of a link of protocol 4, which outlives its connections ("Links that outlive their connections" in docs/WIRE.md).

A site has a Link in place of the connection of protocol 3: it sends its lines to the link, and receives the server's. One thread per link connects, reads and writes, and connects again after a cut.
"""
import contextlib
import math
import re
import select
import socket
import threading
import time

from boards import NUM, Fault
from reading import LONGEST_LINE
from sites import Client, connected

# An end sends `got` at the latest when it has taken so many lines since the last.
OWES_GOT = 64
# How often a client that never had a link tries to get one.
MOST_ATTEMPTS = 3
# For how many seconds the client tries to write what it owes after the server's last line.
LAST_SECONDS = 10
# The longest edit, in lines, and which line of the way up has to be `bye`.
LONGEST_EDIT, LAST_UP = 33, 2**32 - 2
# The longest that a server says it lets a link wait.
MOST_SECONDS = 86_400
# The numbers by which a server refuses a `resume` for good.
REFUSALS = (35, 36, 40, 42)
ERROR = f"error {NUM}"
# What the bytes of a link end with if it ended as it should.
END = object()


class Cut(OSError):
    """A carrier has ended before its link."""


class Ended(Exception):
    """The link is over, and the server knows only how many lines had an effect. So the client knows how many of its edits did not arrive."""

    def __init__(self, lost):
        super().__init__(lost)
        self.lost = lost


class Way:
    """The way up: how many lines the client has put, and those of them that no `got` of the server covers yet."""

    def __init__(self):
        self.kept, self.confirmed, self.lock = [], 0, threading.Lock()

    def count(self):
        return self.confirmed + len(self.kept)

    def put(self, lines):
        with self.lock:
            if self.is_spent(len(lines)) and lines != ["bye"]:
                raise Fault(37)
            self.kept.extend(lines)

    def is_spent(self, more):
        """Whether so many more lines leave none for `bye`."""
        return self.count() + more >= LAST_UP

    def edits_after(self, count):
        """How many edits have lines that are not among the first `count`."""
        lines = self.kept[count - self.confirmed :]
        return sum(it.startswith("batch ") for it in lines) + any(it.startswith("do ") for it in lines[:1])

    def line_after(self, count):
        """The line that follows the first `count` lines, or None if it was not put yet."""
        with self.lock:
            return self.kept[count - self.confirmed] if count < self.count() else None

    def confirm(self, count):
        with self.lock:
            del self.kept[: count - self.confirmed]
            self.confirmed = count


class Carrier:
    """One connection that carries a link. It writes whole lines, and notes between them, and hands whole lines to the link."""

    # After how many seconds without a byte of the server the client cuts it, and after how many in which the client handed nothing to it a `got` is due.
    silence, idle = 90, 60

    def __init__(self, connection, link, first):
        self.connection, self.link, self.first = connection, link, first
        # The part of a line that has come, what is left of the piece that is being written, and whether this piece is a line of the link.
        self.came, self.left, self.is_line = b"", b"", False
        # How many lines of the way up were written up to here, or None before the server's first line.
        self.written = None
        # The client's last count on this carrier, and whether a `got` is due for another reason than that the count has grown.
        self.got, self.is_got_due = link.taken, False
        self.heard = self.handed = time.monotonic()
        # When the server's first line came, or None.
        self.begun = None
        connection.setblocking(False)

    def begins(self, written, is_got_due):
        """Goes on with the lines after the first `written`, which the server's first line has named."""
        self.written, self.is_got_due = written, is_got_due
        self.begun = self.handed = time.monotonic()

    def lived(self):
        """For how many seconds it has lived since the server's first line."""
        return 0 if self.begun is None else time.monotonic() - self.begun

    def carry(self):
        """Carries the link until it is over. It raises an OSError if the carrier is cut before, and a Fault if the client gives up."""
        while not self.is_done():
            self.looks_at_the_clock()
            is_writing, is_reading = bool(self.left or self.begins_piece()), not self.link.is_over()
            readable, writable, _ = select.select([self.connection] * is_reading + [self.link.woken], [self.connection] * is_writing, [], self.patience())
            if self.link.woken in readable:
                self.link.woken.recv(4096)
            if self.connection in readable:
                self.read()
            if writable:
                self.write()
        self.connection.shutdown(socket.SHUT_WR)

    def is_done(self):
        """Whether the link is over, and the `got` for the server's last line was written."""
        return self.link.is_over() and not (self.link.has_last and (self.left or self.is_got_due))

    def looks_at_the_clock(self):
        now = time.monotonic()
        if self.most_silence() <= now - self.heard:
            raise Cut("the server is silent")
        if self.written is not None and self.idle <= now - self.handed:
            self.is_got_due = True

    def patience(self):
        """How many seconds it may wait for the server until something else is due."""
        silent_at, idle_at = self.heard + self.most_silence(), self.handed + self.idle
        return max(0, (silent_at if self.written is None or self.left else min(silent_at, idle_at)) - time.monotonic())

    def most_silence(self):
        return LAST_SECONDS if self.link.has_last else self.silence

    def begins_piece(self):
        """Begins to write the next note or line. Returns whether there is one."""
        piece = self.note()
        self.is_line = piece is None
        if self.is_line and self.written is not None and not self.link.has_last:
            piece = self.link.up.line_after(self.written)
        self.left = b"" if piece is None else f"{piece}\n".encode("latin-1")
        return piece is not None

    def note(self):
        """The note that is due, or None."""
        if self.first:
            note, self.first = self.first, None
            return note
        if not self.is_got_due and self.link.taken - self.got < OWES_GOT:
            return None
        self.got, self.is_got_due = self.link.taken, False
        return f"got {self.got}"

    def write(self):
        sent = self.connection.send(self.left)
        self.left, self.handed = self.left[sent:], time.monotonic()
        if self.is_line and not self.left:
            self.written += 1

    def read(self):
        data = self.connection.recv(65536)
        if not data:
            raise Cut("the server's bytes have ended")
        self.heard = time.monotonic()
        *lines, self.came = (self.came + data).split(b"\n")
        for line in lines:
            if not self.link.is_over():
                self.hears(line)
        if LONGEST_LINE <= len(self.came):
            self.refuses(41)

    def hears(self, line):
        if LONGEST_LINE <= len(line):
            self.refuses(41)
        line = line.decode("latin-1")
        if self.written is None:
            self.link.is_answered(self, line)
        elif line.split(" ")[0] == "got":
            self.hears_got(line)
        else:
            self.link.takes(line)
            self.is_got_due = self.is_got_due or self.link.has_last

    def hears_got(self, line):
        (count,) = numbers_in(f"got {NUM}", line) or self.refuses(40)
        if not self.link.up.confirmed <= count <= self.written:
            self.refuses(36)
        self.link.up.confirm(count)

    def refuses(self, fault):
        """Gives up the link. If the fault is in the first line, something else than the server has answered."""
        raise Cut("no first line of a server") if self.written is None else Fault(fault)


class Waits:
    """How many seconds the client waits between two attempts. The waits grow until a carrier has lived for a while."""

    shortest, longest, lived = 0.05, 10, 10

    def __init__(self):
        self.next = self.shortest

    def after(self, seconds):
        """The wait after a carrier that lived for so many seconds."""
        wait = self.shortest if self.lived <= seconds else self.next
        self.next = min(2 * wait, self.longest)
        return wait


class Link:
    """A link of protocol 4 to the server at an address. It is the connection of its site, which sends lines to it and receives the server's.

    The site receives the server's first lines once `ready` has come, and puts no line before that: until then the link may begin again.
    """

    carrier, waits = Carrier, Waits

    def __init__(self, address):
        self.address, self.waits, self.attempts = address, self.waits(), MOST_ATTEMPTS
        # The token, the lines of the way up, how many lines of the way down were taken, those of them that wait for `ready`, and whether that has come.
        self.token, self.up, self.taken, self.waiting, self.is_ready = None, Way(), 0, [], False
        # Whether the site has put `bye`, whether the server's last line has come, and its TAKEN if it has said `ended`.
        self.leaves, self.has_last, self.ended, self.closed = False, False, None, threading.Event()
        # The bytes that the site has not received yet, and what they end with: None while the link goes on, then END or an exception.
        self.handed, self.ending, self.bell = b"", None, threading.Condition()
        self.woken, self.wakes = socket.socketpair()
        self.wakes.setblocking(False)
        self.thread = threading.Thread(target=self.run, daemon=True)
        self.thread.start()

    def is_refused_by(self, fault):
        """Waits until the site can receive something. Returns whether the server has refused the link by this number."""
        with self.bell:
            self.waits_for_bytes()
            return not self.is_ready and self.handed == f"error {fault}\n".encode("latin-1")

    def sendall(self, data):
        """Puts lines. They are kept until the server confirms them, also while nothing carries the link."""
        self.up.put(data.decode("latin-1").splitlines())
        self.leaves = data == b"bye\n"
        self.wake()

    def recv(self, most):
        """Bytes of the server's lines, or no bytes once the link is over. It raises what ended the link if that was neither a last line nor a `bye` that arrived."""
        with self.bell:
            self.waits_for_bytes()
            data, self.handed = self.handed[:most], self.handed[most:]
        if not data and self.ending is not END:
            raise self.ending
        return data

    def waits_for_bytes(self):
        """Waits until there are bytes for the site, or none will come."""
        while not self.handed and self.ending is None:
            self.bell.wait()

    def shutdown(self, _):
        """Does nothing, since a client of protocol 4 ends its direction only after the server's last line. The link does that itself."""

    def close(self):
        """Ends the link's thread. A link that is not over is given up, and waits at the server for as long as that does."""
        self.closed.set()
        self.wake()
        self.thread.join(LAST_SECONDS)

    def wake(self):
        with contextlib.suppress(OSError):  # the thread has ended, or will wake up anyway
            self.wakes.send(b"x")

    def run(self):
        ending = END
        with self.woken, self.wakes:
            try:
                while not self.is_over():
                    self.carry()
                self.tells_what_is_lost()
            except (Fault, OSError, Ended) as fault:
                ending = fault
        with self.bell:
            self.ending = ending
            self.bell.notify_all()

    def tells_what_is_lost(self):
        """Says so if the server has said `ended`, unless that counts the client's `bye`."""
        if self.ended is not None and not (self.leaves and self.ended == self.up.count()):
            raise Ended(self.up.edits_after(self.ended))

    def is_over(self):
        return self.has_last or self.ended is not None or self.closed.is_set()

    def carry(self):
        """Has a new carrier carry the link. If the carrier is cut, it waits until the next attempt is due."""
        self.attempts -= 1
        carrier = None
        try:
            with connected(self.address, self.carrier.silence) as connection:
                carrier = self.carrier(connection, self, f"resume {self.token} {self.taken}" if self.token else "hello 4")
                carrier.carry()
        except OSError:
            if not self.attempts:
                raise
            self.closed.wait(self.waits.after(carrier.lived() if carrier else 0))

    def is_answered(self, carrier, line):
        """Judges the server's first line."""
        if self.token:
            self.is_resumed(carrier, line)
        else:
            self.is_welcomed(carrier, line)

    def is_welcomed(self, carrier, line):
        """Judges the answer to `hello 4`."""
        found = re.fullmatch(rf"link ([0-9a-f]{{32}}) {NUM}(?: kept)?", line)
        if found and int(found[2]) <= MOST_SECONDS:
            self.token, self.attempts = found[1], math.inf
            carrier.begins(0, is_got_due=False)
        elif numbers_in(ERROR, line):
            self.hands_on(line)
            self.has_last = True
        else:
            raise Cut("no answer to `hello 4`")

    def is_resumed(self, carrier, line):
        """Judges the answer to `resume`."""
        word, count = line.split(" ")[0], (numbers_in(f"(?:resumed|ended|error) {NUM}", line) or [None])[0]
        if count is None or word == "error" and count not in REFUSALS:
            raise Cut("no answer to `resume`")
        is_right = word != "error" and self.up.confirmed <= count <= self.up.count()
        if word != "resumed":
            self.is_lost(count if is_right else None, Fault(count if word == "error" else 35))
        elif is_right:
            carrier.begins(count, is_got_due=True)
        else:
            raise Fault(36)

    def is_lost(self, ended, fault):
        """The server has no such link. A link whose `ready` has not come begins again, since nothing is lost. Else it is over, with the lines that had an effect or with a fault."""
        if not self.is_ready:
            self.token, self.up, self.taken, self.waiting = None, Way(), 0, []
            raise Cut("the link has not begun")
        if ended is None:
            raise fault
        self.ended = ended

    def takes(self, line):
        """Takes a line of the way down, and hands it to the site."""
        self.taken += 1
        self.waiting.append(line)
        self.has_last = line == "bye" or numbers_in(ERROR, line) is not None
        self.is_ready = self.is_ready or line == "ready"
        if self.is_ready or self.has_last:
            self.hands_on(*self.waiting)
            self.waiting = []

    def hands_on(self, *lines):
        with self.bell:
            self.handed += "".join(f"{it}\n" for it in lines).encode("latin-1")
            self.bell.notify_all()


class LastingClient(Client):
    """A user's site over a link of protocol 4."""

    def run(self):
        try:
            return super().run()
        except Ended as ended:
            self.tell(f"the link is over. Edits that did not arrive: {ended.lost}")
            return 4

    def hello(self):
        """Sends nothing, since the link has said `hello 4`."""

    def refuse_more(self):
        super().refuse_more()
        if self.connection.up.is_spent(LONGEST_EDIT):
            raise Fault(37)


def joined(address, link=Link):
    """A link to the server, and the class of the client for it. If the server does not have protocol 4, a connection, and a client of protocol 3."""
    link = link(address)
    if link.is_refused_by(42):
        return connected(address), Client
    return link, LastingClient


def numbers_in(form, line):
    """The numbers of a line of this form, or None if the line has another form or spelling."""
    found = re.fullmatch(form, line)
    numbers = [int(it) for it in found.groups()] if found else []
    return numbers if numbers and max(numbers) < 2**32 else None
