"""The server's end of a link of protocol 4: what it takes and keeps while one carrier after another carries the link (docs/WIRE.md, "Links that outlive their connections")."""
import hmac
import secrets
import threading
import time

from boards import Fault
from carriers import Carrier

# How many bytes of the way down the server keeps. How many lines each way may have.
MOST_KEPT, LAST_UP, LAST_DOWN = 262_144, 2**32 - 2, 2**32 - 1
# A `got` is due once its count has grown by so much.
MOST_GROWN = 64


def is_last(line):
    return line == b"bye" or line.startswith(b"error ")


def over_link(session):
    """A session whose connection is a link. It tells the link when it takes no more, which is before it has put its last line."""

    class Lasting(session):
        def end(self, ending):
            self.connection.takes_no_more()
            super().end(ending)

    return Lasting


class Link:
    """A link that outlives its carriers. It is the connection of its session, so it has the methods of a socket that a session calls. What it reads begins with `hello 3`, which is no line of the link."""

    # A `got` is due after so many seconds in which nothing was written. The class of the carriers.
    most_idle, kind = 60, Carrier

    def __init__(self, star, session, seconds):
        self.token, self.seconds, self.bell = secrets.token_hex(16), seconds, threading.Condition()
        # The way up: how many lines the session was handed, and how many of these have had their effect. The line or the fault that is offered to it, whether it takes more, and whether it took a `bye`.
        self.taken, self.covered, self.offered, self.is_taking, self.has_bye = 0, 0, None, True, False
        # The way down: the lines that are kept, how many come before them, how many bytes they have, and how many the line has that the session would put next.
        self.kept, self.confirmed, self.size, self.next_size = [], 0, 0, 0
        # Whether the session has put `ready`, and its last line. Whether the way down has all lines that it may have. Whether the `got` that follows a `bye` is due.
        self.is_ready, self.has_last, self.is_spent, self.owes_got = False, False, False, False
        # Whether the link ended without a last line, whether the server stops, when the session was over, and since when only its count is left.
        self.is_lost, self.stops, self.over_at, self.counted_since = False, False, None, None
        # The carrier, and since when there is none.
        self.carrier, self.since = None, time.monotonic()
        self.has_greeted, self.session = False, over_link(session)(star, self)

    def put_count(self):
        return self.confirmed + len(self.kept)

    def has_only_count(self):
        return self.is_lost or self.has_last and not self.kept

    def is_unused(self):
        """Whether it ended before the server took a line of its client."""
        return self.is_lost and not self.taken

    def has_token(self, token):
        """Whether this is the link's token, by a comparison without an early end."""
        return hmac.compare_digest(self.token, token)

    def is_holding(self):
        """Whether it is over, and holds lines for a client that is not connected."""
        return self.over_at is not None and bool(self.kept) and not self.carrier

    def has_edits(self):
        """Whether the star took an edit of the link."""
        return self.session.seat.end.heard > 0

    # What its session calls

    def recv(self, _):
        """The next line of the way up, or nothing once the link has ended. Who asks for it has done all that the lines before it ask for."""
        with self.bell:
            if not self.has_greeted:
                self.has_greeted = True
                return b"hello 3\n"
            if not self.is_taking:
                return b""
            self.covers()
            while self.offered is None and not (self.is_lost or self.stops or self.is_spent):
                self.bell.wait()
            if self.is_spent:
                raise Fault(37)
            return b"" if self.is_lost or self.stops else self.take_offered()

    def take_offered(self):
        line, self.offered = self.offered, None
        self.bell.notify_all()
        if isinstance(line, Fault):
            raise line
        self.taken += 1
        if line == "bye" and not self.session.gathering.left:
            self.has_bye, self.owes_got = True, True
            self.covers()
            self.takes_no_more()
        elif self.taken >= LAST_UP:
            raise Fault(37)
        return f"{line}\n".encode("latin-1")

    def takes_no_more(self):
        with self.bell:
            self.is_taking, self.offered = False, None
            self.bell.notify_all()

    def covers(self):
        """Counts the lines that had their effect: all that were taken, up to the end of the last message."""
        if not self.session.gathering.left:
            self.covered = self.taken
            self.bell.notify_all()

    def sendall(self, data):
        """Puts lines on the way down, each as soon as it finds room."""
        with self.bell:
            for line in data.removesuffix(b"\n").split(b"\n"):
                self.put(line)

    def put(self, line):
        if is_last(line):
            self.has_last = True
            line = b"error 37" if self.is_spent else line
        elif self.put_count() + 1 >= LAST_DOWN:
            self.is_spent = True
            self.bell.notify_all()
            raise OSError("the way down has all lines that it may have")
        else:
            self.waits_until_room_for(line)
        if not self.is_lost:
            self.kept.append(line)
            self.size += len(line) + 1
            self.is_ready |= line == b"ready"
        self.bell.notify_all()

    def waits_until_room_for(self, line):
        self.next_size = len(line) + 1
        while not self.is_lost and self.lacks_room():
            self.bell.notify_all()
            self.bell.wait()
        self.next_size = 0

    def lacks_room(self):
        """Whether the session waits for room that only a `got` can make."""
        return self.next_size > 0 and self.size + self.next_size > MOST_KEPT

    def settimeout(self, seconds):
        """A link has no time by which a read has to be over."""

    def shutdown(self, _):
        """The last line has ended the way down."""

    def close(self):
        with self.bell:
            self.over_at = time.monotonic()
            self.bell.notify_all()

    # What its carriers call

    def offer(self, carrier, line):
        """Hands a line or a fault of a carrier to the session, once it asks for one. It is dropped if the carrier is cut before, or if the session takes no more. So is the end of the bytes, which is no fault."""
        with self.bell:
            if self.carrier is not carrier or not self.is_taking or isinstance(line, Fault) and line.number == 43:
                return
            self.offered = line
            self.bell.notify_all()
            while self.offered is line and self.carrier is carrier:
                self.bell.wait()

    def confirm(self, carrier, count):
        """Drops the lines that a `got` confirms. A wrong one is a fault of the client's lines."""
        with self.bell:
            if self.carrier is carrier and self.confirmed <= count <= carrier.written:
                self.drop(count)
            else:
                self.offer(carrier, Fault(36))

    def drop(self, count):
        """Keeps the first so many lines of the way down no longer."""
        with self.bell:
            dropped = self.kept[: count - self.confirmed]
            self.size -= sum(len(it) + 1 for it in dropped)
            del self.kept[: len(dropped)]
            self.confirmed += len(dropped)
            self.bell.notify_all()

    def reads(self, carrier):
        """Whether something that a carrier brings can still have an effect."""
        return self.carrier is carrier and not self.has_only_count()

    def hears_the_end(self, carrier):
        """Notes that the client's bytes have ended."""
        with self.bell:
            carrier.has_ended = True
            self.bell.notify_all()

    def next_for(self, carrier):
        """What comes next on a carrier: the notes that are due, and lines. It is empty once the carrier is cut or has carried all."""
        with self.bell:
            while self.carrier is carrier:
                if data := self.due_on(carrier):
                    carrier.written_at = time.monotonic()
                    return data
                if self.has_last:
                    carrier.all_written_at = time.monotonic()
                    break
                if carrier.has_ended and self.lacks_room():
                    break  # nothing that comes can make room
                self.bell.wait(max(0, carrier.written_at + self.most_idle - time.monotonic()))
            return b""

    def due_on(self, carrier):
        lines, carrier.notes = carrier.notes, []
        if self.is_got_due(carrier):
            lines.append(self.got(carrier))
        lines += self.kept[max(0, carrier.written - self.confirmed) :]
        if self.has_last and self.put_count() > carrier.written and self.covered > carrier.said:
            lines.insert(len(lines) - 1, self.got(carrier))
        carrier.written = self.put_count()
        return b"".join(it + b"\n" for it in lines)

    def is_got_due(self, carrier):
        if self.has_last and carrier.written >= self.put_count():
            return False
        return self.owes_got or self.covered - carrier.said >= MOST_GROWN or time.monotonic() - carrier.written_at >= self.most_idle

    def got(self, carrier):
        self.owes_got, carrier.said = False, self.covered
        return b"got %d" % self.covered

    def cut(self, carrier):
        """Ends a carrier both ways. Of what was read of it, what the session has not taken is lost."""
        with self.bell:
            if self.carrier is carrier:
                self.carrier, self.since, self.offered = None, time.monotonic(), None
                self.is_lost |= not (self.is_ready or self.has_last)
                self.bell.notify_all()
            carrier.shut()

    # What the server calls

    def begin(self, connection, held):
        """The first carrier, once the site has joined. It raises the fault for which the site cannot join."""
        threading.Thread(target=self.session.serve, daemon=True).start()
        with self.bell:
            while not self.kept:
                self.bell.wait()
            if not self.session.seat:
                raise Fault(int(self.kept[0].split()[1]))
            self.carrier = self.kind(self, connection, 0, [f"link {self.token} {self.seconds}".encode()], held)
            return self.carrier

    def resume(self, connection, taken, held):
        """A new carrier, which begins after the first `taken` lines of the way down, or None if only the count is left."""
        with self.bell:
            self.tend(time.monotonic())
            if not self.has_only_count() and not self.confirmed <= taken <= self.put_count():
                raise Fault(36)
            if self.carrier and not self.has_only_count():
                self.cut(self.carrier)
            if self.has_only_count():
                while self.over_at is None:
                    self.bell.wait()
                return None
            count = self.covered if self.has_last else self.taken
            self.carrier = self.kind(self, connection, taken, [b"resumed %d" % count], held)
            self.carrier.notes.append(self.got(self.carrier))
            return self.carrier

    def tend(self, now):
        """Does what time asks for."""
        with self.bell:
            carrier = self.carrier
            since = carrier.all_written_at if carrier else self.since
            if (self.has_last or not carrier) and not self.has_only_count() and since is not None and now - since >= self.seconds:
                self.lose()
            if carrier and carrier.is_stale(now):
                self.cut(carrier)

    def lose(self):
        """Drops all that is kept. If the session is not over, the link ends without a last line."""
        with self.bell:
            self.is_lost |= not self.has_last
            self.drop(self.put_count())

    def stop(self):
        """Ends the link as the end of a connection would. The session puts its last line."""
        with self.bell:
            self.stops = True
            self.bell.notify_all()
