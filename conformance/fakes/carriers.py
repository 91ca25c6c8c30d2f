"""A carrier of protocol 4: one connection that carries a link, for as long as it lasts (docs/WIRE.md, "Links that outlive their connections")."""
import contextlib
import re
import socket
import threading
import time

from boards import NUM, Fault
from reading import Lines
from stars import MOST_BYTES, MOST_SECONDS

GOT = re.compile(f"got {NUM}")
HIGHEST_NUMBER = 2**32 - 1


class CarrierLines(Lines):
    """The lines that come on a carrier."""

    def skip(self):
        """Goes on after the next line feed. Returns whether there is one before the bytes end."""
        while (end := self.held.find(b"\n", self.at)) < 0:
            self.held, self.at = self.connection.recv(65536), 0
            if not self.held:
                return False
        self.at = end + 1
        return True


class Carrier:
    """A connection that carries a link. It begins with `notes`, and the first `written` lines of the way down are those that it need not carry. `held` is what was read of it after its first line."""

    # The seconds after which a server cuts a carrier: it has heard nothing while it read, or the carrier takes no byte.
    most_silent, most_stuck = 180, 600

    def __init__(self, link, connection, written, notes, held):
        self.link, self.connection, self.written, self.notes = link, connection, written, notes
        self.lines = CarrierLines(self)
        self.lines.held = held
        # The count of the last `got` that was written here, and whether the client's bytes have ended. How many of them came when the session took no more.
        self.said, self.has_ended, self.dropped = 0, False, 0
        # Since when a read or a write waits, or None. When something was written last, and when all was.
        self.reading_since, self.writing_since, self.written_at, self.all_written_at = None, None, time.monotonic(), None

    def serve(self):
        """Carries the link until the carrier is cut or has nothing more to carry."""
        writer = threading.Thread(target=self.write, daemon=True)
        writer.start()
        with contextlib.suppress(OSError):
            self.read()
            self.link.hears_the_end(self)
            if self.link.has_bye:
                writer.join()
        self.link.cut(self)
        writer.join()
        self.connection.close()

    def read(self):
        """Takes lines until the client's bytes end, or nothing that it can send has an effect."""
        while self.link.reads(self):
            try:
                line = self.lines.next()
            except Fault as fault:
                self.link.offer(self, fault)
                line = "" if fault.number == 41 and self.lines.skip() else None
            if line is None:
                return
            if line:
                self.take(line)

    def take(self, line):
        found = GOT.fullmatch(line)
        if found and int(found[1]) <= HIGHEST_NUMBER:
            self.link.confirm(self, int(found[1]))
        else:
            self.link.offer(self, line)

    def recv(self, size):
        self.reading_since = time.monotonic()
        data = self.connection.recv(size)
        self.reading_since = None
        if not self.link.is_taking:
            self.dropped += len(data)
        if self.dropped >= MOST_BYTES:
            raise OSError("the carrier has sent too much that has no effect")
        return data

    def write(self):
        try:
            while data := self.link.next_for(self):
                self.send(memoryview(data))
            self.connection.shutdown(socket.SHUT_WR)
        except OSError:
            self.link.cut(self)

    def send(self, data):
        while data:
            self.writing_since = time.monotonic()
            data = data[self.connection.send(data) :]
        self.writing_since = None

    def is_stale(self, now):
        """Whether it is time to cut the carrier."""
        limits = (self.reading_since, self.most_silent), (self.writing_since, self.most_stuck), (self.all_written_at, MOST_SECONDS)
        return any(since is not None and now - since >= seconds for since, seconds in limits)

    def shut(self):
        with contextlib.suppress(OSError):
            self.connection.shutdown(socket.SHUT_RDWR)
