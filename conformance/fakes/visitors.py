"""The connections of one board of a server of many: who is there, and the news that a client has asked for (docs/WIRE.md, "Between the answer and the link")."""
import contextlib
import threading
import time

# A client gets `links` once in so many seconds at most.
PAUSE = 1


class Visitor:
    """A connection whose client has a right to a board. It has the methods of a socket that a session calls."""

    def __init__(self, connection):
        self.connection, self.lock = connection, threading.RLock()
        # What the client last heard of the links and of the order, and when it heard of the links. The count is None before it asks.
        self.links, self.is_full, self.told_at = None, False, 0.0
        # How a note reaches the client, or None while none may. Whether the connection carries a link.
        self.tell, self.is_linked = self.say, lambda: False

    def __getattr__(self, name):
        return getattr(self.connection, name)

    def say(self, *lines):
        with self.lock:
            self.connection.sendall("".join(f"{it}\n" for it in lines).encode("latin-1"))

    def asks(self, links, is_full):
        """Answers `news`."""
        with self.lock:
            self.links, self.is_full, self.told_at = links, is_full, time.monotonic()
            self.say(f"links {links}", *["full"] * is_full)

    def hushes(self):
        """Has no news come until the connection carries a link."""
        with self.lock:
            self.tell = None

    def carries(self, tell, is_linked):
        """The connection carries a link from here on, on which `tell` adds a note."""
        with self.lock:
            self.tell, self.is_linked = tell, is_linked

    def hears(self, links, is_full):
        """Sends what has changed, if the client has asked for news."""
        with self.lock:
            if self.links is None or not self.tell:
                return
            if links != self.links and time.monotonic() - self.told_at >= PAUSE:
                self.links, self.told_at = links, time.monotonic()
                self.tell(f"links {links}")
            if is_full and not self.is_full:
                self.is_full = True
                self.tell("full")


class Visitors:
    """All connections of a board."""

    def __init__(self):
        self.all, self.lock = [], threading.Lock()

    def come(self, visitor):
        with self.lock:
            self.all.append(visitor)

    def go(self, visitor):
        with self.lock:
            self.all.remove(visitor)

    def links(self):
        """How many clients have a connection that carries a link."""
        with self.lock:
            return sum(it.is_linked() for it in self.all)

    def hear(self, is_full):
        links = self.links()
        with self.lock:
            there = list(self.all)
        for it in there:
            with contextlib.suppress(OSError):  # the client has gone, which the thread that reads finds out too
                it.hears(links, is_full)
