"""A server of protocols 3 and 4: what the first bytes of a connection say, and the table of the links of protocol 4 (docs/WIRE.md, "First lines")."""
import contextlib
import re
import socket
import threading
import time

from boards import NUM, Fault
from carriers import HIGHEST_NUMBER

# With these bytes a first line of protocol 4 begins. It has at most MOST_FIRST bytes, and is whole within FIRST_SECONDS.
BEGINNINGS, MOST_FIRST, FIRST_SECONDS = (b"hello 4", b"resume "), 64, 10
RESUME = re.compile(f"resume ([0-9a-f]{{32}}) {NUM}")
# How many links that are over and have no carrier hold lines. Of how many the server keeps the count, and for how many seconds.
MOST_HOLDING, MOST_COUNTS, DAY = 64, 4096, 86_400
# How often the server looks at the clock, and how long a stop waits for what is still to be written, in seconds.
TICK, MOST_STOPPING = 0.05, 5


def first_bytes(connection, data=b""):
    """What a connection begins with, up to where that says which protocol it is of. `data` has been read already."""
    while any(len(data) < len(it) and it.startswith(data) for it in BEGINNINGS):
        piece = connection.recv(65536)
        if not piece:
            break
        data += piece
    return data


def first_line(connection, data, most=MOST_FIRST, seconds=FIRST_SECONDS):
    """A line of at most so many bytes that begins with these bytes, and what was read after it. The line is None if it is too long, too late, or not whole."""
    until = time.monotonic() + seconds
    while b"\n" not in data[:most] and len(data) < most and (left := until - time.monotonic()) > 0:
        connection.settimeout(left)
        try:
            piece = connection.recv(65536)
        except TimeoutError:
            break
        if not piece:
            break
        data += piece
    connection.settimeout(None)
    if b"\n" not in data[:most]:
        return None, data
    line, _, rest = data.partition(b"\n")
    return line.decode("latin-1"), rest


class Links:
    """The links of a server, those that are over too. `make` makes a link to which its site has not joined yet."""

    def __init__(self, make):
        self.make, self.links, self.lock, self.over = make, [], threading.Lock(), 0

    def answer(self, line, connection, held):
        """The carrier that a first line of protocol 4 opens, or the note that is the only answer."""
        try:
            if line == "hello 4":
                return self.open(connection, held)
            if found := RESUME.fullmatch(line):
                return self.resume(found[1], int(found[2]), connection, held)
            found = re.fullmatch(f"hello {NUM}", line)
            raise Fault(42 if found and int(found[1]) <= HIGHEST_NUMBER else 40)
        except Fault as fault:
            return f"error {fault.number}"

    def open(self, connection, held):
        link = self.make()
        carrier = link.begin(connection, held)
        with self.lock:
            self.links.append(link)
        return carrier

    def resume(self, token, taken, connection, held):
        if taken > HIGHEST_NUMBER:
            raise Fault(40)
        link = self.find(token)
        if not link:
            raise Fault(35)
        return link.resume(connection, taken, held) or f"ended {link.covered}"

    def find(self, token):
        """The link of a token, or None. It compares all tokens."""
        with self.lock:
            found = [it for it in self.links if it.has_token(token)]
        return found[0] if found else None

    def end_unused(self):
        """Ends the link that has had no carrier for the longest time, of those of which the star took no edit. Returns its seat, or None."""
        with self.lock:
            idle = [it for it in self.links if not (it.carrier or it.has_last or it.is_lost or it.has_edits())]
        if not idle:
            return None
        link = min(idle, key=lambda it: it.since)
        link.lose()
        return link.session.seat

    def tend(self):
        """Does what time asks for: ends links without a carrier, drops what ended links hold, and forgets counts."""
        now = time.monotonic()
        with self.lock:
            for link in self.links:
                link.tend(now)
            self.bound_holding()
            self.note_counts(now)
            self.forget(now)

    def bound_holding(self):
        holding = [it for it in self.links if it.is_holding()]
        for link in sorted(holding, key=lambda it: it.over_at)[: max(0, len(holding) - MOST_HOLDING)]:
            link.lose()

    def note_counts(self, now):
        """Notes which links now have only their count, and that their sessions are over."""
        for link in self.links:
            if link.over_at and link.has_only_count() and link.counted_since is None:
                link.counted_since = now
                self.over += not link.is_unused()

    def forget(self, now):
        self.links = [it for it in self.links if it.counted_since is None or now - it.counted_since < DAY]
        counts = sorted((it for it in self.links if it.counted_since is not None), key=lambda it: (it.has_edits(), it.counted_since))
        forgotten = set(counts[: max(0, len(counts) - MOST_COUNTS)])
        self.links = [it for it in self.links if it not in forgotten]

    def stop(self):
        with self.lock:
            for link in self.links:
                link.stop()


class Server:
    """Serves a star to connections of both protocols, until `most` sessions are over or it is stopped. A link that its client never used is no session. A link of the class `link` waits so many seconds for a carrier."""

    def __init__(self, listener, star, session, link, seconds, most):
        self.listener, self.star, self.session, self.most = listener, star, session, most
        self.links = Links(lambda: link(star, session, seconds))
        star.frees_a_seat = self.links.end_unused
        self.threads, self.sessions, self.ended, self.is_stopped = [], [], [], False

    def serve(self):
        self.listener.settimeout(TICK)
        while not self.is_stopped and len(self.ended) + self.links.over < self.most:
            with contextlib.suppress(TimeoutError):
                connection = self.listener.accept()[0]
                connection.setsockopt(socket.IPPROTO_TCP, socket.TCP_NODELAY, 1)
                self.threads.append(threading.Thread(target=self.greet, args=(connection,), daemon=True))
                self.threads[-1].start()
            self.links.tend()
        self.end_all()

    def stop(self):
        self.is_stopped = True

    def greet(self, connection, held=b""):
        """Serves a connection as its first bytes say. Those in `held` have been read already."""
        try:
            first = first_bytes(connection, held)
            if not first.startswith(BEGINNINGS):
                self.serve_session(connection, first)
                return
            line, held = first_line(connection, first)
        except OSError:
            line = None
        if line is None:
            connection.close()
            return
        answer = self.links.answer(line, connection, held)
        if isinstance(answer, str):
            self.session(self.star, connection).end(answer)
        else:
            answer.serve()

    def serve_session(self, connection, first):
        """Serves a session of protocol 3, whose first bytes have been read."""
        session = self.session(self.star, connection)
        session.lines.held = first
        self.sessions.append(session)
        session.serve()
        self.ended.append(session)

    def end_all(self):
        """Ends what still runs, as if the bytes of each had ended."""
        self.links.stop()
        for session in self.sessions:
            with contextlib.suppress(OSError):
                session.connection.shutdown(socket.SHUT_RD)
        until = time.monotonic() + MOST_STOPPING
        for thread in self.threads:
            thread.join(max(0, until - time.monotonic()))
