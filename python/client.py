#!/usr/bin/env python3
"""client.py [--protocol 3] HOST:PORT: a client that does what its user types, with the commands of `jup` (docs/PROGRAMS.md), over the module jup.

Its link outlives its connections: if one breaks, it connects again, and the user types on. It also hears its server between two commands. A server
without protocol 4 answers by 42, and the client connects once more for a session of protocol 3. So it does with --protocol 3. It then hears the server only
while the session opens and within a sync, as `jup` does. The exit status is that of `jup`.
"""
import os
import select
import socket
import sys
import time
from typing import Self

import jup

IO_FAULT, USAGE, OUT_OF_MEMORY, FAULT = 1, 2, 3, 4
# The numbers of faults that this client tells apart: the server ended its bytes too early or has no protocol 4; no memory, and none for what a command tells.
EARLY_END, BAD_VERSION, NO_MEMORY, UNTOLD = 43, 42, 8, 94
# How many seconds a connection may take to be made.
CONNECTS = 90
# How many seconds the last bytes of the server are read, how long it may be silent then, and how many bytes are read.
PATIENCE, SILENCE, MOST_LAST = 10, 1, 4 * 1024 * 1024
# The waits between two attempts to connect double up to the longest, and begin short again after a connection that lived for so long.
FIRST_WAIT, LONGEST_WAIT, LIVES = 0.2, 5, 10
# Without a link there are so many attempts. With one the client gives up so much later than its server, or after an hour where the server keeps links.
MOST_ATTEMPTS, LATER, KEPT = 3, 180, 3600
PIECE = 65536


class Carried:
    """A connection, and the bytes that it has not taken yet."""

    def __init__(self, address: str) -> None:
        host, port = address.rsplit(":", 1)
        self.socket = socket.create_connection((host, int(port)), CONNECTS)
        self.socket.setsockopt(socket.IPPROTO_TCP, socket.TCP_NODELAY, 1)
        self.socket.setblocking(False)
        self.going = b""

    def send(self, client: jup.Client) -> None:
        """Hands it what the client says, as far as it takes that."""
        while self.going or (more := client.take()):
            self.going = self.going or more
            try:
                self.going = self.going[self.socket.send(self.going):]
            except BlockingIOError:
                return

    def receive(self) -> bytes | None:
        """What came, or None if nothing did. It is empty at the end."""
        try:
            return self.socket.recv(PIECE)
        except BlockingIOError:
            return None


class Single:
    """A session of one connection. It hears the server only when its user asks for something."""

    def __init__(self, address: str) -> None:
        self.client, self.carrier, self.coming = jup.Client(), Carried(address), b""

    def send(self) -> None:
        """Hands the connection what waits."""
        self.carrier.send(self.client)

    def hear(self) -> None:
        """Feeds the client one line of the server, or the part of it that came, and sends what that makes the client say."""
        self.send()
        if not self.coming:
            select.select([self.carrier.socket], [self.carrier.socket] if self.carrier.going else [], [])
            data = self.carrier.receive()
            if data == b"":
                raise jup.Fault(EARLY_END)
            self.coming = data or b""
        line, feed, self.coming = self.coming.partition(b"\n")
        self.client.feed(line + feed)
        self.send()

    def await_user(self) -> bytes:
        """What the user types next."""
        while not select.select([0], [self.carrier.socket] if self.carrier.going else [], [])[0]:
            self.send()
        return os.read(0, PIECE)

    def leave(self) -> None:
        """Sends what waits, and reads what the server still sends, so that it gets the last bytes of this end."""
        hang_up(self.carrier, self.client)


class Lasting:
    """A session over one connection after another."""

    def __init__(self, address: str) -> None:
        self.client, self.address, self.carrier = jup.LastingClient(), address, None
        # How often it has tried to connect, whether it ever had a link, how long it waits after the next attempt, and when that is.
        self.attempts, self.had_link, self.wait, self.next_try = 0, False, FIRST_WAIT, 0.0
        # When the server's first bytes came on this connection, or 0, when the last one broke on which some had come, and until when the client knows the time.
        self.heard, self.broke, self.told = 0.0, time.monotonic(), time.monotonic()

    def patience(self) -> float:
        """For how many seconds a link without a connection is tried."""
        terms = self.client.terms
        return max(KEPT, terms.seconds + LATER) if terms.kept else terms.seconds + LATER

    def connect(self) -> None:
        """Tries to connect, and lets the new connection carry the link. The first line of the first one waits since the client was opened."""
        if self.client.terms and time.monotonic() - self.broke > self.patience():
            raise jup.Fault(EARLY_END)
        if self.attempts:
            self.client.resume()
        self.attempts += 1
        try:
            self.carrier = Carried(self.address)
        except OSError:
            self.lose()

    def lose(self) -> None:
        """The connection broke, or could not be made. A client that never had a link makes a few attempts."""
        now = time.monotonic()
        if self.carrier:
            self.carrier.socket.close()
        self.had_link |= self.client.terms is not None
        self.client.cut()
        if not self.had_link and self.attempts >= MOST_ATTEMPTS:
            raise ConnectionError
        if self.heard:
            self.broke = now
            self.wait = FIRST_WAIT if now - self.heard >= LIVES else self.wait
        self.carrier, self.heard, self.next_try, self.wait = None, 0.0, now + self.wait, min(2 * self.wait, LONGEST_WAIT)

    def send(self) -> None:
        """Hands the connection what waits. A link that is over has nothing more to say."""
        if not self.carrier:
            return
        try:
            self.carrier.send(self.client)
            if self.client.stage == jup.Stage.OVER and not self.carrier.going:
                self.carrier.socket.shutdown(socket.SHUT_WR)
        except OSError:
            self.lose()

    def take_in(self) -> None:
        """Feeds the client what came. It prints a fault when the user asks for the next thing."""
        try:
            data = self.carrier.receive()
            if data == b"":
                raise ConnectionError
            self.heard = self.heard or time.monotonic()
            self.client.feed(data or b"")
        except (OSError, jup.Cut):
            self.lose()
        except jup.Fault:
            pass

    def step(self, hears_user: bool) -> bool:
        """Waits for the server, for the user or for the time to do something. Returns whether the user did."""
        is_over = self.client.stage == jup.Stage.OVER
        if not self.carrier and not is_over and time.monotonic() >= self.next_try:
            self.connect()
        self.send()
        hears_server = [self.carrier.socket] if self.carrier and not is_over else []
        writes = [self.carrier.socket] if self.carrier and self.carrier.going else []
        wait = 1 if self.carrier or is_over else max(0.0, self.next_try - time.monotonic())
        readable = select.select(hears_server + [0] * hears_user, writes, [], wait)[0]
        if self.carrier and self.carrier.socket in readable:
            self.take_in()
        self.tell_time()
        self.send()
        return 0 in readable

    def tell_time(self) -> None:
        """Tells the client how many seconds passed."""
        seconds = int(time.monotonic() - self.told)
        self.told += seconds
        if self.client.elapse(seconds):
            self.lose()

    def hear(self) -> None:
        """Hears the server until there is something new."""
        if self.client.stage == jup.Stage.OVER:
            raise jup.Fault(self.client.fault)
        self.step(False)

    def await_user(self) -> bytes:
        """What the user types next."""
        while not self.step(True):
            pass
        return os.read(0, PIECE)

    def leave(self) -> None:
        """Waits until the server has said goodbye too, over as many connections as that takes."""
        while self.client.stage != jup.Stage.OVER:
            self.step(False)
        if self.carrier:
            hang_up(self.carrier, self.client)


class Session:
    """A user's session, of either kind."""

    def __init__(self, link: Single | Lasting) -> None:
        self.link, self.client, self.typed = link, link.client, b""

    @classmethod
    def opened(cls, address: str, is_lasting: bool) -> Self:
        """Greets, and takes the board. A server without protocol 4 gets another connection."""
        session = cls(Lasting(address) if is_lasting else Single(address))
        try:
            while session.client.stage != jup.Stage.OPEN:
                session.link.hear()
        except jup.Fault as fault:
            if fault.number != BAD_VERSION or not is_lasting or session.client.terms:
                raise
            return cls.opened(address, False)
        return session

    def lines(self):
        """What the user types, line by line."""
        while data := self.link.await_user():
            *lines, self.typed = (self.typed + data).split(b"\n")
            yield from lines
        if self.typed:
            yield self.typed

    def do(self, line: bytes) -> bytes:
        """Does a line of the user, and returns what that prints."""
        told = self.client.ask(line)
        self.link.send()
        if told == b"synced\n":
            while not self.client.is_synced:
                self.link.hear()
        return told

    def serve(self) -> None:
        """Does all lines of the user, up to one that quits."""
        told = b" "
        for line in self.lines():
            told = self.do(line)
            show(told)
            if told == b"bye\n":
                return
        if not told:
            show(b"bad command\n")
        self.client.bye()
        show(b"bye\n")


def hang_up(carrier: Carried, client: jup.Client) -> None:
    """Sends the last bytes, ends this direction, and reads what the server still sends."""
    start, left = time.monotonic(), MOST_LAST
    try:
        carrier.socket.setblocking(True)
        carrier.socket.settimeout(PATIENCE)
        carrier.send(client)
        carrier.socket.shutdown(socket.SHUT_WR)
        while left > 0 and time.monotonic() - start < PATIENCE and select.select([carrier.socket], [], [], SILENCE)[0]:
            data = carrier.socket.recv(PIECE)
            if not data:
                return
            left -= len(data)
    except OSError:
        pass


def show(text: bytes) -> None:
    """Prints without waiting for more."""
    sys.stdout.buffer.write(text)
    sys.stdout.buffer.flush()


def fail(status: int, why: str) -> int:
    """Says why the client ends."""
    print(why, file=sys.stderr)
    return status


def main(words: list[str]) -> int:
    is_lasting = words[:2] != ["--protocol", "3"]
    if len(words) != (1 if is_lasting else 3):
        return fail(USAGE, "usage: client.py [--protocol 3] HOST:PORT")
    session = None
    try:
        session = Session.opened(words[-1], is_lasting)
        show(b"site %d\n" % session.client.site.number)
        session.serve()
        session.link.leave()
    except jup.Fault as fault:
        # A server reports by the same number that it is out of memory. That ends the session.
        if fault.number in (NO_MEMORY, UNTOLD) and session and not session.client.fault:
            return fail(OUT_OF_MEMORY, "no memory")
        show(b"fault %d\n" % fault.number)
        return FAULT
    except (OSError, ValueError):
        return fail(IO_FAULT, "io fault")
    return 0


if __name__ == "__main__":
    sys.exit(main(sys.argv[1:]))
