"""connections: the link of a client to its server, over one connection after another, and the end of the link of a program that was killed."""
import contextlib
import re
import select
import socket
import time
from collections.abc import Iterator

import jup

# The numbers of faults that this module tells apart.
BAD_VERSION, MISPLACED = 42, 44
# Faults that end a link, after which the server may give another. All links are taken, it does not know the link or its counts, the bytes ended early, a read failed, or this end is too far behind.
PASSING = (30, 35, 36, 43, 70, 71)
# What a server answers to `resume` that does not know the link, and one that does, and not the count.
UNKNOWN, BAD_TAKEN = (b"error 35", b"error 40", b"error 42"), b"error 36"
# The end of what a server sends that was stopped between two messages. A client takes this last line for one out of its place.
GOODBYE = b"\nbye\n"
# How many of the server's lines the client has for good.
CONFIRMED = re.compile(rb"(?m)^got (\d+)$")
# How many seconds pass between two looks, and how many are waited for a server, and for the end of a link.
LOOK, PATIENCE, LAST = 0.05, 10.0, 5.0
# How many seconds are waited at first and at most before it is tried again. It is the first again after a connection that lived for so long.
SOON, LATE, LIVED = 0.2, 5.0, 10.0


def tell(words: str) -> None:
    """Says what happens, immediately."""
    print(f"jupfile: {words}", flush=True)


class Lost(Exception):
    """The link is over, and why. The server may give another."""


class Broken(Lost):
    """A connection broke, and why."""


class Refused(Exception):
    """The number of a fault after which there is no link to this server."""

    def __init__(self, number: int) -> None:
        super().__init__(f"fault {number}")
        self.number = number


def connected(address: str) -> socket.socket:
    host, _, port = address.rpartition(":")
    try:
        found = socket.create_connection((host.strip("[]"), int(port)), PATIENCE)
    except OSError as wrong:
        raise Broken(f"cannot connect to {address}: {wrong.strerror or wrong}") from None
    found.setsockopt(socket.IPPROTO_TCP, socket.TCP_NODELAY, 1)
    found.setblocking(False)
    return found


class Connection:
    """A connection, and the bytes that wait for it. `begun` is when the first bytes came."""

    def __init__(self, address: str, going: bytes = b"") -> None:
        self.socket, self.going, self.begun = connected(address), going, None

    def carry(self, seconds: float) -> bytes:
        """Sends what waits, and returns what comes, for so long if nothing does."""
        try:
            readable, writable, _ = select.select([self.socket], [self.socket] if self.going else [], [], seconds)
            if writable:
                self.going = self.going[self.socket.send(self.going) :]
            data = self.socket.recv(1 << 20) if readable else None
        except OSError as wrong:
            raise Broken(f"the link broke: {wrong.strerror or wrong}") from None
        if data == b"":
            raise Broken("the link broke: the server's bytes ended")
        if data and self.begun is None:
            self.begun = time.monotonic()
        return data or b""

    def lines(self) -> Iterator[bytes]:
        """The lines that come, for as long as the server may take."""
        part, until = b"", time.monotonic() + PATIENCE
        while time.monotonic() < until:
            *lines, part = (part + self.carry(LOOK)).split(b"\n")
            yield from lines
        raise Broken("the server does not answer")

    def has_lived(self) -> bool:
        """Whether bytes came on it for so long that the next one may begin soon."""
        return self.begun is not None and time.monotonic() - self.begun >= LIVED

    def close(self, last: bytes = b"") -> None:
        """Sends what waits and these bytes, as far as the system takes them, and closes it."""
        with contextlib.suppress(OSError):
            self.socket.send(self.going + last)
        self.socket.close()


class Earlier:
    """A link of which a program before this one has the token. It has taken `taken` of the server's lines."""

    def __init__(self, token: str, taken: int) -> None:
        self.token, self.taken = token, taken

    def end(self, address: str) -> bool:
        """Has the server end the link, and take nothing more of it. Returns whether the server knows the link. If it does, it was not started again since."""
        with contextlib.closing(Connection(address, f"resume {self.token} {self.taken}\n".encode())) as connection:
            lines = connection.lines()
            answer = next(lines)
            if answer.startswith(b"resumed "):
                connection.going += b"bye\n"
                self.take(connection, lines)
            elif answer != BAD_TAKEN and answer not in UNKNOWN and not answer.startswith(b"ended "):
                raise Broken("the server can't end the earlier link at the moment")
            return answer not in UNKNOWN

    def take(self, connection: Connection, lines: Iterator[bytes]) -> None:
        """Takes all lines up to the last, and confirms each, so that the server has room for the next."""
        for line in lines:
            if not line.startswith(b"got "):
                self.taken += 1
                connection.going += f"got {self.taken}\n".encode()
            if line == b"bye" or line.startswith(b"error "):
                return


class Link:
    """A client, and the connection that carries its link. `keep` is called before a count of lines is confirmed."""

    def __init__(self, address: str) -> None:
        self.address, self.keep = address, lambda: None
        # Whether the link outlives its connections, and how many of the server's lines were confirmed.
        self.is_lasting, self.confirmed = True, 0
        # How long the next pause is, when it is over, until when the client knows the time, and when the server was heard last.
        self.pause, self.due, self.told, self.heard = SOON, 0.0, time.monotonic(), time.monotonic()
        try:
            self.open(jup.LastingClient(watch=True))
        except Refused as why:
            if why.number != BAD_VERSION:
                raise
            # The server gives links of one connection only.
            self.is_lasting = False
            self.open(jup.Client(watch=True))

    def open(self, client: jup.Client) -> None:
        """Greets, and takes the board. `opening` has the server's lines up to there."""
        self.client, self.connection = client, Connection(self.address)
        self.opening, self.end, until = b"\n", b"\n", time.monotonic() + PATIENCE
        while client.stage != jup.Stage.OPEN:
            before = len(self.opening)
            self.carry(LOOK)
            if len(self.opening) > before:
                until = time.monotonic() + PATIENCE
            elif time.monotonic() > until:
                raise Lost("the server does not send its board")

    @property
    def token(self) -> str | None:
        """What names the link if it outlives its connections."""
        return self.client.terms.token if self.is_lasting else None

    def carry(self, seconds: float) -> None:
        """Sends what waits, and takes what comes, for so long if nothing does. If a connection breaks, another one carries the link after a pause."""
        if self.connection is None and time.monotonic() < self.due:
            time.sleep(seconds)
            return
        try:
            if self.connection is None:
                self.connection, self.told = Connection(self.address), time.monotonic()
                self.client.resume()
            self.exchange(seconds)
        except Broken as why:
            self.break_off(why)

    def break_off(self, why: Broken) -> None:
        """Goes on without a connection, unless that ends the link."""
        if not self.is_lasting:
            raise why
        if self.connection:
            self.pause = SOON if self.connection.has_lived() else self.pause
            self.connection.socket.close()
            self.connection = None
            self.client.cut()
            # The part of a line that came is sent again.
            self.opening = self.opening[: self.opening.rfind(b"\n") + 1]
        tell(f"{why}. It is tried again in {self.pause:g} s")
        self.due, self.pause = time.monotonic() + self.pause, min(2 * self.pause, LATE)

    def exchange(self, seconds: float) -> None:
        """Sends what waits, and takes what comes."""
        going = self.client.take()
        if found := CONFIRMED.findall(going):
            self.confirmed = int(found[-1])
            self.keep()
        self.connection.going += going
        data = self.connection.carry(seconds)
        if data:
            self.hear(data)
        passed = int(time.monotonic() - self.told)
        self.told += passed
        if passed and self.is_lasting and self.client.elapse(passed):
            raise Broken("the link broke: the server is silent")

    def hear(self, data: bytes) -> None:
        if self.client.stage != jup.Stage.OPEN:
            self.opening += data
        self.end = (self.end + data)[-len(GOODBYE) :]
        try:
            self.client.feed(data)
        except jup.Cut:
            raise Broken("the link broke: another connection has to carry it") from None
        except jup.Fault as fault:
            self.connection.close(self.client.take())
            raise self.ending(fault.number) from None
        self.heard = time.monotonic()

    def ending(self, number: int) -> Lost | Refused:
        """What a fault of the server's lines is the end of."""
        if number == MISPLACED and self.end == GOODBYE:
            return Lost("the server ended the session")
        return Lost(f"the server ended the session: fault {number}") if number in PASSING else Refused(number)

    def leave(self) -> None:
        """Says goodbye, and waits for the end of the link."""
        self.client.bye()
        until = time.monotonic() + LAST
        with contextlib.suppress(Lost, Refused):
            while time.monotonic() < until:
                self.carry(LOOK)
        if self.connection:
            self.connection.close()
