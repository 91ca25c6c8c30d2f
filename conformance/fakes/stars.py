"""A server in plain Python: a star of sites, and a session for each link."""
import socket
import threading
import time

from boards import Board, Fault
from ends import End, Transforms
from reading import Gathering, Grammar, Lines

# How many sites may be attached, and how many pongs the server may owe to one.
MOST_SITES, MOST_PONGS = 64, 1024
# After its last line a session reads on until the peer is silent for MOST_SILENT seconds, for at most MOST_SECONDS and MOST_BYTES in total.
MOST_SILENT, MOST_SECONDS, MOST_BYTES = 1, 10, 4 * 2**20


class Seat:
    """An attached site: the server's end of its link, and what waits to be written to it."""

    def __init__(self, site, end):
        self.site, self.end, self.insertions = site, end, 0
        self.waiting, self.pongs, self.is_over, self.bell = [], 0, False, threading.Condition()

    def put(self, text, pongs=0):
        """Adds lines to what waits. `pongs` is how many of them are pongs."""
        with self.bell:
            self.waiting.append(text)
            self.pongs += pongs
            self.bell.notify_all()

    def put_first(self, text):
        """Adds a line before what waits."""
        with self.bell:
            self.waiting.insert(0, text)

    def is_owed_too_much(self):
        return self.pongs >= MOST_PONGS

    def waits_for_pongs(self):
        """Waits while the server owes as many pongs as it may."""
        with self.bell:
            while self.is_owed_too_much() and not self.is_over:
                self.bell.wait()

    def ends(self):
        with self.bell:
            self.is_over = True
            self.bell.notify_all()

    def loses(self):
        """Drops what waits, since the site is detached."""
        with self.bell:
            self.waiting.clear()

    def next(self):
        """All that waits, as one text, and how many pongs are owed. The text is empty once the session is over."""
        with self.bell:
            while not self.waiting and not self.is_over:
                self.bell.wait()
            text, self.waiting = "".join(f"{it}\n" for it in self.waiting), []
            return text, self.pongs

    def has_written(self, pongs):
        with self.bell:
            self.pongs -= pongs
            self.bell.notify_all()


class Star:
    """The board, and the sites that edit it."""

    transforms, board, seat, end = Transforms, Board, Seat, End

    def __init__(self, layout, limit):
        self.board, self.limit = self.board(), limit
        self.seats, self.joined, self.taken, self.lock = {}, 0, 0, threading.Lock()
        for line in layout:
            self.board.read_line(line)

    def join(self):
        """A new seat, at which the greeting waits."""
        with self.lock:
            if len(self.seats) >= MOST_SITES:
                self.drop(self.frees_a_seat())
            self.joined += 1
            seat = self.seats[self.joined] = self.seat(self.joined, self.end(False, self.transforms()))
            seat.put("\n".join([f"welcome {seat.site} {self.limit}", *self.board.lines(), "ready"]))
            return seat

    def frees_a_seat(self):
        """The seat that a newcomer may take from another site, or None. A server of protocol 4 replaces this."""
        return None

    def drop(self, seat):
        """Has a newcomer take this seat."""
        if not seat:
            raise Fault(30)
        del self.seats[seat.site]

    def leave(self, seat):
        with self.lock:
            self.seats.pop(seat.site, None)

    def take(self, seat, mine, heard, ops):
        """Moves an edit past what its site had not received, applies it, and sends it to the others."""
        with self.lock:
            try:
                moved = seat.end.receive(mine, heard, ops)
                self.check(seat, ops)
                self.do(seat, ops, moved)
            except Fault:
                seat.loses()
                raise
            self.tell(seat, moved)
            self.pay(seat)

    def check(self, seat, ops):
        """Refuses an edit for its operations as the site sent them."""
        if any(it.verb == "no" for it in ops):
            raise Fault(24)
        names = [it.name for it in ops if it.verb == "ins"]
        if names != [(seat.site, seat.insertions + 1 + at) for at in range(len(names))]:
            raise Fault(22)
        if self.taken >= self.limit:
            raise Fault(32)

    def do(self, seat, ops, moved):
        self.board.apply_all(moved)
        self.taken += 1
        seat.insertions += sum(it.verb == "ins" for it in ops)

    def tell(self, seat, moved):
        for other in self.others(seat):
            other.put(other.end.message(moved))

    def others(self, seat):
        """The sites that receive an edit of this site."""
        return [it for it in self.seats.values() if it is not seat]

    def pay(self, seat):
        owed = seat.end.owes()
        if owed:
            seat.put(owed)

    def ping(self, seat, count):
        with self.lock:
            seat.put(f"pong {count}", pongs=1)

    def take_ack(self, seat, count):
        with self.lock:
            try:
                seat.end.take_ack(count)
            except Fault:
                seat.loses()
                raise


class Session:
    """One link. This thread reads, and another one writes."""

    lines, grammar = Lines, Grammar

    def __init__(self, star, connection):
        self.star, self.connection, self.seat, self.writer = star, connection, None, None
        self.lines, self.gathering, self.grammar = self.lines(connection), Gathering(), self.grammar()

    def serve(self):
        ending = "bye"
        try:
            while (line := self.lines.next()) is not None and self.goes_on(line):
                pass
            if line is None and self.gathering.left:
                raise Fault(43)
        except Fault as fault:
            ending = f"error {fault.number}"
        except OSError:
            pass  # the peer has gone
        self.end(ending)

    def goes_on(self, line):
        """Takes a line. Returns whether the session goes on."""
        message = self.gathering.take(*self.grammar.read(line))
        return not message or self.hears(*message)

    def hears(self, word, rest):
        """Takes a message. Returns whether the session goes on."""
        if not self.seat:
            if word != "hello":
                raise Fault(44)
            self.join()
        elif word == "batch":
            self.star.take(self.seat, *rest)
        elif word == "ack":
            self.star.take_ack(self.seat, rest[0])
        elif word == "ping":
            self.seat.waits_for_pongs()
            self.star.ping(self.seat, rest[0])
        elif word != "bye":
            raise Fault(44)
        return word != "bye"

    def join(self):
        self.seat = self.takes_seat()
        self.seat.link = self
        self.writer = threading.Thread(target=self.write, daemon=True)
        self.writer.start()

    def takes_seat(self):
        return self.star.join()

    def write(self):
        """Writes what waits for the site, until the session is over."""
        try:
            while True:
                text, pongs = self.seat.next()
                if not text:
                    return
                self.send(text)
                self.seat.has_written(pongs)
        except OSError:
            self.seat.ends()  # the peer has gone, which the reading thread finds out too

    def send(self, text):
        self.connection.sendall(text.encode("latin-1"))

    def end(self, ending):
        """Writes what is left and the last line, and reads on so that this line arrives."""
        if self.seat:
            self.star.leave(self.seat)
            self.seat.ends()
            self.writer.join()
        try:
            self.send(f"{ending}\n")
            self.connection.shutdown(socket.SHUT_WR)
            self.read_on()
        except OSError:
            pass  # the peer has gone
        self.connection.close()

    def read_on(self):
        begun, count = time.monotonic(), 0
        self.connection.settimeout(MOST_SILENT)
        while self.may_read_on(time.monotonic() - begun, count) and (data := self.connection.recv(65536)):
            count += len(data)

    def may_read_on(self, seconds, count):
        return seconds < MOST_SECONDS and count < MOST_BYTES


def serve(listener, star, session, most=2**32):
    """Serves `most` links, or until the listener is closed. Returns once these have ended."""
    threads = []
    while len(threads) < most:
        try:
            connection = listener.accept()[0]
        except OSError:
            break
        connection.setsockopt(socket.IPPROTO_TCP, socket.TCP_NODELAY, 1)
        threads.append(threading.Thread(target=session(star, connection).serve, daemon=True))
        threads[-1].start()
    for thread in threads:
        thread.join()
