"""What the kit drives: a link to a server, or a client together with the server's end of its link."""
import contextlib
import queue
import random
import socket
import struct
import subprocess
import threading
import time

END = "(the end)"
# An address at which the system chooses the port.
ANY_PORT = "127.0.0.1:0"
# These ports are below those that the system gives to links, so no link has one when a server listens there.
PORTS = range(15_000, 32_000)


def free_address():
    """An address at which no program listens."""
    while True:
        address = "127.0.0.1", random.choice(PORTS)
        with socket.socket() as probe, contextlib.suppress(OSError):
            probe.bind(address)
            return "%s:%d" % address


class Differs(Exception):
    """A program did something other than expected."""


class Clock:
    """How fast the clock of what the kit judges runs."""

    # How many times as fast as the real one. A fake's clock may run faster, and the waits of a transcript are then shorter.
    speed = 1.0
    # Whether the kit plays the parts that take a minute or more.
    has_long = False

    @classmethod
    def waits(cls, seconds):
        time.sleep(seconds / cls.speed)


class Lines:
    """The lines that come from a file, without their line feeds, and after them END."""

    # How many seconds an answer may take.
    patience = 5.0

    def __init__(self, file):
        self.waiting, self.is_over, self.is_read = queue.Queue(), False, threading.Event()
        # When the last line came that was taken. A line that was looked at, and is the next one still.
        self.came_at, self.back = time.monotonic(), None
        self.is_read.set()
        threading.Thread(target=self.read, args=(file,), daemon=True).start()

    def read(self, file):
        try:
            while self.is_read.wait() and (line := file.readline()):
                self.waiting.put((line.decode("latin-1").removesuffix("\n"), time.monotonic()))
        except (OSError, ValueError):
            pass  # a file that fails has ended
        self.waiting.put((END, time.monotonic()))

    def take(self, seconds):
        line, self.came_at = self.waiting.get(timeout=seconds)
        return line

    def next(self, due="a line"):
        """The next line. After the last one every call returns END. `due` describes what is expected."""
        if self.back:
            line, self.back = self.back, None
            return line
        try:
            line = END if self.is_over else self.take(self.patience)
        except queue.Empty:
            raise Differs(f"expected {due}, but nothing came in {self.patience:g} seconds") from None
        self.is_over = line == END
        return line

    def within(self, seconds):
        """The next line, or None if none comes in so many seconds. After the last line nothing comes."""
        if self.back:
            return self.next()
        with contextlib.suppress(queue.Empty):
            line = END if self.is_over else self.take(seconds)
            self.is_over = line == END
            return None if self.is_over else line
        return None

    def passes(self, line):
        """Takes the next line if it is this one. Any other stays the next. Returns whether it was this one."""
        found = self.next(repr(line))
        self.back = None if is_as(line, found) else found
        return self.back is None

    def are_next(self, *wanted):
        """Tests that these lines come next, in this order. `*` is any number."""
        for line in wanted:
            found = self.next(repr(line))
            if not is_as(line, found):
                raise Differs(f"expected {line!r}, but got {found!r}")


def address_bound(listening, told):
    """Where a server listens, by its line `listening`. If it was given port 0, it reports its address on standard error, whose lines are `told`."""
    address = listening.removeprefix("listening ").strip()
    return told.next("'bound' from the server").removeprefix("bound ") if address == ANY_PORT else address


def is_as(wanted, found):
    """Whether a line is the wanted one, in which `*` is any number."""
    if "*" not in wanted.split(" "):
        return found == wanted
    words = zip(wanted.split(" "), found.split(" "))
    return wanted.count(" ") == found.count(" ") and all(it.isdigit() if due == "*" else it == due for due, it in words)


def narrow(connection):
    """Gives small buffers to a socket, or to the connections that a listener accepts. So few bytes fit in before the kit reads them."""
    connection.setsockopt(socket.SOL_SOCKET, socket.SO_RCVBUF, 4096)
    connection.setsockopt(socket.SOL_SOCKET, socket.SO_SNDBUF, 4096)
    connection.setsockopt(socket.IPPROTO_TCP, socket.TCP_MAXSEG, 536)


class Pour:
    """Bytes that a thread of its own sends, as fast as the other end takes them."""

    PIECE = 4096
    # How many bytes the system holds of what is sent. More could fill the other end's window, and then a close of that end is not seen.
    ROOM = 65536
    # How many seconds the other end takes none before that counts as a stop.
    quiet = 1.0

    def __init__(self, connection):
        self.connection, self.left, self.sent, self.was_refused = connection, [], 0, False
        self.connection.setsockopt(socket.SOL_SOCKET, socket.SO_SNDBUF, self.ROOM)
        self.bell = threading.Condition()
        threading.Thread(target=self.run, daemon=True).start()

    def put(self, text):
        with self.bell:
            self.left.append(text.encode("utf-8"))
            self.bell.notify_all()

    def run(self):
        try:
            while True:
                with self.bell:
                    while not self.left:
                        self.bell.wait()
                    data, self.left = memoryview(b"".join(self.left)), []
                while data:
                    taken = self.connection.send(data[: self.PIECE])
                    data, self.sent = data[taken:], self.sent + taken
        except OSError:
            self.was_refused = True

    def comes_to_a_stop(self):
        """Waits until the other end has taken nothing for `quiet` seconds."""
        sent = -1
        while not self.was_refused and sent < self.sent:
            sent = self.sent
            time.sleep(self.quiet)


class Link:
    """A socket whose other end the kit judges. A narrow one has small buffers, so few bytes fit in before the kit reads them."""

    kind = Lines

    def __init__(self, connection):
        self.socket, self.has_ended, self.poured = connection, False, None
        self.socket.setsockopt(socket.IPPROTO_TCP, socket.TCP_NODELAY, 1)
        self.lines = self.kind(connection.makefile("rb"))

    @classmethod
    def to(cls, address, is_narrow=False):
        host, _, port = address.rpartition(":")
        try:
            family, kind, _, _, place = socket.getaddrinfo(host, int(port), type=socket.SOCK_STREAM)[0]
            connection = socket.socket(family, kind)
            if is_narrow:
                narrow(connection)
            connection.settimeout(Lines.patience)
            connection.connect(place)
            connection.settimeout(None)
            return cls(connection)
        except (OSError, ValueError) as fault:
            raise Differs(f"cannot connect to {address!r}: {fault}") from None

    def send(self, text):
        try:
            self.socket.sendall(text.encode("utf-8"))
        except OSError as fault:
            raise Differs(f"it took no more bytes: {fault}") from None

    def send_lines(self, *lines):
        self.send("".join(f"{it}\n" for it in lines))

    def pour(self, text):
        self.poured = self.poured or Pour(self.socket)
        self.poured.put(text)

    def stop_reading(self):
        self.lines.is_read.clear()

    def read_on(self):
        self.socket.setsockopt(socket.SOL_SOCKET, socket.SO_RCVBUF, 2**20)
        self.lines.is_read.set()

    def drip(self, seconds):
        """Sends a byte now and then, until the other end takes none. This has to happen within so many seconds."""
        until = time.monotonic() + seconds
        try:
            while time.monotonic() < until:
                self.socket.sendall(b"x")
                time.sleep(0.25)
        except OSError:
            return  # the other end has gone
        raise Differs(f"expected the end of the link within {seconds} seconds, but it still took bytes")

    def end(self):
        """Ends this direction of the link."""
        if not self.has_ended:
            self.has_ended = True
            try:
                self.socket.shutdown(socket.SHUT_WR)
            except OSError:
                pass  # the other end has gone

    def close(self):
        """Ends the link, and reads what is left. Once the server has ended it too, it has dropped the site."""
        self.end()
        try:
            while self.lines.next() != END:
                pass
        finally:
            self.socket.close()

    def reset(self):
        """Ends the link both ways by a reset. What either end has not read is lost."""
        self.has_ended = True
        self.socket.setsockopt(socket.SOL_SOCKET, socket.SO_LINGER, struct.pack("ii", 1, 0))
        self.socket.shutdown(socket.SHUT_RD)
        self.socket.close()


class Client:
    """A client's process with its standard streams, and the server's end of its link. The end of the `with` stops it."""

    def __init__(self, words, start=subprocess.Popen):
        listener = socket.create_server(("127.0.0.1", 0))
        listener.settimeout(Lines.patience)
        address = "127.0.0.1:%d" % listener.getsockname()[1]
        words = [it.replace("{}", address) for it in words]
        try:
            self.process = start(words, stdin=subprocess.PIPE, stdout=subprocess.PIPE, stderr=subprocess.DEVNULL)
        except OSError as fault:
            raise Differs(f"the client cannot be started: {fault}") from None
        self.printed, self.link = Lines(self.process.stdout), None
        self.meets(listener)

    def meets(self, listener):
        """Takes the client's connection, which is its only one."""
        with listener:
            try:
                self.link = Link(listener.accept()[0])
            except TimeoutError:
                self.process.kill()
                raise Differs("the client did not connect") from None

    def __enter__(self):
        return self

    def __exit__(self, *_):
        self.process.kill()
        self.process.wait()
        if self.link:
            self.link.socket.close()

    def types(self, text):
        try:
            self.process.stdin.write(text.encode("utf-8"))
            self.process.stdin.flush()
        except OSError as fault:
            raise Differs(f"the client took no more commands: {fault}") from None

    def ends(self, wanted):
        """Tests that the client prints nothing more, and that its exit status is the wanted one."""
        self.link.end()
        self.printed.are_next(END)
        try:
            status = self.process.wait(Lines.patience)
        except subprocess.TimeoutExpired:
            raise Differs("the client did not end") from None
        if status != wanted:
            raise Differs(f"expected status {wanted}, but got {status}")


class LastingClient(Client):
    """A client of protocol 4, which connects again. `link` is the server's end of its present connection, or None before the first."""

    # How many seconds the kit waits for a connection until it looks whether the client has ended.
    MOMENT = 0.05

    def meets(self, listener):
        """Keeps the listener: a transcript says when the client connects."""
        self.listener = listener

    def __exit__(self, *raised):
        super().__exit__(*raised)
        self.listener.close()

    def connects(self):
        """Takes the client's next connection."""
        until = time.monotonic() + Lines.patience
        while not self.has_connected():
            if self.process.poll() is not None:
                raise Differs(f"the client did not connect, and ended with status {self.process.poll()}")
            if until < time.monotonic():
                raise Differs("the client did not connect")

    def has_connected(self):
        """Whether the client connects again within a moment. It cannot once nobody listens."""
        if self.listener.fileno() < 0:
            return False
        self.listener.settimeout(self.MOMENT)
        with contextlib.suppress(TimeoutError):
            self.link = Link(self.listener.accept()[0])
            return True
        return False

    def stays_away(self):
        """Tests that the client has not connected again."""
        if self.has_connected():
            raise Differs("the client connected again")

    def ends(self, wanted):
        super().ends(wanted)
        self.stays_away()

    def gives_up(self):
        """Tests that the client closes its connection, does not connect again, and ends with a status other than 0. What it prints is its own."""
        self.link.close()
        until = time.monotonic() + Lines.patience
        while self.process.poll() is None:
            self.stays_away()
            if until < time.monotonic():
                raise Differs("the client did not end")
        self.stays_away()
        if not self.process.poll():
            raise Differs("expected a status other than 0, but got 0")
