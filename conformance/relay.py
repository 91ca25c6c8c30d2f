"""What is between a client and a server while the kit plays. What each of the two sent waits here until the kit passes it on."""
import collections
import contextlib
import os
import socket
import sys
import threading

import material
from links import END, Client, Differs, Link

sys.path.append(f"{material.HERE}/fakes")
import sites  # noqa: E402
import stars  # noqa: E402

# The kit's own pings begin after this number. A client counts its pings from 1.
OWN_PINGS = 4_000_000_000
# How many edits an end receives before it owes an acknowledgement.
OWES = 64


class Messages:
    """Gathers lines into messages. An edit has several lines."""

    def __init__(self):
        self.lines, self.missing = [], 0

    def push(self, line):
        """The lines of the message that this line ends, or None within a message."""
        self.missing = int(line.split(" ")[3]) if line.startswith("batch ") else max(0, self.missing - 1)
        self.lines.append(line)
        if self.missing:
            return None
        message, self.lines = self.lines, []
        return message


class Relay:
    """A client, a link to it and a link to the server, and the messages that wait between the two links."""

    def __init__(self, name, words, start, address, log):
        self.name, self.log, self.server = name, log, Link.to(address)
        self.client = Client(words, start)
        self.ups, self.downs, self.from_server = collections.deque(), collections.deque(), Messages()
        # The number of the client's last ping, whether its pong is still to come, and the number of the kit's own last ping.
        self.pings, self.is_syncing, self.own_pings = 0, False, 0
        # Whether this is the end, at which the kit passes everything that waits. The log then leaves out pings and syncs.
        self.is_settling = False
        # How many edits were passed to the client since its last sync, and how many it took since it sent an edit or an acknowledgement.
        self.passed, self.taken = 0, 0

    def says(self, text):
        if not self.is_settling or not text.startswith(("types sync", "sends ping", "is told pong")):
            self.log.append(f"{self.name} {text}")

    def greet(self):
        """Passes the greeting and the board without delay."""
        self.client.link.lines.are_next("hello 3")
        self.server.send_lines("hello 3")
        lines = []
        while not lines or lines[-1] != "ready":
            lines.append(self.of_server("'ready'"))
        self.client.link.send_lines(*lines)
        self.height = sum(it.split(" ", 1)[0] in material.BOARD_WORDS for it in lines)
        self.prints(f"site {lines[0].split(' ')[1]}")
        self.says(f"joins as site {lines[0].split(' ')[1]}")

    def of_server(self, due):
        """The next line of the server. The end, `bye` and an error are failures."""
        line = self.server.lines.next(due)
        if line == END or line == "bye" or line.startswith("error "):
            raise Differs(f"expected {due} for {self.name}, but the server sent {line!r}")
        return line

    def prints(self, due):
        found = self.client.printed.next(f"{due!r} from {self.name}")
        if found != due:
            raise Differs(f"expected {due!r}, but {self.name} printed {found!r}")

    def collect(self):
        """Collects everything that the server has for this client. The pong of a ping shows that all of it has come."""
        self.own_pings += 1
        pong = f"pong {OWN_PINGS + self.own_pings}"
        self.server.send_lines(f"ping {OWN_PINGS + self.own_pings}")
        while (line := self.of_server(repr(pong))) != pong:
            message = self.from_server.push(line)
            if message:
                self.downs.append(message)

    def show(self):
        """What the client shows, as it is printed."""
        self.client.types("show\n")
        return [self.client.printed.next(f"a line of the board of {self.name}") for _ in range(self.height)]

    def edit(self, commands):
        """Types the commands as one edit. What the client sends for them waits here."""
        lines = commands if len(commands) == 1 else [f"batch {len(commands)}", *commands]
        self.client.types("".join(f"{it}\n" for it in lines))
        answer = self.client.printed.next(f"'made' or 'refused' from {self.name}")
        self.says(f"types {' / '.join(lines)}: {answer}")
        if answer.startswith("made "):
            self.ups.append(self.of_client("batch "))
            self.taken = 0
        elif not answer.startswith("refused "):
            raise Differs(f"expected 'made' or 'refused', but {self.name} printed {answer!r}")

    def of_client(self, word):
        """The next message of the client, which has to begin with this word."""
        messages, message = Messages(), None
        while not message:
            message = messages.push(self.client.link.lines.next(f"{word!r} from {self.name}"))
        if not message[0].startswith(word):
            raise Differs(f"expected {word!r}, but {self.name} sent {message[0]!r}")
        return message

    def sync(self):
        """Types `sync`. It is over once the kit has passed its pong."""
        if not self.is_syncing:
            self.client.types("sync\n")
            self.is_syncing, self.pings = True, self.pings + 1
            self.ups.append(self.of_client(f"ping {self.pings}"))
            self.says("types sync")

    def up(self):
        """Passes the oldest message to the server, and waits until the server has taken it."""
        if self.ups:
            message = self.ups.popleft()
            self.server.send_lines(*message)
            self.says(f"sends {' / '.join(message)}")
            self.collect()

    def down(self):
        """Passes the oldest message to the client."""
        self.collect()
        if self.downs:
            message = self.downs.popleft()
            self.tells(message)
            self.says(f"is told {' / '.join(message)}")
            self.passed += message[0].startswith("batch ")
            if message == [f"pong {self.pings}"]:
                self.has_synced()

    def tells(self, message):
        try:
            self.client.link.send_lines(*message)
        except Differs:
            raise Differs(f"{self.name} has ended, and printed {self.client.printed.next()!r}") from None

    def has_synced(self):
        """Notes that the client has taken everything that was passed, and takes the acknowledgements that it owed."""
        self.prints("synced")
        self.is_syncing, owed = False, (self.taken + self.passed) // OWES
        self.taken, self.passed = (self.taken + self.passed) % OWES, 0
        self.ups.extend(self.of_client("ack ") for _ in range(owed))

    def settle(self):
        """Passes everything that waits, and has the client take it by a sync."""
        self.is_settling = True
        self.pass_all()
        self.sync()
        self.pass_all()

    def pass_all(self):
        self.collect()
        while self.ups or self.downs:
            self.up()
            self.down()

    def quit(self):
        """Ends the session of the client, which has to exit with status 0."""
        self.client.types("quit\n")
        self.server.send_lines(*self.of_client("bye"))
        self.server.lines.are_next("bye")
        self.client.link.send_lines("bye")
        self.prints("bye")
        self.server.close()
        self.client.ends(0)

    def stop(self):
        self.client.__exit__()
        self.server.socket.close()


class OwnClient:
    """The kit's own client in a thread, with the streams that a process would have."""

    def __init__(self, words, **_):
        typed, self.stdin = (open(fd, mode) for fd, mode in zip(os.pipe(), ("r", "wb")))
        self.stdout, self.tells = (open(fd, mode) for fd, mode in zip(os.pipe(), ("rb", "w")))
        (self.connection, self.kind), self.status = self.joins(words[-1]), None
        self.thread = threading.Thread(target=self.run, args=(typed,), daemon=True)
        self.thread.start()

    def joins(self, address):
        """A connection to the server, and the class of the client for it."""
        return sites.connected(address), sites.Client

    def run(self, typed):
        lines = (it.removesuffix("\n") for it in iter(typed.readline, ""))
        with contextlib.closing(self.connection), typed, self.tells:
            self.status = self.kind(self.connection, lines, self.tell).run()

    def tell(self, text):
        self.tells.write(f"{text}\n")
        self.tells.flush()

    def kill(self):
        with contextlib.suppress(OSError):
            self.stdin.close()
            self.connection.shutdown(socket.SHUT_RDWR)

    def wait(self, timeout=None):
        self.thread.join(timeout)
        return self.status


class OwnServer:
    """The kit's own server in threads of this process."""

    def __init__(self, listener, layout, limit):
        self.listener, self.star = listener, stars.Star(layout, limit)
        threading.Thread(target=self.run, daemon=True).start()

    def run(self):
        stars.serve(self.listener, self.star, stars.Session)

    def stop(self):
        self.listener.shutdown(socket.SHUT_RDWR)
