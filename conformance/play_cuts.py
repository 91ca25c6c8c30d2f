"""The mode that plays over connections that are cut. A seed says who edits what, and after how many bytes the kit cuts the connections of each client."""
import contextlib
import random
import subprocess
import sys

import cutting
import material
import play
from links import Differs, Lines
from relay import OwnClient, OwnServer

sys.path.append(f"{material.HERE}/fakes")
import doors  # noqa: E402
import lasting  # noqa: E402
import resuming  # noqa: E402
import stars  # noqa: E402

# How often the connections of a client are cut each way at most, and within how many bytes after the greeting.
MOST_CUTS, WITHIN = 4, {"up": 2500, "down": 5000}
# About how many bytes of each way belong to the greeting of the kit's own board.
GREETING = {"up": len("hello 4\n"), "down": len(material.text_with(play.LAYOUT)) + 100}
# How a relay may break a connection. One that is silent is left out, since a client notices that after 90 seconds only.
MODES = [it for it in cutting.MODES if it != "silent"]
# For how many seconds the kit's own server lets a link wait.
GRACE = 60
# A line that is no command, and the answer to it.
NO_COMMAND, ANSWER = "what", "bad command"


class ShortWaits(resuming.Waits):
    """The kit's own clients wait for a short time only."""

    longest = 0.1


class OwnLink(resuming.Link):
    waits = ShortWaits


class OwnLastingClient(OwnClient):
    """The kit's own client of protocol 4."""

    def joins(self, address):
        return OwnLink(address), resuming.LastingClient

    def kill(self):
        with contextlib.suppress(OSError):
            self.stdin.close()
        self.connection.close()


class OwnLastingServer(OwnServer):
    """The kit's own server, which has protocol 4 too."""

    def run(self):
        self.server = doors.Server(self.listener, self.star, stars.Session, lasting.Link, GRACE, sys.maxsize)
        self.server.serve()

    def stop(self):
        self.server.stop()


class Cuts:
    """Where the connections of a client are cut, by the seed of its run: how, and after how many bytes of each way over all its connections."""

    def __init__(self, seed, name):
        pick = random.Random(f"{seed} {name}")
        self.mode = pick.choice(MODES)
        self.after = {way: sorted(pick.randint(1, WITHIN[way]) + GREETING[way] for _ in range(pick.randint(1, MOST_CUTS))) for way in cutting.WAYS}

    def __str__(self):
        return f"{self.mode} after the bytes " + " and ".join(f"{', '.join(map(str, counts))} {way}" for way, counts in self.after.items())


class Typist:
    """A client that connects through relays, and what its user types. The relays cut its connections if `cuts` says where."""

    # Its `sync` is over once it has answered.
    is_syncing = False

    def __init__(self, name, words, start, address, cuts, log):
        self.name, self.log, self.relays = name, log, []
        for way in cutting.WAYS if cuts else ():
            self.relays.append(cutting.Relay(address, way, list(cuts.after[way]), cuts.mode))
            address = self.relays[-1].address
        if cuts:
            self.log.append(f"{name} is cut: {cuts}")
        try:
            self.process = start([it.replace("{}", address) for it in words], stdin=subprocess.PIPE, stdout=subprocess.PIPE, stderr=subprocess.DEVNULL)
        except OSError as fault:
            raise Differs(f"the client cannot be started: {fault}") from None
        self.printed = Lines(self.process.stdout)

    def types(self, text):
        try:
            self.process.stdin.write(text.encode())
            self.process.stdin.flush()
        except OSError:
            raise Differs(f"{self.name} has ended, and printed {self.printed.next()!r}") from None

    def next(self, due):
        return self.printed.next(f"{due!r} from {self.name}")

    def greet(self):
        """Waits until the client has joined."""
        self.prints("site *")
        self.log.append(f"{self.name} joins")

    def prints(self, due):
        found = self.next(due)
        if found.split(" ")[:1] != due.split(" ")[:1]:
            raise Differs(f"expected {due!r}, but {self.name} printed {found!r}")

    def edit(self, commands):
        """Types the commands as one edit."""
        lines = commands if len(commands) == 1 else [f"batch {len(commands)}", *commands]
        self.types(material.text_with(lines))
        answer = self.next("'made' or 'refused'")
        self.log.append(f"{self.name} types {' / '.join(lines)}: {answer}")
        if not answer.startswith(("made ", "refused ")):
            raise Differs(f"expected 'made' or 'refused', but {self.name} printed {answer!r}")

    def sync(self):
        self.types("sync\n")
        self.prints("synced")
        self.log.append(f"{self.name} syncs")

    def up(self):
        """Does nothing: what the client sends passes without the kit."""

    def down(self):
        """Does nothing: what the server sends passes without the kit."""

    def settle(self):
        """Has the client take everything."""
        self.types("sync\n")
        self.prints("synced")

    def show(self):
        """What the client shows, as it is printed. A line that is no command ends it."""
        self.types(f"show\n{NO_COMMAND}\n")
        lines = []
        while (line := self.next("a line of the board")) != ANSWER:
            lines.append(line)
        return lines

    def quit(self):
        """Ends the session of the client, which has to exit with status 0."""
        self.types("quit\n")
        self.prints("bye")
        try:
            status = self.process.wait(Lines.patience)
        except subprocess.TimeoutExpired:
            raise Differs(f"{self.name} did not end") from None
        if status != 0:
            raise Differs(f"expected status 0 of {self.name}, but got {status}")

    def stop(self):
        self.process.kill()
        self.process.wait()
        for relay in self.relays:
            relay.__exit__()


class Stage(play.Stage):
    """Who plays a run: clients and a server of protocol 4. The client that joins late is not cut."""

    client, own_server = OwnLastingClient, OwnLastingServer

    def relay(self, name, start, address, run):
        is_cut = len(run.relays) < self.clients
        return Typist(name, *start, address, Cuts(run.seed, name) if is_cut else None, run.log)
