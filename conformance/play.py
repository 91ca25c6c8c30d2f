"""The mode that plays. Clients edit one board at random, and the kit decides by a seed when each message passes."""
import contextlib
import random
import re
import shlex
import socket
import subprocess
import time
import typing

import material
from links import Differs, Lines, address_bound, free_address
from relay import OwnClient, OwnServer, Relay

LIMIT = 1_000_000
# The board of a server that the kit starts. It has each kind of widget, with the same ids in two windows.
LAYOUT = material.Board(
    [
        "window 1",
        'text 1 "abc"',
        'list 2 "p" "q" "r"',
        "toggle 3 off",
        "slider 4 0 9 5",
        "window 2",
        'text 1 "xyz"',
        'list 2 "s"',
        "toggle 3 on",
        "slider 4 -5 5 0",
        'text 5 ""',
    ]
).lines
QUOTED = re.compile(r'"((?:[^"\\]|\\.)*)"')
LETTER = re.compile(r"\\u\{\w+\}|\\.|[^\\]")
# How often each kind of step comes.
KINDS = {"edit": 8, "up": 5, "sync": 3, "down": 5}
# How long a sequence may get before clients delete more than they insert, and how many commands a batch has at most.
LONG, MOST_COMMANDS = 7, 4
# The share of commands for the widgets that a run is about, and the share of its `up` steps that a slow client keeps.
MOSTLY, SLOW = 0.7, 0.3
# The share of places that are within their sequence.
FITS = 0.93


class Widget:
    """A widget that a client shows: its ids, its kind, how many items it has, and its bounds."""

    def __init__(self, win, row):
        self.win, self.kind, self.wid, self.rest = win, *(row.split(" ", 2) + [""])[:3]
        texts = QUOTED.findall(self.rest) if self.kind in ("text", "list") else []
        self.length = len(LETTER.findall(texts[0])) if self.kind == "text" else len(texts)

    def command(self, pick):
        """A command, most often one that fits. It sets the length that the widget has after the command."""
        ids = f"{self.win} {self.wid}"
        if self.kind == "toggle":
            return f"set {ids} {pick.choice(('on', 'off'))}"
        if self.kind == "slider":
            low, high, _ = map(int, self.rest.split(" "))
            return f"set {ids} {pick.randint(low, high)}"
        place = pick.randint(0, self.length) if pick.random() < FITS else self.length + 1
        letter = pick.choice("abcdefghijklmnopqrstuvwxyz")
        if self.length == 0 or pick.random() < (0.3 if self.length > LONG else 0.55):
            self.length += 1
            return f'ins {ids} {place} {"char" if self.kind == "text" else "item"} "{letter}"'
        place = min(place, self.length - 1) if place <= self.length else place
        if self.kind == "list" and pick.random() < 0.5:
            return f'rel {ids} {place} "{letter}"'
        self.length -= 1
        return f"del {ids} {place}"


def widgets_in(board):
    win = None
    for row in board:
        if row.startswith("window "):
            win = row.split(" ")[1]
        else:
            yield Widget(win, row)


def commands_for(board, step):
    """One edit of a board: a command, or the commands of a batch. Most are for the widgets that the run is about."""
    pick = random.Random(step.choice)
    widgets = list(widgets_in(board))
    wid = widgets[int(step.about * len(widgets))].wid
    about = [it for it in widgets if it.wid == wid]
    count = 1 if pick.random() < 0.5 else pick.randint(2, MOST_COMMANDS)
    return [pick.choice(about if pick.random() < MOSTLY else widgets).command(pick) for _ in range(count)]


class Step(typing.NamedTuple):
    """A step of a run: its kind, the number of its client, and the two random numbers that choose the widgets and the commands."""

    kind: str
    who: int
    about: float
    choice: float


def steps_for(seed, clients):
    """The steps of a run. One of its clients is slow, so what it sends waits longer."""
    pick = random.Random(seed)
    about, slow = pick.random(), pick.randrange(clients)
    kinds = pick.choices(list(KINDS), KINDS.values(), k=pick.randint(40, 100) * clients)
    steps = [Step(kind, pick.randrange(clients), about, pick.random()) for kind in kinds]
    return [it for it in steps if it.kind != "up" or it.who != slow or it.choice < SLOW]


class Stage:
    """Who plays a run: the clients and the server."""

    # The kit's own client and server.
    client, own_server = OwnClient, OwnServer

    def __init__(self, clients, own, command, server):
        self.clients, self.command, self.server = clients, command, server
        self.own = clients if not command else own

    def starts(self):
        """The arguments of each client, and the function that starts it. The last one is for the client that joins late."""
        given = [(self.command, subprocess.Popen)] * (self.clients - self.own)
        owns = [(["{}"], self.client)] * self.own
        return [*given, *owns, (owns or given)[0]]

    def relay(self, name, start, address, run):
        """What is between a client of a run and the server."""
        return Relay(name, *start, address, run.log)

    @contextlib.contextmanager
    def address(self):
        """Where the server listens, and the lines that it prints, or None if the kit did not start it by a command."""
        if self.server and " " not in self.server:
            yield self.server, None
        elif self.server:
            with self.started() as process:
                printed, told = Lines(process.stdout), Lines(process.stderr)
                listening = printed.next("'listening' from the server")
                if not listening.startswith("listening "):
                    raise Differs(f"expected 'listening', but the server printed {listening!r}")
                yield address_bound(listening, told), printed
        else:
            with socket.create_server(("127.0.0.1", 0), backlog=64) as listener:
                server = self.own_server(listener, LAYOUT, LIMIT)
                try:
                    yield "127.0.0.1:%d" % listener.getsockname()[1], None
                finally:
                    server.stop()

    @contextlib.contextmanager
    def started(self):
        """The process of the server, which has got its layout. The end of the `with` stops it."""
        values = {"{}": free_address(), "{limit}": str(LIMIT), "{sessions}": str(self.clients + 1)}
        words = [values.get(it, it) for it in shlex.split(self.server)]
        try:
            process = subprocess.Popen(words, stdin=subprocess.PIPE, stdout=subprocess.PIPE, stderr=subprocess.PIPE)
        except OSError as fault:
            raise Differs(f"the server cannot be started: {fault}") from None
        with process:
            try:
                with contextlib.suppress(OSError):  # if the server has ended, the test of `listening` reports it
                    process.stdin.write("".join(f"{it}\n" for it in LAYOUT).encode())
                    process.stdin.close()
                yield process
            finally:
                process.kill()


class Run:
    """One run: its clients, and what happened so far."""

    def __init__(self, stage, steps, seed=0):
        self.stage, self.steps, self.seed, self.log, self.relays = stage, steps, seed, [], []

    def again(self, steps):
        """The run with these steps."""
        return Run(self.stage, steps, self.seed)

    def differs(self):
        """Plays the run. Returns what differs from what is expected, or None."""
        try:
            with self.stage.address() as (address, printed):
                try:
                    self.play(address, printed)
                finally:
                    for relay in self.relays:
                        relay.stop()
        except Differs as differs:
            return str(differs)
        return None

    def play(self, address, printed):
        *starts, late = self.stage.starts()
        for number, start in enumerate(starts):
            self.joins(f"client {number + 1}", start, address)
        for step in self.steps:
            self.does(step, self.relays[step.who])
        self.log.append("the kit passes everything that waits, and every client syncs")
        for relay in self.relays * 2:
            relay.settle()
        self.joins("the late joiner", late, address)
        boards = [(it.name, it.show()) for it in self.relays]
        for relay in self.relays:
            relay.quit()
        if printed:
            printed.next("'order' from the server")
            boards.append(("the server", [printed.next("a line of the server's board") for _ in boards[0][1]]))
        are_equal(boards)

    def joins(self, name, start, address):
        self.relays.append(self.stage.relay(name, start, address, self))
        self.relays[-1].greet()

    def does(self, step, relay):
        if step.kind != "edit":
            getattr(relay, step.kind)()
        elif not relay.is_syncing:
            relay.edit(commands_for(relay.show(), step))


def are_equal(boards):
    """Tests that all boards are equal to the first."""
    first, wanted = boards[0]
    for name, board in boards[1:]:
        for due, found in zip(wanted, board):
            if due != found:
                raise Differs(f"{first} shows {due!r}, but {name} shows {found!r}")


def shortest(run, until):
    """Leaves steps out of a run that fails, until that time. Returns the log of the shortest run that still fails, and what differs."""
    run = run.again(run.steps)
    found = run.log, run.differs(), run
    size = max(1, len(run.steps) // 2)
    while size and time.monotonic() < until:
        found, was_shorter = shorter(found, size, until)
        size = min(size, len(found[2].steps)) if was_shorter and size > 1 else size // 2
    return found[:2]


def shorter(found, size, until):
    """Leaves out `size` steps at a time, from the end on, as long as the run still fails."""
    at, was_shorter = len(found[2].steps), False
    while at > 0 and time.monotonic() < until:
        at = max(0, at - size)
        steps = found[2].steps
        run = found[2].again(steps[:at] + steps[at + size :])
        differs = run.differs()
        if differs:
            found, was_shorter = (run.log, differs, run), True
    return found, was_shorter


def play(stage, seed, seconds):
    """Plays runs of one seed after another, for so many seconds. Prints the first that fails, in the shortest form that it finds in as many seconds again."""
    begun = time.monotonic()
    count = 0
    while not count or time.monotonic() - begun < seconds:
        run = Run(stage, steps_for(seed + count, stage.clients), seed + count)
        differs = run.differs()
        if differs:
            tell_failure(run, differs, seconds)
            print(f"{count} passed, 1 failed")
            return 1
        count += 1
    print(f"play: {stage.clients} clients, seeds {seed} to {seed + count - 1}: all boards were equal at the end of each run")
    print(f"{count} passed, 0 failed")
    return 0


def tell_failure(run, first, seconds):
    log, differs = shortest(run, time.monotonic() + seconds)
    if not differs:
        print(f"play: seed {run.seed}: the run failed once, but not when it was repeated: {first}")
        log, differs = run.log, first
    print(f"play: seed {run.seed}: {differs}. The shortest run that was found:")
    print("\n".join(f"  {it}" for it in log))
