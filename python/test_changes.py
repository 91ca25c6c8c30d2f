"""300 runs at random, and 300 over connections that are cut: at each moment a copy that takes only the changes that a client tells is what the client shows.

Three clients of the library edit one board, at the plain server of conformance/fakes. The copies are plain lists of this file. At the end of a run all clients show the board of the server.
A cut loses what is on its way, and the parts of lines. The client edits on, and resumes its link later.
The environment variable JUP_LIBRARY names the library, if it is not beside the module jup.
"""
import collections
import ctypes
import dataclasses
import os
import random
import sys
import unittest

sys.path.insert(0, f"{os.path.dirname(os.path.dirname(os.path.abspath(__file__)))}/conformance/fakes")
import jup
import stars
from jup import Kind, WidgetKind

# How many runs are played, with how many clients, and how many events each has before all is delivered.
RUNS, SEATS, EVENTS = 300, 3, 120
# At the most so many bytes leave a client in one event, so many messages leave the server, and so many bytes come to a client.
MOST_SENT, MOST_FETCHED, MOST_FED = 63, 3, 200
# More bytes or messages than ever wait, and more rounds than their delivery takes.
ALL, ROUNDS = 1 << 16, 100
# One command in so many is of any kind, and one in so many is for any ids.
ODD = 16
# One event in so many of a client with a link comes after its connection breaks, or after it has another one. The token of a link.
BREAKS, TOKEN = 6, "0f1e2d3c4b5a69788796a5b4c3d2e1f0"
LAYOUT = """window 1
text 1
char 0.1 112
char 0.2 233
list 2
item 0.3 red
item 0.4 green
toggle 3 off
slider 4 0 10 5
window 7
list 1
text 3
char 0.5 128512
slider 9 -3 -1 -2"""
# The changes that each kind of widget takes, except Kind.NOTHING.
FITTING = {
    WidgetKind.TEXT: [Kind.INSERT_CHAR, Kind.DELETE],
    WidgetKind.LIST: [Kind.INSERT_LABEL, Kind.DELETE, Kind.RELABEL],
    WidgetKind.TOGGLE: [Kind.SET_TOGGLE],
    WidgetKind.SLIDER: [Kind.SET_SLIDER],
}
# The numbers by which a client refuses a command that does not fit its board.
MISFITS = (1, 2, 3, 4, 5)


@dataclasses.dataclass
class Widget:
    """A widget of a copy. Each item has its name and its value."""

    kind: WidgetKind
    items: list = dataclasses.field(default_factory=list)
    low: int = 0
    high: int = 0
    value: int = 0

    def shown(self):
        return self.kind, [value for _, value in self.items], self.low, self.high, self.value

    def take(self, change):
        """Takes a change, which has to fit."""
        kind, name, place = Kind(change.kind), (change.site, change.number), change.place
        assert kind == Kind.NOTHING or kind in FITTING[self.kind], "the change is for another kind of widget"
        if kind == Kind.SET_SLIDER:
            assert self.low <= change.value <= self.high, "the value is not within the bounds"
        if kind in (Kind.SET_TOGGLE, Kind.SET_SLIDER):
            self.value = change.value
        elif kind in (Kind.INSERT_CHAR, Kind.INSERT_LABEL):
            assert place <= len(self.items) and name not in dict(self.items), "the insertion does not fit"
            self.items.insert(place, (name, chr(change.value) if kind == Kind.INSERT_CHAR else change.label))
        elif kind != Kind.NOTHING:
            assert self.items[place][0] == name, "another item has the place"
            self.items[place : place + 1] = [] if kind == Kind.DELETE else [(name, change.label)]


def widget_of(word, rest=""):
    kind = WidgetKind[word.upper()]
    if kind == WidgetKind.SLIDER:
        return Widget(kind, [], *map(int, rest.split(" ")))
    return Widget(kind, value=int(rest == "on"))


def board_of(lines):
    """The widgets that the lines of a board have, by the ids of their windows and their own."""
    board, win, items = {}, 0, []
    for line in lines:
        word, first, *rest = line.split(" ", 2)
        if word == "window":
            win = int(first)
        elif word in ("char", "item"):
            site, number = map(int, first.split("."))
            items.append(((site, number), chr(int(rest[0])) if word == "char" else rest[0]))
        else:
            board[win, int(first)] = widget = widget_of(word, *rest)
            items = widget.items
    return board


def command(chance, board):
    """A command for a widget of a board. It may not fit."""
    (win, wid), widget = chance.choice([*board.items()])
    kinds = FITTING[widget.kind] if chance.randrange(ODD) else [*Kind][1:]
    if not chance.randrange(ODD):
        win, wid = chance.randrange(10), chance.randrange(10)
    place, label = chance.randrange(len(widget.items) + 1), chance.choice(["blue", "a ~ b", "x" * jup.MOST_LABEL])
    made = {
        Kind.INSERT_CHAR: lambda: jup.insert_char(win, wid, place, chance.choice("a\0é😀")),
        Kind.INSERT_LABEL: lambda: jup.insert_label(win, wid, place, label),
        Kind.DELETE: lambda: jup.delete(win, wid, place),
        Kind.RELABEL: lambda: jup.relabel(win, wid, place, label),
        Kind.SET_TOGGLE: lambda: jup.set_toggle(win, wid, bool(chance.randrange(2))),
        Kind.SET_SLIDER: lambda: jup.set_slider(win, wid, chance.randint(widget.low, widget.high + 1)),
    }
    return made[chance.choice(kinds)]()


class Watched:
    """What the runs ask of a client of the library."""

    def take_some(self, most):
        """The oldest bytes that wait, at most so many. The module jup itself takes all."""
        room = ctypes.create_string_buffer(most + 1)
        count = jup._take(self._handle, room, most)
        return room.raw[:count]

    def items(self, widget):
        """The values of the items of a widget."""
        if widget.kind == WidgetKind.TEXT:
            return [*self.text(widget.win, widget.wid)]
        return self.labels(widget.win, widget.wid) if widget.kind == WidgetKind.LIST else []

    def shown(self):
        """What each widget shows, as a widget of a copy says it."""
        return {(it.win, it.wid): (it.kind, self.items(it), it.lo, it.hi, it.value) for it in self.widgets()}


class Client(Watched, jup.Client):
    """A client of one connection."""


class LastingClient(Watched, jup.LastingClient):
    """A client of a link that outlives its connections."""


class Star(stars.Star):
    """The board of the server. It counts the changes that its clients have to tell: each operation of an edit, by each of them."""

    due = 0

    def tell(self, seat, moved):
        super().tell(seat, moved)
        self.due += len(moved) * len(self.seats)


class Session(stars.Session):
    """A session of the server, without a connection and without threads."""

    def join(self):
        self.seat = self.star.join()


class Seat:
    """A client, its session at the server, the bytes between them, and the copy. It counts its edits and what it told."""

    client = Client

    def __init__(self, star):
        self.client, self.session = self.client(watch=True), Session(star, None)
        self.up, self.down, self.copy = b"", b"", {}
        self.edits, self.told = collections.Counter(), collections.Counter()

    def is_open(self):
        return self.client.stage == jup.Stage.OPEN

    def edit(self, chance):
        """The client makes an edit, or refuses it. Returns how many changes that makes."""
        commands = [command(chance, self.copy) for _ in range(chance.randint(1, 4))]
        try:
            self.client.edit(*commands)
        except jup.Fault as fault:
            assert fault.number in MISFITS, f"an edit is refused by {fault}"
            self.edits["refused"] += 1
            return 0
        self.edits["made"] += 1
        return len(commands)

    def send(self, most):
        """Bytes of the client come to the server. Returns how many."""
        taken = self.client.take_some(most)
        *lines, self.up = (self.up + taken).split(b"\n")
        for line in lines:
            self.hears(line.decode("latin-1"))
        return len(taken)

    def hears(self, line):
        """A line of the client comes to the server."""
        self.session.goes_on(line)

    def fetch(self, most):
        """Messages leave the server. The first has the board with which the copy begins."""
        waiting = self.session.seat.waiting if self.session.seat else []
        for text in waiting[:most]:
            self.copy = self.copy or board_of(text.split("\n")[1:-1])
            self.tell(f"{text}\n".encode("latin-1"))
        del waiting[:most]

    def tell(self, text):
        """A message goes on its way to the client."""
        self.down += text

    def feed(self, most):
        """Bytes of the server come to the client. Returns how many."""
        fed, self.down = self.down[:most], self.down[most:]
        self.client.feed(fed)
        return len(fed)

    def look(self):
        """The copy takes the changes that were not told, and then is what the client shows. Returns how many these were."""
        changes = [*self.client.changes()]
        for change in changes:
            self.copy[change.win, change.wid].take(change)
            self.told[Kind(change.kind)] += 1
        if self.is_open():
            assert self.client.shown() == {ids: widget.shown() for ids, widget in self.copy.items()}, "the copy is not what the client shows"
        return len(changes)

    def happens(self, chance):
        """An event, at random."""
        event, due = chance.randrange(5), None
        if event < 2 and self.is_open():
            due = self.edit(chance)
        elif event == 2:
            self.send(chance.randint(0, MOST_SENT))
        elif event == 3:
            self.fetch(chance.randint(0, MOST_FETCHED))
        elif event == 4:
            self.feed(chance.randint(0, MOST_FED))
        told = self.look()
        assert due in (None, told), "an edit makes one change by each command, or is refused and makes none"

    def move_all(self):
        """All that waits is moved. Returns how many bytes that were."""
        sent = self.send(ALL)
        self.fetch(ALL)
        fed = self.feed(ALL)
        self.look()
        return sent + fed


class LastingSeat(Seat):
    """A seat whose client has a link. One carrier after another carries it, and a cut loses what is on its way."""

    client = LastingClient

    def __init__(self, star):
        super().__init__(star)
        # How many lines of the client the server has taken, and the lines that it has put.
        self.taken, self.put = 0, []
        # How many of these it has written to this carrier, or None before its first line.
        self.written = None
        # The last count that each end has confirmed, and whether there is a carrier. How many cuts came within a line of the client, within an edit of it, and lost bytes of the server.
        self.confirmed, self.said, self.is_carried, self.cuts = 0, 0, True, collections.Counter()

    def hears(self, line):
        word, *rest = line.split(" ")
        if self.written is None:
            self.begins(word, rest)
        elif word == "got":
            assert self.confirmed <= int(rest[0]) <= self.written, "the client confirms what it can't have"
            self.confirmed = int(rest[0])
        else:
            self.taken += 1
            self.session.goes_on(line)

    def begins(self, word, rest):
        """Answers the first line of a carrier."""
        if word == "hello":
            self.session.goes_on("hello 3")
            self.down, self.written = f"link {TOKEN} 300\n".encode(), 0
            return
        token, taken = rest
        assert (word, token) == ("resume", TOKEN) and self.confirmed <= int(taken) <= len(self.put), "the client asks for another link"
        self.down, self.written = f"resumed {self.taken}\n".encode(), int(taken)
        self.confirm()
        self.write()

    def confirm(self):
        """The server confirms the messages that it has taken."""
        if not self.session.gathering.left:
            self.said = self.taken
        self.down += f"got {self.said}\n".encode()

    def tell(self, text):
        self.put += text.splitlines(keepends=True)
        self.write()

    def write(self):
        """The lines that this carrier does not have yet go on their way."""
        if self.written is not None:
            self.down += b"".join(self.put[self.written :])
            self.written = len(self.put)

    def fetch(self, most):
        super().fetch(most)
        if self.written is not None and self.said < self.taken and not self.session.gathering.left:
            self.confirm()

    def feed(self, most):
        return super().feed(most) if self.is_carried else 0

    def breaks(self):
        """The carrier is cut, or another one is there."""
        if self.is_carried:
            self.client.cut()
            self.cuts.update(within_a_line=bool(self.up), within_an_edit=bool(self.session.gathering.left), of_the_server=bool(self.down))
            self.up, self.down, self.written = b"", b"", None
        else:
            self.client.resume()
        self.is_carried = not self.is_carried

    def happens(self, chance):
        if self.client.terms and not chance.randrange(BREAKS):
            self.breaks()
        super().happens(chance)

    def move_all(self):
        if not self.is_carried:
            self.breaks()
        return super().move_all()


def play(seed, kind=Seat):
    """A run. Some of the clients are open when it begins. Returns the star and the seats, once all is delivered."""
    chance, star = random.Random(seed), Star(LAYOUT.split("\n"), 1_000_000)
    seats = [kind(star) for _ in range(SEATS)]
    for seat in seats[: seed % (SEATS + 1)]:
        seat.move_all()
    for _ in range(EVENTS):
        chance.choice(seats).happens(chance)
    for _ in range(ROUNDS):
        # The sum is of all seats, so that each moves what waits.
        if sum(it.move_all() for it in seats) == 0:
            return star, seats
    raise AssertionError("the bytes that wait have no end")


class Changes(unittest.TestCase):
    def test_runs(self):
        self.plays(Seat)

    def test_runs_with_cuts(self):
        cuts = sum((it.cuts for it in self.plays(LastingSeat)), collections.Counter())
        # Each kind of cut is among them.
        self.assertGreaterEqual(min(cuts["within_a_line"], cuts["within_an_edit"], cuts["of_the_server"]), RUNS // 2)

    def plays(self, kind):
        """Plays the runs with seats of a kind, and returns all seats."""
        edits, told, played = collections.Counter(), collections.Counter(), []
        for seed in range(RUNS):
            with self.subTest(seed=seed):
                star, seats = play(seed, kind)
                for seat in seats:
                    self.assertTrue(seat.is_open())
                    self.assertEqual(seat.copy, board_of(star.board.lines()))
                    edits, told = edits + seat.edits, told + seat.told
                self.assertEqual(sum(it.told.total() for it in seats), star.due)
                played += seats
        # Neither kind of edit is missing, and no kind of change.
        self.assertGreaterEqual(min(edits["made"], edits["refused"]), RUNS)
        self.assertEqual(set(told), set(Kind))
        return played


if __name__ == "__main__":
    unittest.main()
