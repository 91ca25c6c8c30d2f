"""jup_model: replaces the module jup in tests where the library is not built. It is the plain client of conformance/fakes, with what `jupfile` calls."""
import enum
import os
import re
import sys
from typing import NamedTuple

sys.path.insert(0, f"{os.path.dirname(os.path.dirname(os.path.abspath(__file__)))}/conformance/fakes")
import boards
import reading
import sites

Fault = boards.Fault
# The numbers of faults that the model tells apart.
NO_SUCH_LINK, BAD_TAKEN, MISPLACED, CUT = 35, 36, 44, 95
# An end says `got` at the latest when it has taken so many lines since the last.
OWES_GOT = 64
# After how many seconds without a byte a connection is given up.
SILENCE = 90


class Cut(Fault):
    """The connection does not carry the link."""

    def __init__(self) -> None:
        super().__init__(CUT)


class Stage(enum.IntEnum):
    GREETING, OPENING, OPEN, OVER = range(4)


class WidgetKind(enum.IntEnum):
    TEXT = 1


class Kind(enum.IntEnum):
    NOTHING, INSERT_CHAR, INSERT_LABEL, DELETE = range(4)


class Terms(NamedTuple):
    token: str
    seconds: int
    kept: bool


class Site(NamedTuple):
    number: int
    backlog: int


class Widget(NamedTuple):
    win: int
    wid: int
    kind: int


class Change(NamedTuple):
    kind: Kind
    win: int
    wid: int
    place: int
    site: int
    number: int
    value: int


Command = tuple


def insert_char(win: int, wid: int, place: int, char: str) -> Command:
    return "ins", win, wid, place, "char", char


def delete(win: int, wid: int, place: int) -> Command:
    return "del", win, wid, place, None, None


def change_of(op: boards.Op) -> Change:
    kind = {"ins": Kind.INSERT_CHAR, "del": Kind.DELETE}.get(op.verb, Kind.NOTHING)
    return Change(kind, op.win, op.wid, op.place, *(op.name or (0, 0)), op.value or 0)


class Plain(sites.Client):
    """The plain client, which notes what changes its board."""

    def __init__(self, connection: "Client") -> None:
        super().__init__(connection, iter(()), None)
        self.told: list[Change] = []
        self.pongs = 0

    def hears(self, word: str, rest: list) -> None:
        if word == "pong":
            self.pongs = rest[0]
        elif word == "batch":
            ops = self.end.receive(*rest)
            self.board.apply_all(ops)
            self.told += map(change_of, ops)
            self.pay()
        elif word == "ack":
            self.end.take_ack(rest[0])


class Client:
    """A client that is fed with bytes, and hands out what it sends."""

    def __init__(self, watch: bool = False) -> None:
        self.going, self.coming, self.stage, self.plain = b"", b"", Stage.GREETING, Plain(self)
        # Texts that were asked for, until something changes.
        self.texts: dict[tuple[int, int], str] = {}
        self.plain.send("hello 3")

    def sendall(self, data: bytes) -> None:
        self.going += data

    def take(self) -> bytes:
        taken, self.going = self.going, b""
        return taken

    def feed(self, data: bytes) -> None:
        self.texts.clear()
        *lines, self.coming = (self.coming + data).split(b"\n")
        try:
            for line in lines:
                self.read(line.decode("latin-1"))
        except Fault:
            self.stage = Stage.OVER
            raise

    def read(self, line: str) -> None:
        word, rest = self.plain.grammar.read(line)
        if word in ("bye", "error"):
            # The library, too, takes a goodbye of the server for a line out of its place.
            raise Fault(MISPLACED if word == "bye" else rest[0])
        if self.stage == Stage.OPEN:
            message = self.plain.gathering.take(word, rest)
            if message:
                self.plain.hears(*message)
        elif word == "welcome":
            (self.plain.site, self.plain.limit), self.stage = rest, Stage.OPENING
        elif word == "ready":
            self.stage = Stage.OPEN
            self.plain.check_greeting()
        else:
            self.plain.board.read_line(line)

    def changes(self) -> list[Change]:
        told, self.plain.told = self.plain.told, []
        return told

    def edit(self, *commands: Command) -> None:
        self.texts.clear()
        self.plain.told += map(change_of, self.plain.edit(list(commands)))

    def ping(self) -> None:
        self.plain.pings += 1
        self.plain.send(f"ping {self.plain.pings}")

    @property
    def is_synced(self) -> bool:
        return 0 < self.plain.pings == self.plain.pongs

    @property
    def site(self) -> Site:
        return Site(self.plain.site, len(self.plain.end.queue))

    def bye(self) -> None:
        self.plain.send("bye")

    def widgets(self) -> list[Widget]:
        return [Widget(win, wid, WidgetKind.TEXT) for win, window in self.plain.board.windows.items() for wid in window]

    def text(self, win: int, wid: int) -> str:
        if (win, wid) not in self.texts:
            self.texts[win, wid] = "".join(chr(value) for _, value in self.plain.board.windows[win][wid].items)
        return self.texts[win, wid]


class LastingClient(Client):
    """A client of a link that outlives its connections. `up` has the lines that it has put and the server has not confirmed."""

    def __init__(self, watch: bool = False) -> None:
        self.up: list[str] = []
        self.confirmed = self.written = self.taken = self.said = 0
        self.first, self.terms, self.is_carried, self.is_begun, self.is_got_due = "hello 4", None, True, False, False
        # For how many seconds no byte has come on this connection.
        self.silent = 0
        super().__init__(watch)
        self.up.clear()

    def sendall(self, data: bytes) -> None:
        self.up += data.decode("latin-1").splitlines()

    def take(self) -> bytes:
        if not self.is_carried:
            return b""
        lines, self.first = [self.first] if self.first else [], None
        if self.is_begun and (self.is_got_due or self.taken - self.said >= OWES_GOT):
            lines.append(f"got {self.taken}")
            self.said, self.is_got_due = self.taken, False
        if self.is_begun and self.stage != Stage.OVER:
            lines += self.up[self.written - self.confirmed :]
            self.written = self.confirmed + len(self.up)
        return "".join(f"{it}\n" for it in lines).encode("latin-1")

    def feed(self, data: bytes) -> None:
        if not self.is_carried:
            raise Cut
        self.silent = 0
        super().feed(data)

    def read(self, line: str) -> None:
        word, *rest = line.split(" ")
        if not self.is_begun:
            self.begin(line)
        elif word == "got":
            self.confirm(int(rest[0]), self.written)
            del self.up[: int(rest[0]) - self.confirmed]
            self.confirmed = int(rest[0])
        else:
            self.taken += 1
            self.is_got_due |= word in ("bye", "error")
            super().read(line)

    def begin(self, line: str) -> None:
        """Judges the server's first line on a connection."""
        found = re.fullmatch(r"(link|resumed|ended|error) (?:([0-9a-f]{32}) )?(\d+)", line)
        if not found or (found[1] == "link") != (self.terms is None and found[1] != "error"):
            self.cut()
            raise Cut
        if found[1] == "link":
            self.terms = Terms(found[2], int(found[3]), False)
        elif found[1] == "resumed":
            self.confirm(int(found[3]), self.confirmed + len(self.up))
            self.written, self.is_got_due = int(found[3]), True
        else:
            raise Fault(NO_SUCH_LINK if found[1] == "ended" else int(found[3]))
        self.is_begun = True

    def confirm(self, count: int, most: int) -> None:
        """Refuses a count of lines that the server can't have."""
        if not self.confirmed <= count <= most:
            raise Fault(BAD_TAKEN)

    def cut(self) -> None:
        self.coming, self.is_carried, self.is_begun = b"", False, False

    def resume(self) -> None:
        self.first, self.is_carried = f"resume {self.terms.token} {self.taken}" if self.terms else "hello 4", True
        self.said, self.silent = self.taken, 0

    def elapse(self, seconds: int) -> bool:
        self.silent += seconds
        return self.silent >= SILENCE
