"""The lines of a printed board that follow a `make` (docs/WIRE.md, "The first line")."""
import re
import time

from boards import INT, LABEL, NUM, Board, Fault
from reading import QUOTED, unquoted

LAST = b"\nend\n"
WIDGETS = {"text": rf" {QUOTED}", "list": rf"(?: {QUOTED})*", "toggle": " (?:on|off)", "slider": f" {INT} {INT} {INT}"}


class BrokenOff(Exception):
    """The bytes of an import ended before its line `end`."""


def read_import(connection, held, most, seconds):
    """The lines up to `end`, and what was read after it. `held` is what was read before. An import that is too long or too slow is refused by 48."""
    data, at, until = bytearray(b"\n" + held), 0, time.monotonic() + seconds
    while (end := data.find(LAST, at)) < 0 and len(data) <= most:
        at, left = max(0, len(data) - len(LAST)), until - time.monotonic()
        connection.settimeout(max(0.001, left))
        try:
            piece = connection.recv(65536)
        except TimeoutError:
            raise Fault(48) from None
        if not piece:
            raise BrokenOff
        data += piece
    connection.settimeout(None)
    if end < 0 or end + len(LAST) - 1 > most:
        raise Fault(48)
    return data[1:end].decode("latin-1").split("\n") if end else [], bytes(data[end + len(LAST) :])


class Printed:
    """Reads a printed board. Its k-th item has the name 0.k."""

    def __init__(self):
        self.board, self.items = Board(), 0

    def read(self, lines):
        """The lines of the board as a layout has them. A bad line is refused by 40."""
        for line in lines:
            try:
                self.read_line(line)
            except Fault:
                raise Fault(40) from None
        return list(self.board.lines())

    def read_line(self, line):
        if re.fullmatch(f"window {NUM}", line):
            self.board.read_line(line)
            return
        found = re.fullmatch(f"(text|list|toggle|slider) {NUM}(.*)", line)
        if not found or not re.fullmatch(WIDGETS[found[1]], found[3]):
            raise Fault(40)
        if found[1] in ("toggle", "slider"):
            self.board.read_line(line)
        else:
            self.read_sequence(*found.groups())

    def read_sequence(self, kind, wid, rest):
        values = [unquoted(it) for it in re.findall(QUOTED, rest)]
        self.board.read_line(f"{kind} {wid}")
        for value in values if kind == "list" else values[0] if values[0] is not None else [None]:
            self.read_item(kind, value)

    def read_item(self, kind, value):
        if value is None or kind == "list" and not re.fullmatch(LABEL, value):
            raise Fault(40)
        self.items += 1
        self.board.read_line(f"char 0.{self.items} {ord(value)}" if kind == "text" else f"item 0.{self.items} {value}")
