"""What a connection says before it carries a link: its first line, and the notes after the answer (docs/WIRE.md, "Boards behind keys")."""
import re

from boards import Fault
from doors import first_line
from imports import BrokenOff, Printed, read_import
from keys import ID, KEY, NAME, keys_from
from reading import LONGEST_LINE
from stars import Session
from visitors import Visitor

# How many bytes a first line has at most, and an import, which may have more if the owner makes it.
MOST_FIRST, MOST_IMPORT, MOST_OF_OWNER = 96, 1_048_576, 33_554_432


class Silent(Exception):
    """The server closes the connection without a line."""


class Opening:
    """Serves a connection of a server of many boards."""

    visitor = Visitor
    # In how many seconds a first line is whole, the first line after the answer, each later one, and an import.
    first, answered, later, importing = 10, 10, 60, 60
    open_form, make_form = f"open ({ID}) ({KEY})", f"make ({ID}) ({KEY}) ({NAME}|-)"

    def __init__(self, shelf, connection):
        self.shelf, self.connection, self.held = shelf, connection, b""

    def serve(self):
        try:
            self.answers(self.line())
        except Fault as fault:
            self.ends(f"error {fault.number}")
        except (Silent, BrokenOff, OSError):
            self.connection.close()

    def ends(self, *lines):
        """Writes the last lines of the connection, and ends it as a session does."""
        Session(None, self.connection).end("\n".join(lines))

    def line(self):
        """A line of opening."""
        line, self.held = first_line(self.connection, self.held, MOST_FIRST, self.first)
        if line is None:
            raise Silent
        return line

    def answers(self, line):
        """Answers the first line."""
        forms = {self.open_form: self.opens, self.make_form: self.makes, f"owner ({KEY})": self.shows_owner, "templates": self.lists}
        for form, act in forms.items():
            if found := re.fullmatch(form, line):
                act(*found.groups())
                return
        raise Fault(38)

    def opens(self, board_id, key):
        board, right = self.shelf.find(board_id, key)
        if not right:
            raise Fault(38)
        if right == "read":
            raise Fault(39)
        self.attends(board, right, key)

    def lists(self):
        self.ends(f"create {self.shelf.create}", *(f"template {it}" for it in self.shelf.templates()), "end")

    def shows_owner(self, key):
        if not self.shelf.is_owner(key):
            raise Fault(38)
        self.connection.sendall(b"may owner\n")
        found = re.fullmatch(self.make_form, self.line())
        if not found:
            raise Fault(40)
        self.makes(*found.groups(), is_owner=True)

    def makes(self, board_id, key, name, is_owner=False):
        layout = self.layout(name, is_owner)
        self.attends(self.shelf.make(board_id, key, layout, is_owner), "own", key)

    def layout(self, name, is_owner):
        """The layout of a template, or of the printed board that follows."""
        if name == "-":
            return Printed().read(self.imports(MOST_OF_OWNER if is_owner else MOST_IMPORT))
        if name not in self.shelf.templates():
            raise Fault(38)
        return self.shelf.template(name)

    def imports(self, most):
        """The lines of an import."""
        if not self.shelf.imports.acquire(blocking=False):
            raise Fault(48)
        try:
            lines, self.held = read_import(self.connection, self.held, most, self.importing)
            return lines
        finally:
            self.shelf.imports.release()

    def attends(self, board, right, key):
        """Answers an open or a make by its right, and serves the board."""
        visitor = self.visitor(self.connection)
        board.visitors.come(visitor)
        try:
            visitor.say(f"may {right}")
            self.notes(board, right, key, visitor)
            visitor.hushes()
            board.door.greet(visitor, self.held)
        finally:
            board.visitors.go(visitor)

    def notes(self, board, right, key, visitor):
        """Answers `keys` and `news`, up to the first line of a link."""
        while (line := self.next_note(visitor)) in ("keys", "news"):
            if line == "news":
                visitor.asks(board.visitors.links(), board.is_full())
            else:
                visitor.say(*(f"key {it} {shown}" for it, shown in self.keys(right, key).items()))
            self.answered = self.later

    def keys(self, right, key):
        return keys_from(right, key)

    def next_note(self, visitor):
        """The next line if it is a note. Any other line, and what is too long for one, is left for the link."""
        line, rest = first_line(visitor, self.held, LONGEST_LINE, self.answered)
        if line in ("keys", "news"):
            self.held = rest
        elif line is not None:
            self.held = f"{line}\n".encode("latin-1") + rest
        elif len(rest) < LONGEST_LINE:
            raise Silent
        else:
            self.held = rest
        return line
