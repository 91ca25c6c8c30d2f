"""A server of many boards: its shelf, and each board on it (docs/WIRE.md, "Boards behind keys")."""
import contextlib
import hmac
import secrets
import socket
import threading

from boards import Fault
from doors import TICK, Links, Server
from keys import RIGHTS, digest, keys_from
from lasting import Link
from opening import Opening
from stars import Session, Star
from visitors import Visitors

# The boards that a client can make, as layouts.
TEMPLATES = {
    "desk": ["window 1", "text 1", "char 0.1 72", "char 0.2 105", "list 2", "item 0.3 buy bread", "toggle 3 off", "slider 4 0 10 5"],
    "a-page": ["window 1", "text 1"],
    "vote-2": ["window 1", "list 1", "item 0.1 yes", "item 0.2 no"],
}
# How many boards the shelf has room for, and how many imports the server makes at the same time.
MOST_BOARDS, MOST_IMPORTS = 10_000, 2


class OpenSession(Session):
    """A session of protocol 3 on a board of the shelf. Its connection is a visitor."""

    def takes_seat(self):
        seat = super().takes_seat()
        seat.put_first(f"run {self.star.run}")
        self.connection.carries(seat.put, lambda: seat.site in self.star.seats)
        return seat


class OpenLink(Link):
    """A link of protocol 4 on a board of the shelf. The connections of its carriers are visitors."""

    def begin(self, connection, held):
        return self.carried(super().begin(connection, held))

    def resume(self, connection, taken, held):
        carrier = super().resume(connection, taken, held)
        return carrier and self.carried(carrier)

    def carried(self, carrier):
        carrier.notes.insert(0, f"run {self.run()}".encode())
        carrier.connection.carries(lambda line: self.note(carrier, line), lambda: self.carrier is carrier)
        return carrier

    def run(self):
        return self.session.star.run

    def note(self, carrier, line):
        """Writes a note on a carrier between two lines."""
        with self.bell:
            carrier.notes.append(line.encode())
            self.bell.notify_all()


class Door(Server):
    """What serves the links of one open board."""

    def __init__(self, star, session, link, seconds):
        super().__init__(None, star, session, link, seconds, 0)
        self.links = Links(lambda: link(star, Session, seconds))
        star.frees_a_seat = self.links.end_unused


class Kept:
    """A board of the shelf: the digests of its keys, and its door and its visitors. It is open from the first."""

    def __init__(self, shelf, board_id, own, layout):
        self.board_id, self.visitors = board_id, Visitors()
        self.digests = [digest(board_id, it) for it in keys_from("own", own).values()]
        self.star = shelf.star(layout, shelf.limit)
        self.star.run = secrets.token_hex(16)
        self.door = Door(self.star, shelf.session, shelf.link, shelf.grace)

    def right_of(self, shown):
        """The right of a key by its digest, or None. It compares with all digests."""
        found = [right for right, kept in zip(RIGHTS, self.digests) if hmac.compare_digest(kept, shown)]
        return found[0] if found else None

    def is_full(self):
        return self.star.taken >= self.star.limit

    def tend(self):
        self.door.links.tend()
        self.visitors.hear(self.is_full())


class Shelf:
    """All boards of a server. `create` says whom it lets make boards, and `owner` is the key of the server's owner."""

    star, session, link, kept, opening = Star, OpenSession, OpenLink, Kept, Opening

    def __init__(self, create, owner, limit, grace):
        self.create, self.owner, self.limit, self.grace = create, owner, limit, grace
        self.boards, self.lock, self.imports, self.is_stopped = {}, threading.RLock(), threading.Semaphore(MOST_IMPORTS), False

    def templates(self):
        return sorted(TEMPLATES)

    def template(self, name):
        return TEMPLATES[name]

    def find(self, board_id, key):
        """The board of an ID and the right that the key has to it. Both are None if there is no such board, or the key is none of its."""
        shown, board = digest(board_id, key), self.boards.get(board_id)
        right = board.right_of(shown) if board else None
        return (board, right) if right else (None, None)

    def is_owner(self, key):
        return bool(self.owner) and hmac.compare_digest(self.owner, key)

    def may_make(self, is_owner):
        return self.create == "anyone" or self.create == "owner" and is_owner

    def make(self, board_id, key, layout, is_owner):
        """The board of the ID, which is new unless it has this key already."""
        with self.lock:
            if not self.may_make(is_owner):
                raise Fault(39)
            if board_id in self.boards:
                return self.made_again(board_id, key, layout)
            if len(self.boards) >= MOST_BOARDS:
                raise Fault(48)
            return self.put(board_id, key, layout)

    def made_again(self, board_id, key, _):
        board, right = self.find(board_id, key)
        if right != "own":
            raise Fault(39)
        return board

    def put(self, board_id, key, layout):
        self.boards[board_id] = self.kept(self, board_id, key, layout)
        return self.boards[board_id]

    def serve(self, listener):
        listener.settimeout(TICK)
        while not self.is_stopped:
            with contextlib.suppress(TimeoutError):
                connection = listener.accept()[0]
                connection.setsockopt(socket.IPPROTO_TCP, socket.TCP_NODELAY, 1)
                threading.Thread(target=self.opening(self, connection).serve, daemon=True).start()
            for board in list(self.boards.values()):
                board.tend()
