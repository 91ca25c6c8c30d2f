"""Servers of many boards that are wrong on purpose in keys, links, runs and news. Each class is wrong in one way."""
import secrets

import wrong_openings
from boards import Fault
from keys import RIGHTS, keys_from
from opening import Opening
from shelves import Kept, OpenLink, OpenSession, Shelf
from visitors import Visitor
from wrong_openings import KeysAbove, LooseKeys, with_opening


class KeepsKeys(Kept):
    """A board that keeps its keys."""

    def __init__(self, shelf, board_id, own, layout):
        super().__init__(shelf, board_id, own, layout)
        self.keys = keys_from("own", own)


class KeyShelf(Shelf):
    """A shelf that takes a key by `is_key`."""

    kept = KeepsKeys

    def find(self, board_id, key):
        board = self.boards.get(board_id)
        found = [it for it in RIGHTS if board and self.is_key(board, it, key)]
        return (board, found[0]) if found else (None, None)

    def is_key(self, board, right, key):
        return key == board.keys[right]


class ShowsHigherKeys(KeyShelf):
    """It sends the keys of a higher right too."""

    opening = KeysAbove


class PrefixTaken(KeyShelf):
    """It takes a prefix of a key for the key."""

    opening = LooseKeys

    def is_key(self, board, right, key):
        return bool(key) and board.keys[right].startswith(key)


class EmptyKeyTaken(KeyShelf):
    """It takes an empty key."""

    opening = LooseKeys

    def is_key(self, board, right, key):
        return not key or super().is_key(board, right, key)


class HalfAKeyCompared(KeyShelf):
    """It compares the first half of a key."""

    def is_key(self, board, right, key):
        return key[:16] == board.keys[right][:16]


class OtherBoardsKeyTaken(KeyShelf):
    """It takes a key of any board."""

    def is_key(self, board, right, key):
        return any(super(OtherBoardsKeyTaken, self).is_key(it, right, key) for it in self.boards.values())


class WrongKeyDiffers(Shelf):
    """It answers a wrong key of a board by 39, and so shows that there is this board."""

    def find(self, board_id, key):
        board, right = super().find(board_id, key)
        if board_id in self.boards and not right:
            raise Fault(39)
        return board, right


class RightAbove(Shelf):
    """An edit key has the right of an own key."""

    def find(self, board_id, key):
        board, right = super().find(board_id, key)
        return board, "own" if right == "edit" else right


class ReadKeyEdits(Shelf):
    """A read key has the right of an edit key."""

    def find(self, board_id, key):
        board, right = super().find(board_id, key)
        return board, "edit" if right == "read" else right


class RunMissing(OpenSession):
    """It sends no `run` in protocol 3."""

    def takes_seat(self):
        seat = super().takes_seat()
        del seat.waiting[0]
        return seat


class RunMissingOfLinks(OpenLink):
    """It sends no `run` in protocol 4."""

    def carried(self, carrier):
        super().carried(carrier)
        del carrier.notes[0]
        return carrier


class RunOfEachCarrier(OpenLink):
    """Each carrier of protocol 4 has a run of its own."""

    def run(self):
        return secrets.token_hex(16)


class RunBeforeAnError(OpenSession):
    """It sends `run` in front of an error too."""

    def end(self, ending):
        super().end(f"run {self.star.run}\n{ending}" if ending.startswith("error") and not self.seat else ending)


class RunBeforeTheEnded(OpenSession):
    """It sends `run` in front of `ended` too."""

    def end(self, ending):
        super().end(f"run {self.star.run}\n{ending}" if ending.startswith("ended") else ending)


class RunCounted(OpenLink):
    """It counts `run` as a line that the client has taken."""

    def resume(self, connection, taken, held):
        return super().resume(connection, taken - 1, held)


class OneTableOfLinks(Kept):
    """It looks for a token at all boards."""

    finders = []

    def __init__(self, *given):
        super().__init__(*given)
        self.finders.append(self.door.links.find)
        self.door.links.find = lambda token: next(filter(None, (it(token) for it in self.finders)), None)


class OneStar(Kept):
    """Boards that began alike are one board."""

    first = {}

    def __init__(self, shelf, board_id, own, layout):
        super().__init__(shelf, board_id, own, layout)
        first = self.first.setdefault("\n".join(layout), self)
        self.star, self.door = first.star, first.door


class NeverFull(Kept):
    """It does not report that the order is full."""

    def is_full(self):
        return False


class CountsLinks(Kept):
    """It counts links without a connection too."""

    def __init__(self, *given):
        super().__init__(*given)
        self.visitors.links = lambda: len(self.star.seats)


class CountsVisitors(Kept):
    """It counts clients that have only asked for the board."""

    def __init__(self, *given):
        super().__init__(*given)
        self.visitors.links = lambda: len(self.visitors.all)


class CountsAllBoards(Kept):
    """It counts the links of all boards."""

    counters = []

    def __init__(self, *given):
        super().__init__(*given)
        self.counters.append(self.visitors.links)
        self.visitors.links = lambda: sum(it() for it in self.counters)


class NewsUnasked(Visitor):
    """It hears of others without having asked."""

    def carries(self, tell, is_linked):
        super().carries(tell, is_linked)
        self.links = self.links or 0


class NewsOnce(Visitor):
    """It hears of others only in answer to `news`."""

    def hears(self, links, is_full):
        super().hears(self.links, is_full)


class NewsAtEachChange(Visitor):
    """It hears of others as often as they come and go."""

    def hears(self, links, is_full):
        self.told_at = 0
        super().hears(links, is_full)


class NewsAfterTheGreeting(Visitor):
    """It hears nothing of others before it has greeted."""

    def asks(self, links, is_full):
        super().asks(links, is_full)
        self.hushes()


class FullInAnswerAlone(Visitor):
    """It hears that the order is full only in answer to `news`."""

    def hears(self, links, is_full):
        super().hears(links, False)


def with_own(**kinds):
    """A shelf with such boards, links or sessions."""
    return type("WrongShelf", (Shelf,), kinds)


def with_visitor(kind):
    """A shelf whose connections are such visitors."""
    return with_opening(type("WrongVisits", (Opening,), {"visitor": kind}))


WAYS = {
    **wrong_openings.WAYS,
    "keys-above": ShowsHigherKeys,
    "prefix": PrefixTaken,
    "empty-key": EmptyKeyTaken,
    "half-a-key": HalfAKeyCompared,
    "other-boards-key": OtherBoardsKeyTaken,
    "wrong-key-differs": WrongKeyDiffers,
    "right-above": RightAbove,
    "read-key-edits": ReadKeyEdits,
    "run-missing": with_own(session=RunMissing),
    "run-missing-of-links": with_own(link=RunMissingOfLinks),
    "run-of-each-carrier": with_own(link=RunOfEachCarrier),
    "run-before-an-error": with_own(session=RunBeforeAnError),
    "run-before-the-ended": with_own(session=RunBeforeTheEnded),
    "run-counted": with_own(link=RunCounted),
    "one-table-of-links": with_own(kept=OneTableOfLinks),
    "one-star": with_own(kept=OneStar),
    "never-full": with_own(kept=NeverFull),
    "counts-links": with_own(kept=CountsLinks),
    "counts-visitors": with_own(kept=CountsVisitors),
    "counts-all-boards": with_own(kept=CountsAllBoards),
    "news-unasked": with_visitor(NewsUnasked),
    "news-once": with_visitor(NewsOnce),
    "news-at-each-change": with_visitor(NewsAtEachChange),
    "news-after-the-greeting": with_visitor(NewsAfterTheGreeting),
    "full-in-answer-alone": with_visitor(FullInAnswerAlone),
}
