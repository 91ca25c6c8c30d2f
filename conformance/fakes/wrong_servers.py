"""Servers that are wrong on purpose. Each replaces one part of the right server by one that is wrong in one way."""
import contextlib
import re
import time

from boards import LONGEST, Board, Fault
from ends import End, Transforms
from reading import Grammar, Lines
from stars import Seat, Session, Star


class TieTurned(Transforms):
    """Of two insertions at one place the earlier one is to the left."""

    def is_client_left(self, c, s):
        return False


class WindowIgnored(Transforms):
    """It takes two widgets for one if their ids are equal, whatever their windows."""

    def are_one_widget(self, one, other):
        return (one.wid, one.kind) == (other.wid, other.kind)


class NumbersAlone(Transforms):
    """It takes two items for one if their numbers are equal, whatever their sites."""

    def are_one_item(self, one, other):
        return one.name[1] == other.name[1]


class SitesAlone(Transforms):
    """It takes two items for one if their sites are equal, whatever their numbers."""

    def are_one_item(self, one, other):
        return one.name[0] == other.name[0]


class GridOfOnes(Transforms):
    """It moves each operation of a batch past the other batch as that was first, and not as it then is."""

    def grid(self, client, server):
        moved = [self.row(it, server) for it in client]
        return moved, [self.column(client, it) for it in server]

    def row(self, op, server):
        for other in server:
            op = self.pair(op, other)[0]
        return op

    def column(self, client, op):
        for other in client:
            op = self.pair(other, op)[1]
        return op


class NeverAcknowledges(End):
    """It owes no acknowledgement."""

    def owes(self):
        return None


class PastAHundred(End):
    """It moves an edit past the first 100 of the queue only."""

    def turns(self):
        return range(min(100, len(self.queue)))


class NewestFirst(End):
    """It moves an edit past the newest of the queue first."""

    def turns(self):
        return reversed(range(len(self.queue)))


class QueueKept(End):
    """The edits of its queue stay as they were first."""

    def past_one(self, at, ops):
        kept = self.queue[at]
        ops = super().past_one(at, ops)
        self.queue[at] = kept
        return ops


class CountsOperations(End):
    """It sends how many operations it has received, and not how many edits."""

    operations = 0

    def count(self, ops):
        super().count(ops)
        self.operations += len(ops)

    def heard_count(self):
        return self.operations


class YieldsWithin(End):
    """It lets other threads run between its steps."""

    def message(self, ops):
        number, heard = self.sent, self.heard_count()
        self.queue.append(ops)
        time.sleep(0.001)
        self.sent, self.owed = number + 1, 0
        return "\n".join([f"batch {number} {heard} {len(ops)}", *(f"do {it}" for it in ops)])


class HalfApplied(Board):
    """If an operation of an edit is refused, those before it stay applied."""

    def put_back(self, before):
        pass


class NumbersHeld(Board):
    """It takes a name for one that a sequence has if the sequence has the number, of any site."""

    def holds(self, widget, name):
        return any(count == name[1] for _, count in widget.names)


class TextOrder(Board):
    """It sorts ids as texts, so 10 is before 2."""

    def in_order(self, ids):
        return sorted(ids, key=str)


class LongRefused(Board):
    """A text or a list of 65,536 items takes no more."""

    def apply(self, op):
        widget = self.windows.get(op.win, {}).get(op.wid)
        if op.verb == "ins" and widget and len(widget.items) >= LONGEST:
            raise Fault(6)
        super().apply(op)


class NoBoundOfPongs(Seat):
    """It owes any number of pongs."""

    def is_owed_too_much(self):
        return False


class WritesWhileLocked(Seat):
    """It writes lines as they are added, and the star waits for that."""

    def put(self, text, pongs=0):
        if hasattr(self, "link"):
            with contextlib.suppress(OSError):
                self.link.send(f"{text}\n")
        else:
            super().put(text, pongs)


class Echoes(Star):
    """It sends a site its own edits."""

    def others(self, seat):
        return list(self.seats.values())


class NoLock(Star):
    """Its calls run at the same time, and let other threads run between their steps."""

    end = YieldsWithin

    def __init__(self, layout, limit):
        super().__init__(layout, limit)
        self.lock = contextlib.nullcontext()

    def do(self, seat, ops, moved):
        time.sleep(0.001)
        super().do(seat, ops, moved)


class PartsLost(Lines):
    """It forgets the part of a line that a piece ends with."""

    def part(self):
        return b""


class ZerosRead(Grammar):
    """It reads 007 as 7."""

    def read(self, line):
        return super().read(re.sub(r"(?<![\w.])0+(?=\d)", "", line))


class PlacesCut(Grammar):
    """It cuts places to 16 bits."""

    def read_op(self, rest):
        op = super().read_op(rest)
        op.place &= 0xFFFF
        return op


class TellsLate(Session):
    """It reports a fault only after the site ends."""

    noted = None

    def goes_on(self, line):
        try:
            return super().goes_on(line)
        except Fault as fault:
            self.noted = self.noted or fault
            return True

    def end(self, ending):
        super().end(f"error {self.noted.number}" if self.noted else ending)


class ReadsForEver(Session):
    """It reads on until the peer has been silent for a second or has sent 4 MiB, however long that takes."""

    def may_read_on(self, seconds, count):
        return super().may_read_on(0, count)


class ReadsAll(Session):
    """It reads on as long as something comes."""

    def may_read_on(self, seconds, count):
        return super().may_read_on(0, 0)


class LosesWhoIsSlow(Session):
    """A write that takes two seconds fails."""

    def send(self, text):
        self.connection.settimeout(2)
        try:
            super().send(text)
        finally:
            self.connection.settimeout(None)


class EndsWithBye(Session):
    """It sends `bye` to a site that has sent it, even if it refused something before."""

    def goes_on(self, line):
        try:
            return super().goes_on(line)
        except Fault:
            if self.lines.is_there():
                return self.lines.next() not in ("bye", None)
            raise


class EndsEarly(Session):
    """It writes late. Once the site has sent `bye`, it writes its last line alone."""

    has_heard_bye = False

    def goes_on(self, line):
        self.has_heard_bye = line == "bye"
        return super().goes_on(line)

    def send(self, text):
        time.sleep(0.1)
        if not self.has_heard_bye or text == "bye\n":
            super().send(text)


def of_star(**parts):
    return type("WrongStar", (Star,), parts), Session


def of_session(**parts):
    return Star, type("WrongSession", (Session,), parts)


WAYS = {
    "tie": of_star(transforms=TieTurned),
    "window": of_star(transforms=WindowIgnored),
    "numbers": of_star(transforms=NumbersAlone),
    "sites": of_star(transforms=SitesAlone),
    "grid": of_star(transforms=GridOfOnes),
    "no-ack": of_star(end=NeverAcknowledges),
    "hundred": of_star(end=PastAHundred),
    "reverse": of_star(end=NewestFirst),
    "queue-kept": of_star(end=QueueKept),
    "heard-operations": of_star(end=CountsOperations),
    "half": of_star(board=HalfApplied),
    "numbers-held": of_star(board=NumbersHeld),
    "text-order": of_star(board=TextOrder),
    "long": of_star(board=LongRefused),
    "pongs": of_star(seat=NoBoundOfPongs),
    "locked-write": of_star(seat=WritesWhileLocked),
    "echo": (Echoes, Session),
    "no-lock": (NoLock, Session),
    "pieces": of_session(lines=PartsLost),
    "zeros": of_session(grammar=ZerosRead),
    "places": of_session(grammar=PlacesCut),
    "late": (Star, TellsLate),
    "reads-on": (Star, ReadsForEver),
    "reads-all": (Star, ReadsAll),
    "slow-lost": (Star, LosesWhoIsSlow),
    "bye-first": (Star, EndsWithBye),
    "bye-alone": (Star, EndsEarly),
}
