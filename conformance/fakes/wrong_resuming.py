"""Links of clients that are wrong on purpose. Each is wrong in one way."""
import contextlib
import math
import threading
import time

from boards import Fault
from resuming import MOST_ATTEMPTS, REFUSALS, Carrier, Cut, Link, Waits


class FromConfirmed(Carrier):
    """It sends again all lines that it keeps, also those that the server has taken."""

    def begins(self, written, is_got_due):
        super().begins(self.link.up.confirmed, is_got_due)


class FromWritten(Carrier):
    """It sends no line again that it wrote on an earlier carrier."""

    def begins(self, written, is_got_due):
        super().begins(max(written, self.link.written), is_got_due)

    def write(self):
        super().write()
        self.link.written = self.written or self.link.written


class PartsCounted(Carrier):
    """It counts a line of which only a part has come."""

    def carry(self):
        try:
            super().carry()
        finally:
            self.link.taken += bool(self.came)


class PartsHandedOn(Carrier):
    """It hands on a line of which only a part has come."""

    def carry(self):
        try:
            super().carry()
        finally:
            if self.came:
                self.link.takes(self.came.decode("latin-1"))


class PartsKept(Carrier):
    """It keeps the part of a line over a cut, and goes on with it."""

    def carry(self):
        try:
            super().carry()
        finally:
            self.link.part = self.came

    def hears(self, line):
        if self.written is not None and self.link.part and not line.startswith(b"got "):
            line, self.link.part = self.link.part + line, b""
        super().hears(line)


class PartsOfNotes(Carrier):
    """It takes a `got` of which only a part has come."""

    def carry(self):
        try:
            super().carry()
        finally:
            if self.came.startswith(b"got "):
                self.hears(self.came)


class Hasty(Carrier):
    """It sends its lines without waiting for `resumed`."""

    ahead = None

    def begins_piece(self):
        if super().begins_piece():
            return True
        if self.written is None and self.link.token:
            self.ahead = self.link.up.confirmed if self.ahead is None else self.ahead
            line = self.link.up.line_after(self.ahead)
            self.left, self.is_line = b"" if line is None else f"{line}\n".encode(), False
            self.ahead += line is not None
        return bool(self.left)

    def begins(self, written, is_got_due):
        super().begins(max(written, self.ahead or 0), is_got_due)


class NotesCounted(Carrier):
    """It counts a `got` as a line."""

    def hears_got(self, line):
        super().hears_got(line)
        self.link.taken += 1


class BeginsUnconfirmed(Carrier):
    """It sends no `got` where a carrier begins."""

    def begins(self, written, is_got_due):
        super().begins(written, False)


class ConfirmedByResumed(Carrier):
    """It drops the lines that `resumed` counts."""

    def begins(self, written, is_got_due):
        self.link.up.confirm(written)
        super().begins(written, is_got_due)


class HeardNow(Carrier):
    """It sends a line again with the HEARD that it has by now."""

    def hears(self, line):
        super().hears(line)
        self.link.edits += line.startswith(b"batch ")

    def begins_piece(self):
        begins, words = super().begins_piece(), self.left.split(b" ")
        if words[0] == b"batch" and self.got:
            words[2] = b"%d" % self.link.edits
            self.left = b" ".join(words)
        return begins


class AnyGot(Carrier):
    """It takes any `got` for a right one."""

    def hears_got(self, line):
        up, count = self.link.up, int(line.split(" ")[1])
        up.confirm(max(up.confirmed, min(count, up.count())))


class LooseNotes(Carrier):
    """It takes a misspelled `got` for one."""

    def hears_got(self, line):
        super().hears_got(f"got {int(line.strip().split(' ')[1])}")


class NeverConfirms(Carrier):
    """It sends no `got` for a count that has grown, however much."""

    def note(self):
        return super().note() if self.first or self.is_got_due else None


class WritesOn(Carrier):
    """It goes on after the server's last line."""

    def is_done(self):
        return self.link.closed.is_set()

    def begins_piece(self):
        begins = super().begins_piece()
        line = self.link.up.line_after(self.written) if self.is_line and self.written is not None and not begins else None
        self.left = self.left if line is None else f"{line}\n".encode()
        return bool(self.left)


class EndsUnconfirmed(Carrier):
    """It does not confirm the server's last line."""

    def is_done(self):
        return self.link.is_over()


class NeverIdle(Carrier):
    """It sends no `got` after a minute without one."""

    idle = math.inf


class Patient(Carrier):
    """It waits for a silent server for as long as that takes."""

    silence = 100_000


class GotsOfEachCarrier(Carrier):
    """It takes any `got` on a carrier that is at least the last one there."""

    last = 0

    def hears_got(self, line):
        up, count = self.link.up, int(line.split(" ")[1])
        if not self.last <= count <= self.written:
            self.refuses(36)
        self.last = count
        up.confirm(max(up.confirmed, count))


class ConfirmsAgain(Carrier):
    """It sends `got` for each line that it writes, whether or not its count has grown."""

    def write(self):
        super().write()
        self.is_got_due |= self.is_line and not self.left


class DropsTheRest(Carrier):
    """It writes a few bytes at a time. After the server's last line it drops the rest of a line that it has begun."""

    def write(self):
        sent = self.connection.send(self.left[:7])
        self.left, self.handed = self.left[sent:], time.monotonic()
        if self.is_line and not self.left:
            self.written += 1

    def hears(self, line):
        super().hears(line)
        if self.link.has_last:
            self.left = b""


class IdleBeforeTheFirstLine(Carrier):
    """Its minute begins with the connection."""

    def looks_at_the_clock(self):
        super().looks_at_the_clock()
        self.is_got_due |= self.idle <= time.monotonic() - self.handed

    def patience(self):
        return max(0, min(super().patience(), self.handed + self.idle - time.monotonic()))


class HearsWholeLines(Carrier):
    """It counts only whole lines as heard."""

    def read(self):
        heard, taken = self.heard, self.link.taken
        super().read()
        if self.link.taken == taken:
            self.heard = heard


class HearsOlder(Carrier):
    """It still takes what comes on an older carrier."""

    def carry(self):
        try:
            super().carry()
        except OSError:
            threading.Thread(target=self.hears_on, args=(self.connection.dup(),), daemon=True).start()
            raise

    def hears_on(self, connection):
        connection.setblocking(True)
        with connection, contextlib.suppress(OSError):
            while data := connection.recv(65536):
                for line in data.decode("latin-1").splitlines():
                    self.link.takes(line)


class Forgetful(Link):
    """It does not count what it takes, so it asks for all lines again."""

    def takes(self, line):
        super().takes(line)
        self.taken = 0


class AnyResumed(Link):
    """It takes any count of `resumed` for a right one."""

    def is_resumed(self, carrier, line):
        if line.startswith("resumed "):
            count = int(line.split(" ")[1])
            carrier.begins(min(max(count, self.up.confirmed), self.up.count()), is_got_due=True)
        else:
            super().is_resumed(carrier, line)


class TriesForEver(Link):
    """It never gives up before it has a link."""

    def carry(self):
        self.attempts = math.inf
        super().carry()


class CountsAnswers(Link):
    """An attempt that no server answers does not count."""

    def carry(self):
        try:
            super().carry()
        except ConnectionRefusedError:
            self.attempts = math.inf


class CountsAttemptsAnew(Link):
    """A link that was lost before its `ready` leaves it three attempts."""

    def is_lost(self, ended, fault):
        self.attempts = MOST_ATTEMPTS
        super().is_lost(ended, fault)


class NoOlderProtocol(Link):
    """It does not go on in protocol 3."""

    def is_refused_by(self, fault):
        return False


class GivesUpBeforeReady(Link):
    """It takes a link whose `ready` has not come for one that has begun."""

    def is_lost(self, ended, fault):
        self.is_ready = True
        super().is_lost(ended, fault)


class AnyErrorEnds(Link):
    """It gives up its link at any `error N`."""

    def is_resumed(self, carrier, line):
        if line.startswith("error "):
            raise Fault(int(line.split(" ")[1]))
        super().is_resumed(carrier, line)


class AsksForEver(Link):
    """It takes a refusal of its `resume` for a cut."""

    def is_resumed(self, carrier, line):
        if line in [f"error {it}" for it in REFUSALS]:
            raise Cut("refused")
        super().is_resumed(carrier, line)


class StrangersEndIt(Link):
    """It gives up its link if something else than the server answers."""

    def is_answered(self, carrier, line):
        try:
            super().is_answered(carrier, line)
        except Cut:
            raise Fault(40) from None


class LeavesAtACut(Link):
    """After its `bye` a cut ends it."""

    def carry(self):
        super().carry()
        if self.leaves:
            self.closed.set()


class SameWaits(Waits):
    """The waits do not grow."""

    def after(self, seconds):
        return self.shortest


class ShortAfterEachCarrier(Waits):
    """The waits begin short again after each carrier that the server answered."""

    lived = 1e-9


def link_with(kind):
    """The class of a link with such carriers."""

    class Wrong(Link):
        carrier, written, part, edits = kind, 0, b"", 0

    return Wrong


def waits_by(kind):
    """The class of a link that waits so between its attempts."""

    class Wrong(Link):
        waits = kind

    return Wrong


WAYS = {
    "from-confirmed": link_with(FromConfirmed),
    "from-written": link_with(FromWritten),
    "parts-counted": link_with(PartsCounted),
    "parts-handed-on": link_with(PartsHandedOn),
    "parts-kept": link_with(PartsKept),
    "parts-of-notes": link_with(PartsOfNotes),
    "hasty": link_with(Hasty),
    "notes-counted": link_with(NotesCounted),
    "begins-unconfirmed": link_with(BeginsUnconfirmed),
    "confirmed-by-resumed": link_with(ConfirmedByResumed),
    "heard-now": link_with(HeardNow),
    "any-got": link_with(AnyGot),
    "loose-notes": link_with(LooseNotes),
    "never-confirms": link_with(NeverConfirms),
    "writes-on": link_with(WritesOn),
    "ends-unconfirmed": link_with(EndsUnconfirmed),
    "never-idle": link_with(NeverIdle),
    "patient": link_with(Patient),
    "gots-of-each-carrier": link_with(GotsOfEachCarrier),
    "confirms-again": link_with(ConfirmsAgain),
    "drops-the-rest": link_with(DropsTheRest),
    "idle-before-the-first-line": link_with(IdleBeforeTheFirstLine),
    "hears-whole-lines": link_with(HearsWholeLines),
    "hears-older": link_with(HearsOlder),
    "forgetful": Forgetful,
    "counts-answers": CountsAnswers,
    "counts-attempts-anew": CountsAttemptsAnew,
    "any-resumed": AnyResumed,
    "tries-for-ever": TriesForEver,
    "no-older-protocol": NoOlderProtocol,
    "gives-up-before-ready": GivesUpBeforeReady,
    "any-error-ends": AnyErrorEnds,
    "asks-for-ever": AsksForEver,
    "strangers-end-it": StrangersEndIt,
    "leaves-at-a-cut": LeavesAtACut,
    "same-waits": waits_by(SameWaits),
    "short-after-each-carrier": waits_by(ShortAfterEachCarrier),
}
