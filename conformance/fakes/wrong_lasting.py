"""Servers' links of protocol 4 that are wrong on purpose. Each is wrong in one way."""
import math

from boards import Fault
from carriers import GOT, Carrier
from lasting import Link, is_last


class CoversParts(Link):
    """Its `got` counts the first lines of an edit whose other lines have not come."""

    def covers(self):
        self.covered = self.taken


class CoversRefused(Link):
    """Its counts have the message that the star refused."""

    def takes_no_more(self):
        with self.bell:
            self.covers()
            super().takes_no_more()


class PartsForgotten(Link):
    """Its `resumed` counts up to the end of the last message, so a client sends the first lines of an edit again."""

    def resume(self, connection, taken, held):
        self.taken = self.covered
        return super().resume(connection, taken, held)


class ConfirmedByResume(Link):
    """It takes the count of a `resume` for a `got`."""

    def resume(self, connection, taken, held):
        carrier = super().resume(connection, taken, held)
        self.drop(taken)
        return carrier


class TwoCarriers(Link):
    """It leaves the older carrier open."""

    def resume(self, connection, taken, held):
        self.carrier = None
        return super().resume(connection, taken, held)


class ConfirmsLate(Link):
    """It sends no `got` for a count that has grown, however much."""

    def is_got_due(self, carrier):
        return self.owes_got


class AnyGot(Link):
    """It takes any `got` for a right one."""

    def confirm(self, carrier, count):
        self.drop(max(self.confirmed, count))


class AnyResume(Link):
    """It takes any count of a `resume` for a right one."""

    def resume(self, connection, taken, held):
        return super().resume(connection, min(max(taken, self.confirmed), self.put_count()), held)


class EndsWithItsCarrier(Link):
    """A cut ends it."""

    def cut(self, carrier):
        super().cut(carrier)
        self.lose()


class HoldsNothing(Link):
    """Once it is over, a cut drops its lines."""

    def cut(self, carrier):
        super().cut(carrier)
        if self.has_last:
            self.lose()


class WaitsForRoom(Link):
    """It waits for a `got` that can make room, also if the client's bytes have ended."""

    def hears_the_end(self, carrier):
        pass


class DeafAfterAFault(Link):
    """After what ended it, no `got` counts."""

    def confirm(self, carrier, count):
        if self.is_taking:
            super().confirm(carrier, count)


class LastsWithoutReady(Link):
    """A cut does not end it, also before its `ready`."""

    def cut(self, carrier):
        with self.bell:
            self.is_ready = True
            super().cut(carrier)


class FromConfirmed(Link):
    """It sends again all lines that it keeps, also those that the client has taken."""

    def resume(self, connection, taken, held):
        carrier = super().resume(connection, taken, held)
        if carrier:
            carrier.written = self.confirmed
        return carrier


class FromWritten(Link):
    """It sends no line again that it wrote on an earlier carrier."""

    most_written = 0

    def due_on(self, carrier):
        carrier.written = max(carrier.written, self.most_written)
        lines = super().due_on(carrier)
        self.most_written = carrier.written
        return lines


class WrittenAlone(FromWritten):
    """It refuses a count of lines that it has put and not written."""

    def due_on(self, carrier):
        self.most_written = carrier.written
        return super().due_on(carrier)

    def resume(self, connection, taken, held):
        if taken > self.most_written:
            raise Fault(36)
        return super().resume(connection, taken, held)


class NotesTaken(Link):
    """It counts a `got` as a line."""

    def confirm(self, carrier, count):
        super().confirm(carrier, count)
        self.taken += 1


class ResumedAlone(Link):
    """It sends no `got` after `resumed`."""

    def resume(self, connection, taken, held):
        carrier = super().resume(connection, taken, held)
        if carrier:
            del carrier.notes[1:]
        return carrier


class NoSuchCount(Link):
    """It answers a wrong count of a `resume` by 35."""

    def resume(self, connection, taken, held):
        try:
            return super().resume(connection, taken, held)
        except Fault:
            raise Fault(35) from None


class CountsForTheEnded(Link):
    """It refuses a `resume` by its count, also if only the count is left."""

    def resume(self, connection, taken, held):
        if self.has_only_count() and taken > self.put_count():
            raise Fault(36)
        return super().resume(connection, taken, held)


class HalfATokenCompared(Link):
    """It compares the first half of a token."""

    def has_token(self, token):
        return self.token[:16] == token[:16]


class LateBytesTaken(TwoCarriers):
    """It takes what comes on an older carrier."""

    def reads(self, carrier):
        return not self.has_only_count()

    def offer(self, carrier, line):
        super().offer(self.carrier, line)


class LinesBeforeLinkDropped(Link):
    """It drops what comes before it has sent `link`."""

    def begin(self, connection, held):
        return super().begin(connection, b"")


class WaitsForEver(Link):
    """It waits for a carrier for as long as that takes."""

    def tend(self, now):
        if self.has_last:
            super().tend(now)


class HoldsForEver(Link):
    """Once it is over, it holds its lines for as long as it takes until they are confirmed."""

    def tend(self, now):
        if not self.has_last:
            super().tend(now)


class WaitsInTotal(Link):
    """Its seconds count all the time that it had no carrier since the first cut."""

    first = None

    def cut(self, carrier):
        super().cut(carrier)
        if not self.carrier:
            self.first = self.first or self.since
            self.since = self.first


class HoldsWithoutBound(Link):
    """However many hold lines, it goes on doing so."""

    def is_holding(self):
        return False


class NeverClaimed(Link):
    """No newcomer gets its place."""

    def has_edits(self):
        return True


class ClaimedWithEdits(Link):
    """A newcomer may get its place, even if the star took an edit of it."""

    def has_edits(self):
        return False


class EndsAreFaults(Link):
    """The end of the bytes among the lines of an edit ends it."""

    def hears_the_end(self, carrier):
        if self.session.gathering.left:
            self.offer(carrier, Fault(44))
        super().hears_the_end(carrier)


class ConfirmsAfterItsLastLine(Link):
    """It sends `got` after its last line."""

    def due_on(self, carrier):
        lines = super().due_on(carrier)
        return lines + self.got(carrier) + b"\n" if lines and self.has_last else lines


class PartsKept(Carrier):
    """It keeps the part of a line over a cut, and goes on with it."""

    def __init__(self, link, connection, written, notes, held):
        super().__init__(link, connection, written, notes, link.part + held)

    def read(self):
        try:
            super().read()
        finally:
            self.link.part = self.lines.part()


class PartsTaken(Carrier):
    """It takes a note of which only a part has come."""

    def read(self):
        try:
            super().read()
        finally:
            if part := self.lines.part().decode("latin-1"):
                self.take(part)


class ReadsForEver(Carrier):
    """After the last line it reads on for as long as something comes."""

    def is_stale(self, now):
        self.all_written_at = None
        return super().is_stale(now)


class ReadsAll(Carrier):
    """After the last line it reads on however much comes."""

    def recv(self, size):
        self.dropped = 0
        return super().recv(size)


class Patient(Carrier):
    """It waits for a silent client for as long as that takes."""

    most_silent = math.inf


class NeverIdle(Link):
    """It sends no `got` after a minute without one."""

    most_idle = 100_000


class GotIsAck(Link):
    """It takes a `got` for an acknowledgement of the edits that it covers."""

    def confirm(self, carrier, count):
        super().confirm(carrier, count)
        with self.session.star.lock:
            self.session.seat.end.take_ack(self.session.seat.end.sent)


class AckIsGot(Link):
    """It takes an acknowledgement for a `got` of all that it wrote."""

    def offer(self, carrier, line):
        super().offer(carrier, line)
        if isinstance(line, str) and line.startswith("ack "):
            self.drop(carrier.written)


class ConfirmsAgain(Link):
    """It sends `got` before each line, whether or not its count has grown."""

    def is_got_due(self, carrier):
        return super().is_got_due(carrier) or not self.has_last and carrier.written < self.put_count()


class HoldsInTotal(Link):
    """Once it is over, it holds its lines for so many seconds in total."""

    def tend(self, now):
        super().tend(now)
        if self.over_at is not None and now - self.over_at >= self.seconds and not self.has_only_count():
            self.lose()


class LosesWhatWaits(Link):
    """After a fault it puts only its last line."""

    def put(self, line):
        if self.is_taking or self.has_bye or is_last(line):
            super().put(line)


class LooseNotes(Carrier):
    """It takes a misspelled `got` for one."""

    def take(self, line):
        word, _, count = line.partition(" ")
        super().take(f"got {int(count)}" if word == "got" and count.isdigit() and int(count) < 2**32 else line)


class DropsFirstLines(Carrier):
    """It drops a note that only a first line may be."""

    def take(self, line):
        if line.split(" ")[0] not in ("link", "resume", "resumed", "ended"):
            super().take(line)


class NotesWithinLines(Carrier):
    """It sends a `got` as soon as that is due, also within a line."""

    def send(self, data):
        while data:
            super().send(data[:9])
            data = data[9:]
            if self.link.is_got_due(self):
                super().send(memoryview(self.link.got(self) + b"\n"))


class FromTheResumeOn(Carrier):
    """It refuses a `got` below the count of the `resume`."""

    def __init__(self, link, connection, written, notes, held):
        super().__init__(link, connection, written, notes, held)
        self.begun = written

    def take(self, line):
        found = GOT.fullmatch(line)
        super().take("got" if found and int(found[1]) < self.begun else line)


class SinceTheResume(FromTheResumeOn):
    """A `got` may count only as many lines as it has written on this carrier."""

    def take(self, line):
        found = GOT.fullmatch(line)
        Carrier.take(self, "got" if found and int(found[1]) > self.written - self.begun else line)


def link_with(carrier):
    """The class of a link with such carriers."""

    class Wrong(Link):
        kind, part = carrier, b""

    return Wrong


WAYS = {
    "covers-parts": CoversParts,
    "covers-refused": CoversRefused,
    "parts-forgotten": PartsForgotten,
    "confirmed-by-resume": ConfirmedByResume,
    "two-carriers": TwoCarriers,
    "confirms-late": ConfirmsLate,
    "any-got": AnyGot,
    "any-resume": AnyResume,
    "ends-with-its-carrier": EndsWithItsCarrier,
    "holds-nothing": HoldsNothing,
    "waits-for-room": WaitsForRoom,
    "deaf-after-a-fault": DeafAfterAFault,
    "lasts-without-ready": LastsWithoutReady,
    "from-confirmed": FromConfirmed,
    "from-written": FromWritten,
    "written-alone": WrittenAlone,
    "notes-taken": NotesTaken,
    "resumed-alone": ResumedAlone,
    "no-such-count": NoSuchCount,
    "counts-for-the-ended": CountsForTheEnded,
    "half-a-token": HalfATokenCompared,
    "late-bytes": LateBytesTaken,
    "lines-before-link": LinesBeforeLinkDropped,
    "waits-for-ever": WaitsForEver,
    "holds-for-ever": HoldsForEver,
    "waits-in-total": WaitsInTotal,
    "holds-without-bound": HoldsWithoutBound,
    "never-claimed": NeverClaimed,
    "claimed-with-edits": ClaimedWithEdits,
    "ends-are-faults": EndsAreFaults,
    "confirms-after-its-last-line": ConfirmsAfterItsLastLine,
    "parts-kept": link_with(PartsKept),
    "parts-taken": link_with(PartsTaken),
    "drops-for-ever": link_with(ReadsForEver),
    "drops-all": link_with(ReadsAll),
    "patient": link_with(Patient),
    "loose-notes": link_with(LooseNotes),
    "drops-first-lines": link_with(DropsFirstLines),
    "notes-within-lines": link_with(NotesWithinLines),
    "from-the-resume-on": link_with(FromTheResumeOn),
    "since-the-resume": link_with(SinceTheResume),
    "got-is-ack": GotIsAck,
    "ack-is-got": AckIsGot,
    "confirms-again": ConfirmsAgain,
    "holds-in-total": HoldsInTotal,
    "loses-what-waits": LosesWhatWaits,
    "never-idle": NeverIdle,
}
