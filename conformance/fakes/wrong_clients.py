"""Clients that are wrong on purpose. Each replaces one part of the right client by one that is wrong in one way."""
import itertools

from boards import Board, Fault
from ends import End, Transforms
from reading import Commands, Grammar
from sites import Client
from wrong_servers import CountsOperations, GridOfOnes, NeverAcknowledges, PartsLost, QueueKept, TextOrder, TieTurned, ZerosRead


class TieBySite(Transforms):
    """Of two insertions at one place that of the higher site is to the left."""

    def is_client_left(self, c, s):
        return c.name[0] > s.name[0]


class QueueMovedOnce(End):
    """It moves the queue past the first edit that comes, and past no later one."""

    has_moved = False

    def past_queue(self, ops):
        kept = list(self.queue)
        ops = super().past_queue(ops)
        if self.has_moved:
            self.queue = kept
        self.has_moved = bool(kept)
        return ops


class PastTwenty(End):
    """It moves an edit past the first 20 of the queue only."""

    def turns(self):
        return range(min(20, len(self.queue)))


class ManyIds(Board):
    """A board may have more than 64 windows, and a window more than 64 widgets."""

    def is_full(self, taken):
        return False


class TakenNames(Board):
    """It inserts an item under a name that its sequence has."""

    def holds(self, widget, name):
        return False


class NamesOfEachWidget(Board):
    """A batch may insert one name in two widgets."""

    def no_name_twice(self, ops):
        for wid in {(it.win, it.wid) for it in ops}:
            super().no_name_twice([it for it in ops if (it.win, it.wid) == wid])


class LongLabels(Commands):
    """A label has up to 49 bytes."""

    longest_label = 49


class CutsLines(Client):
    """It takes a line of more than 4,096 bytes for several."""

    most = 4096

    def __init__(self, connection, typed, tell):
        super().__init__(connection, itertools.chain.from_iterable(map(self.parts, typed)), tell)

    def parts(self, line):
        return [line[at : at + self.most] for at in range(0, len(line), self.most)] or [line]


class QuitsAnywhere(Client):
    """It quits at `quit` within a batch too."""

    def __init__(self, connection, typed, tell):
        super().__init__(connection, itertools.takewhile(lambda it: it != "quit", typed), tell)


class Echoes(Client):
    """It shows an insertion of its own twice."""

    def one(self, *command):
        op = super().one(*command)
        if op.verb == "ins":
            items = self.board.windows[op.win][op.wid].items
            items.insert(op.place, items[op.place])
        return op


class TellsLate(Client):
    """It reports a fault only after the user quits."""

    noted = None

    def takes_line(self):
        try:
            return super().takes_line()
        except Fault as fault:
            if fault.number == 43:
                raise
            self.noted = self.noted or fault
            return False

    def leave(self):
        if self.noted:
            raise self.noted
        super().leave()


class NamesUsedUp(Client):
    """The insertions of a refused edit use numbers."""

    def forget(self, insertions):
        pass


class NoBacklog(Client):
    """It keeps any number of edits unacknowledged."""

    most_unacknowledged = 2**32


class BacklogOfOneMore(Client):
    """It keeps 1,025 edits unacknowledged."""

    most_unacknowledged = 1025


class NeverSpent(Client):
    """It makes more edits than the limit."""

    def is_spent(self):
        return False


class NeverFull(Client):
    """It inserts into a sequence of any length."""

    def is_full(self, widget):
        return False


class AnySite(Client):
    """It takes any number as its own, even if the board has items of that site."""

    def check_greeting(self):
        pass


class ShowsEarly(Client):
    """Before each command it takes in what has come."""

    def does(self, line):
        while self.lines.is_there():
            self.takes_line()
        return super().does(line)


class AcknowledgesLate(Client):
    """It acknowledges only at the end of a sync."""

    def pay(self):
        pass

    def has_synced(self):
        super().pay()


class IgnoresUnknown(Client):
    """It does not answer a line that is no command."""

    def does_edit(self, commands, line):
        answer = super().does_edit(commands, line)
        return None if answer == "bad command" else answer


class CountsBeforeReading(Client):
    """It tests the length of a batch before the lines."""

    def does_edit(self, commands, line):
        try:
            self.refuse_length(commands)
        except Fault as fault:
            return f"refused {fault.number}"
        return super().does_edit(commands, line)


class SpentFirst(Client):
    """It tests how many edits it has made before it tests the commands."""

    def refuse_length(self, commands):
        super().refuse_length(commands)
        self.refuse_more()


class DelaysBye(Client):
    """After its own `bye` it ends with the error that the server sends."""

    def leave(self):
        self.send("bye")
        self.tell("bye")
        while self.next()[1] != "bye":
            pass


def of(**parts):
    return type("WrongClient", (Client,), parts)


WAYS = {
    "tie": of(transforms=TieTurned),
    "tie-by-site": of(transforms=TieBySite),
    "grid": of(transforms=GridOfOnes),
    "no-ack": of(end=NeverAcknowledges),
    "queue-once": of(end=QueueMovedOnce),
    "queue-kept": of(end=QueueKept),
    "heard-operations": of(end=CountsOperations),
    "twenty": of(end=PastTwenty),
    "text-order": of(board=TextOrder),
    "many-ids": of(board=ManyIds),
    "taken-names": of(board=TakenNames),
    "names-of-each-widget": of(board=NamesOfEachWidget),
    "pieces": of(lines=PartsLost),
    "zeros": of(grammar=ZerosRead),
    "labels": of(commands=LongLabels),
    "cut-lines": CutsLines,
    "quit-anywhere": QuitsAnywhere,
    "echo": Echoes,
    "late": TellsLate,
    "names-used-up": NamesUsedUp,
    "no-backlog": NoBacklog,
    "backlog": BacklogOfOneMore,
    "never-spent": NeverSpent,
    "never-full": NeverFull,
    "any-site": AnySite,
    "shows-early": ShowsEarly,
    "late-ack": AcknowledgesLate,
    "unknown": IgnoresUnknown,
    "length-first": CountsBeforeReading,
    "spent-first": SpentFirst,
    "error-after-bye": DelaysBye,
}
