"""One end of a link: how it moves operations past one another, and what it counts and keeps."""
from boards import Fault


class Transforms:
    """Moves two concurrent operations past one another, by the tables of docs/PROTOCOL.md."""

    def pair(self, c, s):
        """A client's operation and a server's, moved past one another."""
        if not self.are_one_widget(c, s) or "no" in (c.verb, s.verb):
            return c, s
        if c.verb == "set":
            return c, s.nothing()
        if c.verb == s.verb == "rel" and self.are_one_item(c, s):
            return c, s.nothing()
        if c.verb == s.verb == "ins" and c.place == s.place:
            return (c, s.at(s.place + 1)) if self.is_client_left(c, s) else (c.at(c.place + 1), s)
        return self.past(c, s), self.past(s, c)

    def are_one_widget(self, one, other):
        return (one.win, one.wid) == (other.win, other.wid)

    def are_one_item(self, one, other):
        return one.name == other.name

    def is_client_left(self, c, s):
        """Whether the client's item is to the left if both insert at one place."""
        return True

    def past(self, op, other):
        """An operation on a sequence, moved past one at another place or of another kind."""
        if other.verb == "rel":
            return op
        if other.verb == "del":
            if op.verb != "ins" and self.are_one_item(op, other):
                return op.nothing()
            return op.at(op.place - (other.place < op.place))
        if op.verb == "ins":
            return op.at(op.place + (other.place < op.place))
        return op.at(op.place + (other.place <= op.place))

    def grid(self, client, server):
        """Two lists of operations, moved past one another. Each of the client's, in order, passes the whole of the server's list as it then is."""
        moved, server = [], list(server)
        for op in client:
            for at, other in enumerate(server):
                op, server[at] = self.pair(op, other)
            moved.append(op)
        return moved, server


class End:
    """One end of a link: its counts, and the queue of its edits that it does not know the other end to have received. An edit is a list of operations."""

    def __init__(self, is_client, transforms):
        self.is_client, self.transforms = is_client, transforms
        self.sent, self.heard, self.acknowledged, self.owed, self.queue = 0, 0, 0, 0, []

    def message(self, ops):
        """The lines of an edit that this end makes."""
        self.queue.append(ops)
        self.sent, self.owed = self.sent + 1, 0
        return "\n".join([f"batch {self.sent - 1} {self.heard_count()} {len(ops)}", *(f"do {it}" for it in ops)])

    def take_ack(self, count):
        if not self.acknowledged <= count <= self.sent:
            raise Fault(21)
        del self.queue[: count - self.acknowledged]
        self.acknowledged = count

    def receive(self, mine, heard, ops):
        """The operations to apply: those received, moved past what the other end had not received."""
        if mine != self.heard:
            raise Fault(20)
        self.take_ack(heard)
        ops = self.past_queue(ops)
        self.count(ops)
        return ops

    def past_queue(self, ops):
        """An edit, moved past each of the queue, the oldest first. Each of the queue is moved past it."""
        for at in self.turns():
            ops = self.past_one(at, ops)
        return ops

    def turns(self):
        """The places in the queue, in the order in which an edit passes them."""
        return range(len(self.queue))

    def past_one(self, at, ops):
        """An edit, moved past one of the queue. That one is moved past it."""
        if self.is_client:
            self.queue[at], ops = self.transforms.grid(self.queue[at], ops)
        else:
            ops, self.queue[at] = self.transforms.grid(ops, self.queue[at])
        return ops

    def count(self, ops):
        self.heard, self.owed = self.heard + 1, self.owed + 1

    def owes(self):
        """The acknowledgement that this end owes, or None."""
        if self.owed < 64:
            return None
        self.owed = 0
        return f"ack {self.heard_count()}"

    def heard_count(self):
        """How many edits it says that it has received."""
        return self.heard
