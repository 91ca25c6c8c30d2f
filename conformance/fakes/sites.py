"""A client in plain Python, which does what its user types, as `jup` does."""
import socket

from boards import LONGEST, Board, Fault, Op
from ends import End, Transforms
from reading import Commands, Gathering, Grammar, Lines, quoted

BOARD_WORDS = ("window", "text", "list", "toggle", "slider", "char", "item")
# The highest number of a site, and the highest limit.
LAST_SITE, HIGHEST_LIMIT = 65_535, 16_777_216


class Client:
    """A user's site over one link. `typed` is an iterator of its command lines, and `tell` takes what it prints."""

    transforms, board, end, lines, grammar, commands = Transforms, Board, End, Lines, Grammar, Commands
    most_commands, most_unacknowledged = 32, 1024

    def __init__(self, connection, typed, tell):
        self.connection, self.typed, self.tell = connection, typed, tell
        self.board, self.end, self.lines = self.board(), self.end(True, self.transforms()), self.lines(connection)
        self.grammar, self.gathering, self.commands = self.grammar(), Gathering(), self.commands()
        self.site, self.limit, self.pings, self.insertions = 0, 0, 0, 0

    def run(self):
        """Greets, and does what its user types. Returns the exit status."""
        try:
            self.greet()
            for line in self.typed:
                if line == "quit":
                    break
                answer = self.does(line)
                if answer is not None:
                    self.tell(answer)
            self.leave()
        except Fault as fault:
            self.tell(f"fault {fault.number}")
            return 4
        except OSError:
            return 1
        return 0

    def send(self, line):
        self.connection.sendall(f"{line}\n".encode("latin-1"))

    def next(self):
        """The next line, its first word and its fields."""
        line = self.lines.next()
        if line is None:
            raise Fault(43)
        word, rest = self.grammar.read(line)
        if word == "error":
            raise Fault(rest[0])
        return line, word, rest

    def hello(self):
        self.send("hello 3")

    def greet(self):
        self.hello()
        _, word, rest = self.next()
        if word != "welcome":
            raise Fault(44)
        self.site, self.limit = rest
        lines = []
        while (found := self.next())[1] != "ready":
            if found[1] not in BOARD_WORDS:
                raise Fault(44)
            lines.append(found[0])
        for line in lines:
            self.board.read_line(line)
        self.check_greeting()
        self.tell(f"site {self.site}")

    def check_greeting(self):
        if not 1 <= self.limit <= HIGHEST_LIMIT:
            raise Fault(50)
        widgets = [widget for window in self.board.windows.values() for widget in window.values()]
        if not 1 <= self.site <= LAST_SITE or any(site == self.site for it in widgets for site, _ in it.names):
            raise Fault(51)

    def leave(self):
        self.send("bye")
        self.tell("bye")
        self.connection.shutdown(socket.SHUT_WR)
        while self.connection.recv(65536):
            pass  # what the server still sends changes nothing

    def does(self, line):
        """The answer to a command, or None if it has none."""
        if line == "sync":
            self.sync()
            return "synced"
        if line == "show":
            return "\n".join(printed(self.board))
        count = self.commands.batch_count(line)
        lines = [line] if count is None else [next(self.typed, "") for _ in range(count)]
        return self.does_edit([self.commands.read(it) for it in lines], line)

    def does_edit(self, commands, line):
        if None in commands:
            return "bad command"
        try:
            return "made " + "; ".join(map(made, self.edit(commands)))
        except Fault as fault:
            return f"refused {fault.number}"

    def sync(self):
        """Asks the server for all that it has for this site, and takes each line up to the pong."""
        self.pings += 1
        self.send(f"ping {self.pings}")
        while not self.takes_line():
            pass
        self.has_synced()

    def has_synced(self):
        """Does what follows a sync, which is nothing in a right client."""

    def takes_line(self):
        """Takes a line of the server. Returns whether it answers the last ping."""
        _, word, rest = self.next()
        message = self.gathering.take(word, rest)
        if message:
            self.hears(*message)
        return word == "pong" and rest[0] == self.pings

    def hears(self, word, rest):
        if word == "batch":
            if any(it.verb == "ins" and it.name[0] == self.site for it in rest[2]):
                raise Fault(22)
            self.board.apply_all(self.end.receive(*rest))
            self.pay()
        elif word == "ack":
            self.end.take_ack(rest[0])
        elif word != "pong":
            raise Fault(44)

    def pay(self):
        owed = self.end.owes()
        if owed:
            self.send(owed)

    def edit(self, commands):
        """Makes the edit and sends it, or refuses it as a whole."""
        self.refuse_length(commands)
        before, insertions = self.board.kept([Op(win, wid, "", "") for _, win, wid, *_ in commands]), self.insertions
        try:
            ops = [self.one(*it) for it in commands]
            self.refuse_more()
        except Fault:
            self.board.put_back(before)
            self.forget(insertions)
            raise
        self.send(self.end.message(ops))
        return ops

    def refuse_length(self, commands):
        if not 1 <= len(commands) <= self.most_commands:
            raise Fault(15)

    def refuse_more(self):
        """Refuses an edit if too many are not acknowledged, or if the client has made as many as the limit."""
        if len(self.end.queue) >= self.most_unacknowledged:
            raise Fault(7)
        if self.is_spent():
            raise Fault(9)

    def is_spent(self):
        return self.end.sent >= self.limit

    def forget(self, insertions):
        """Sets the count of insertions back, since those of a refused edit use no number."""
        self.insertions = insertions

    def one(self, word, win, wid, place, kind, value):
        """Does one command of an edit."""
        if win not in self.board.windows:
            raise Fault(1)
        if wid not in self.board.windows[win]:
            raise Fault(2)
        widget = self.board.windows[win][wid]
        op = self.set_op(win, wid, widget, place) if word == "set" else self.item_op(word, win, wid, widget, place, kind, value)
        self.board.apply(op)
        self.insertions += word == "ins"
        return op

    def set_op(self, win, wid, widget, value):
        if widget.kind not in ("toggle", "slider") or (value in ("on", "off")) != (widget.kind == "toggle"):
            raise Fault(3)
        if widget.kind == "slider" and not widget.low <= int(value) <= widget.high:
            raise Fault(5)
        return Op(win, wid, widget.kind, "set", value=value if widget.kind == "toggle" else int(value))

    def item_op(self, word, win, wid, widget, place, kind, value):
        wanted = {"char": "text", "item": "list", None: widget.kind}[kind]
        if widget.kind not in ("text", "list") or widget.kind != wanted:
            raise Fault(3)
        if place > len(widget.items) - (word != "ins"):
            raise Fault(4)
        if word == "ins" and self.is_full(widget):
            raise Fault(6)
        name = (self.site, self.insertions + 1) if word == "ins" else widget.items[place][0]
        return Op(win, wid, widget.kind, word, place, name, ord(value) if kind == "char" else value)

    def is_full(self, widget):
        return len(widget.items) >= LONGEST


def printed(board):
    """The lines of a board in its printed form."""
    for win in board.in_order(board.windows):
        yield f"window {win}"
        for wid in board.in_order(board.windows[win]):
            widget = board.windows[win][wid]
            values = [value for _, value in widget.items]
            texts = {"text": [quoted("".join(map(chr, values)))] if widget.kind == "text" else [], "list": map(quoted, values)}
            yield " ".join([widget.line(wid), *texts.get(widget.kind, [])])


def made(op):
    """An operation as a client prints it after `made`."""
    name = [f"{op.name[0]}.{op.name[1]}"] if op.name else []
    value = [] if op.value is None else [op.value if op.verb == "set" else quoted(chr(op.value) if op.kind == "text" else op.value)]
    return " ".join(map(str, [op.verb, op.win, op.wid, *name, *value]))


def connected(address, patience=None):
    """A connection to the server, which is there within so many seconds."""
    host, _, port = address.rpartition(":")
    connection = socket.create_connection((host, int(port)), patience)
    connection.setsockopt(socket.IPPROTO_TCP, socket.TCP_NODELAY, 1)
    return connection
