"""The parts by which the kit judges a client of protocol 4. The kit is the client's server on one connection after another, and its user."""
import contextlib
import time

import at_client
import material
import notes
from links import END, Clock, Differs, LastingClient, narrow

# The token of the link that the kit gives.
TOKEN = "0f1e2d3c4b5a69788796a5b4c3d2e1f0"
# For how many seconds a quiet client sends nothing.
QUIET = 0.5
# How many times as long as the shortest wait the last one has to be, where the waits grow. On a busy machine one wait may look longer than it is.
GROWN = 2


class Server:
    """The kit as a client's server: the link, and what was sent on its present carrier."""

    def __init__(self, client, board):
        self.client, self.board = client, board
        # The token, how many lines the kit sent whole, and how many of these up to `ready`, after which a transcript counts.
        self.token, self.told, self.before = TOKEN, 0, 0
        # The part of a line that was sent last, whether lines count (None before the carrier's first line), and whether the client has asked for its link.
        self.part, self.counts, self.is_resumed = "", None, False
        # The counts of the client's `got`s, and for how many seconds it waited between its attempts.
        self.gots, self.waits = notes.Gots(), []
        # The connection before the present one.
        self.older = None

    def connects(self):
        self.older = self.client.link
        self.client.connects()
        self.part, self.counts, self.is_resumed = "", None, False

    def tells(self, text):
        """Sends a text, and counts its lines. Before its first line on a carrier the client may have sent nothing but its own."""
        if self.counts is None and (line := self.client.link.lines.within(0)):
            raise Differs(f"expected nothing before the server's first line, but got {line!r}")
        self.client.link.send(text)
        *lines, self.part = (self.part + text).split("\n")
        for line in lines:
            self.has_told(line)

    def tells_late(self, lines):
        """Sends lines on the connection before the present one, which the client may have closed."""
        with contextlib.suppress(Differs):
            self.older.send_lines(*lines)

    def has_told(self, line):
        if self.counts is None:
            self.begins(not self.is_resumed and notes.token_in(line))
            self.counts = line.startswith(("link ", "resumed "))
            self.gots.begins(self.is_resumed)
        else:
            self.told += self.counts and notes.is_counted(line)

    def begins(self, token):
        """Begins a new link if the first line has given a token."""
        if token:
            self.token, self.told, self.before, self.gots = token, 0, 0, notes.Gots()

    def tells_lines(self, lines):
        self.tells(material.text_with(lines))

    def opens(self):
        """Lets the client open a link and join as a site."""
        self.connects()
        self.client.link.lines.are_next("hello 4")
        self.tells_lines([f"link {TOKEN} 300", f"welcome {at_client.SITE} {material.LIMIT}", *self.board.lines, "ready"])
        self.before = self.told
        self.client.printed.are_next(f"site {at_client.SITE}")

    def resumes(self, at):
        """The client has to connect again, and to ask for the lines after those that it has taken: all that were sent whole, or so many after `ready`."""
        self.connects()
        self.is_resumed = True
        count = self.before + int(at.removeprefix("at ")) if at else self.told
        self.client.link.lines.are_next(f"resume {self.token} {count}")

    def breaks_after(self, rest):
        """Sends so many bytes of some lines, and then ends the connection."""
        count, lines = notes.pieces(rest)
        self.tells(material.text_with(material.lines_in(lines))[:count])
        self.client.link.close()

    def breaks_before_the_end(self, lines):
        """Sends some lines without the last line feed, and then ends the connection."""
        self.tells(material.text_with(material.lines_in(lines))[:-1])
        self.client.link.close()

    def is_sent(self, lines):
        """Tests that these lines come next, except that a `got` may come sooner."""
        for line in material.lines_in(lines):
            wanted = notes.counted(line, self.before)
            found = self.hears(wanted)
            while notes.is_early(found, wanted):
                found = self.hears(wanted)
            if not notes.is_as(wanted, found):
                raise Differs(f"expected {wanted!r}, but got {found!r}")

    def may_send(self, lines):
        """The client sends these lines, or the first of them, or none."""
        all(self.client.link.lines.passes(it) for it in material.lines_in(lines))

    def hears(self, wanted):
        line = self.client.link.lines.next(repr(wanted))
        self.gots.hears(line, self.client.link.lines.came_at)
        if line.startswith("got ") and self.gots.last > self.told:
            raise Differs(f"{line!r} confirms more than the {self.told} lines that were sent")
        return line

    def is_quiet(self):
        if line := self.client.link.lines.within(QUIET):
            raise Differs(f"expected nothing for {QUIET} seconds, but got {line!r}")

    def may_type(self, line):
        """Types a command for a client that may have ended."""
        with contextlib.suppress(Differs):
            self.client.types(f"{line}\n")

    def finds_no_server(self):
        """Refuses each further connection of the client."""
        self.client.listener.close()

    def tries(self, count):
        """Ends each of so many connections after the client's first line, and times the waits between them, which have to grow."""
        self.waits = [self.attempt() for _ in range(count)]
        self.has_grown()

    def attempt(self):
        """For how many seconds the client waits until it connects. The kit then ends the connection."""
        begun = time.monotonic()
        self.connects()
        waited = time.monotonic() - begun
        self.client.link.lines.next("a first line")
        self.client.link.close()
        return waited

    def has_grown(self):
        if self.waits[-1] < GROWN * min(self.waits[:-1]):
            raise Differs(f"expected waits that grow, but the client waited for {', '.join(f'{it:.2f}' for it in self.waits)} seconds")

    def tries_later(self):
        """The next wait has to be a long one, too."""
        self.waits.append(self.attempt())
        self.has_grown()

    def leaves(self):
        self.client.link.lines.are_next(END)

    def acts(self):
        """What each step of a transcript does, by its words."""
        return at_client.acts_of(self.client, self.board) | {
            "opens": lambda *_: self.opens(),
            "connects": lambda *_: self.connects(),
            "resumes": lambda _, at: self.resumes(at),
            "breaks": lambda *_: self.client.link.close(),
            "breaks after": lambda _, rest: self.breaks_after(rest),
            "breaks before the end of": lambda _, lines: self.breaks_before_the_end(lines),
            "is reset": lambda *_: self.client.link.reset(),
            "tries": lambda _, times: self.tries(int(times.split(" ")[0])),
            "tries later": lambda *_: self.tries_later(),
            "sends": lambda _, lines: self.is_sent(lines),
            "is told": lambda _, lines: self.tells_lines(material.lines_in(lines)),
            "is told bytes": lambda _, text: self.tells(material.text_of(text)),
            "is told late": lambda _, lines: self.tells_late(material.lines_in(lines)),
            "may type": lambda _, line: self.may_type(line),
            "may send": lambda _, lines: self.may_send(lines),
            "may print": lambda _, line: self.client.printed.passes(line),
            "finds no server": lambda *_: self.finds_no_server(),
            "will have little room": lambda *_: narrow(self.client.listener),
            "stops reading": lambda *_: self.client.link.stop_reading(),
            "reads on": lambda *_: self.client.link.read_on(),
            "is quiet": lambda *_: self.is_quiet(),
            "waits": lambda _, seconds: Clock.waits(int(seconds)),
            "leaves": lambda *_: self.leaves(),
            "gives up": lambda *_: self.client.gives_up(),
        }


def play(words, transcript):
    with LastingClient(words) as client:
        transcript.play(Server(client, transcript.board).acts())


def judge_answer(words, row):
    """Sends a first line, or a line after it, and tests what the client does."""
    with LastingClient(words) as client:
        server = Server(client, material.Board(material.table_board(material.LINES_WINDOW)))
        {"hello": answers_hello, "early": answers_before_ready, "resume": answers_resume, "line": tells_line}[row.place](server, row)


def answers_hello(server, row):
    """Answers `hello 4` by the row's text. The client takes that as a cut, and says `hello 4` again."""
    server.connects()
    server.client.link.lines.are_next("hello 4")
    server.tells(row.text)
    server.client.link.close()
    server.opens()


def answers_before_ready(server, row):
    """Answers `resume` by the row's text before the client has read `ready`. It has lost nothing, so it begins again by `hello 4`, or goes on."""
    server.connects()
    server.client.link.lines.are_next("hello 4")
    server.tells_lines([f"link {TOKEN} 300", f"welcome {at_client.SITE} {material.LIMIT}"])
    server.client.link.close()
    server.resumes("")
    server.tells(row.text)
    server.client.link.close()
    if row.outcome == "begins":
        server.opens()
    else:
        server.resumes("")


def answers_resume(server, row):
    """Answers `resume` by the row's text. The client, whose user waits for a `sync`, has put an edit and a ping, and has read that the server took the edit."""
    server.opens()
    server.client.types("set 61 3 on\nsync\n")
    server.is_sent("batch 0 0 1 / do 61 3 toggle set on / ping 1")
    server.client.printed.are_next("made set 61 3 on")
    server.tells_lines(["got 2"])
    server.client.link.close()
    server.resumes("")
    server.tells(row.text)
    if row.outcome == "gives-up":
        server.client.gives_up()
    elif row.outcome == "again":
        server.client.link.close()
        server.resumes("")
    else:
        server.is_sent("got 0")


def tells_line(server, row):
    """Sends the row's text, and the pong for which a `sync` waits. The client finds the fault of the text, and gives up."""
    server.opens()
    server.client.types("sync\n")
    server.is_sent("ping 1")
    server.tells(f"{row.text}pong 1\n")
    server.client.printed.are_next(f"fault {row.outcome}")
    server.client.gives_up()


def parts(words):
    """Each part with its name, and the rule that it shows."""
    for it in material.played("clients"):
        if it.is_lasting:
            yield it.name, it.rule, lambda it=it: play(words, it)
    for row in material.answers():
        yield row.name, row.rule(), lambda row=row: judge_answer(words, row)
