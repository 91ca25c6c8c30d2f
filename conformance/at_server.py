"""The parts by which the kit judges a server."""
import contextlib
import re
import time

import material
import notes
from links import END, Clock, Differs, Lines, Link, is_as
from rows import Names, rows_in

BOARD_WORDS = (*material.BOARD_WORDS, "char", "item")


class Lasting:
    """A link of protocol 4: its token, how many lines of the server were taken, and how many of these up to `ready`. A transcript counts the lines after these."""

    def __init__(self, token):
        self.token, self.taken, self.before, self.gots = token, 0, 0, notes.Gots()


class Site:
    """A site of a transcript: its link, and whether the lines of the board are still coming. In protocol 4 it is a carrier of a link: the link, and the last `got` that came where another line was due."""

    kind = Link

    def __init__(self, address, windows, is_narrow=False):
        self.link, self.is_in_board, self.is_in_window = self.kind.to(address, is_narrow), False, False
        self.windows = [f"window {it}" for it in windows]
        self.lasting, self.got, self.is_first = None, None, False

    def carries(self, lasting):
        """Carries a link from here on. The next line of the server is its first."""
        self.lasting, self.is_first = lasting, True

    def hears(self, due):
        """The next line of the server, which counts in protocol 4 unless it is a note."""
        line = self.link.lines.next(due)
        if self.lasting:
            if self.is_first:
                self.lasting.gots.begins(is_resumed=True)
            self.lasting.taken += not self.is_first and notes.is_counted(line)
            self.lasting.gots.hears(line, self.link.lines.came_at)
        self.is_first = False
        return line

    def next(self, due="a line"):
        """The next line that the site receives. Of a board it returns only the lines of the transcript's windows."""
        line = self.hears(due)
        while self.is_in_board and line.split(" ", 1)[0] in BOARD_WORDS:
            if line.startswith("window "):
                self.is_in_window = line in self.windows
            if self.is_in_window:
                return line
            line = self.hears(due)
        self.is_in_board = line.startswith("welcome ")
        return line

    def next_but_got(self, wanted):
        """The next line that the site receives. In protocol 4 a `got` may come at any time, so one that is not wanted is kept for when it is."""
        if self.got and wanted.startswith("got ") and is_as(wanted, self.got):
            found, self.got = self.got, None
            return found
        found = self.next(repr(wanted))
        while self.lasting and notes.is_early(found, wanted):
            self.got, found = found, self.next(repr(wanted))
        return found


class Sites:
    """The sites of a transcript, and the number that the server gave to each, by its number in the transcript. The end of the `with` ends all links."""

    kind = Site

    def __init__(self, address, limit, windows, before):
        self.address, self.limit, self.windows = address, limit, windows
        self.sites, self.numbers = {}, {0: (0, before)}
        # The links of protocol 4, those too whose site is not connected, each by who opened it or carried it last.
        self.links = {}

    def __enter__(self):
        return self

    def __exit__(self, *raised):
        """Detaches all sites before others join. It raises a failure of that only if there was no failure before."""
        for site in self.sites.values():
            try:
                site.link.close()
            except Differs:
                if not raised[0]:
                    raise

    def site(self, who, is_narrow=False):
        if who not in self.sites:
            self.sites[who] = self.kind(self.address, self.windows, is_narrow)
        return self.sites[who]

    def link(self, who):
        return self.site(who).link

    def renamed(self, line):
        return material.renamed(line, self.numbers)

    def lines_of(self, who, lines):
        """The lines of a step that a site sends."""
        lasting, lines = self.site(who).lasting, map(self.renamed, material.lines_in(lines))
        return [notes.counted(it, lasting.before) for it in lines] if lasting else list(lines)

    def sends(self, who, lines):
        self.link(who).send_lines(*self.lines_of(who, lines))

    def sends_late(self, who, lines):
        """Sends lines on a connection that the server may have closed."""
        with contextlib.suppress(Differs):
            self.sends(who, lines)

    def sends_bytes(self, who, text):
        self.site(who).link.send(self.renamed(material.text_of(text)))

    def is_told(self, who, lines):
        for line in material.lines_in(lines):
            wanted = self.renamed(line)
            found = self.site(who).next_but_got(wanted)
            if line.startswith("welcome "):
                wanted = self.welcome(line, found)
            if not is_as(wanted, found):
                raise Differs(f"expected {wanted!r}, but got {found!r}")

    def welcome(self, line, found):
        """The expected welcome. It has the number that the server gives."""
        given = re.fullmatch(r"welcome ([1-9]\d*) \d+", found)
        if given:
            self.numbers[int(line.split()[1])] = (int(given[1]), 0)
        return f"welcome {given[1] if given else 'SITE'} {self.limit}"

    def greets(self, who, *lines):
        """Sends the first line of a site, and lines after it."""
        self.link(who).send_lines(*lines)

    def joins(self, who):
        """Greets, and returns the lines of the board in the transcript's windows."""
        self.greets(who, "hello 3")
        self.is_told(who, f"welcome {len(self.numbers)}")
        lines = []
        while (line := self.site(who).next("'ready'")) != "ready":
            if line.split(" ")[0] not in BOARD_WORDS:
                raise Differs(f"expected 'ready', but got {line!r}")
            lines.append(line)
        return lines

    def gets_a_link(self, who, lines=()):
        """Greets by protocol 4 and sends lines, and reads `link`."""
        site = self.site(who)
        self.greets(who, "hello 4", *lines)
        told = site.hears("'link'")
        token = notes.token_in(told)
        if not token:
            raise Differs(f"expected 'link TOKEN SECONDS', but got {told!r}")
        if token in [it.token for it in self.links.values()]:
            raise Differs(f"expected a new token, but got {told!r}")
        self.links[who] = site.lasting = Lasting(token)
        site.lasting.gots.begins(is_resumed=False)

    def opens(self, who, lines=()):
        """Greets by protocol 4, sends lines, and reads up to `ready`."""
        self.gets_a_link(who, lines)
        self.is_told(who, f"welcome {len(self.numbers)}")
        site = self.site(who)
        while site.hears("'ready'") != "ready":
            pass
        site.lasting.before, site.is_in_board = site.lasting.taken, False

    def breaks(self, who):
        """Breaks the connection of a site. What the site has not read is lost."""
        self.sites.pop(who).link.close()

    def breaks_after(self, who, rest):
        """Sends so many bytes of some lines, and then breaks the connection."""
        count, lines = notes.pieces(rest)
        self.link(who).send(material.text_with(self.lines_of(who, lines))[:count])
        self.breaks(who)

    def breaks_before_the_end(self, who, lines):
        """Sends some lines without the last line feed, and then breaks the connection."""
        self.link(who).send(material.text_with(self.lines_of(who, lines))[:-1])
        self.breaks(who)

    def is_cut(self, who):
        """Tests that the server ends the connection in time, and sends nothing but `got` before."""
        until = time.monotonic() + Lines.patience
        while (line := self.site(who).hears("the end of the connection")) != END:
            if not line.startswith("got ") or until < time.monotonic():
                raise Differs(f"expected the end of the connection, but got {line!r}")
        self.breaks(who)

    def is_reset(self, who):
        self.sites.pop(who).link.reset()

    def resumes(self, who, rest):
        """Sends `resume` for the link that the site had, or for that of another site. Without a count it sends how many lines were taken."""
        other, count = re.fullmatch(r"(?:(?!at )(\w+) ?)?(?:at (-?\d+))?", rest).groups()
        lasting = self.links[other or who]
        taken = lasting.before + int(count) if count else lasting.taken
        self.link(who).send_lines(f"resume {lasting.token} {taken}")
        self.site(who).carries(lasting)
        self.links[who] = lasting

    def guesses_digit(self, who, rest):
        """Sends `resume` with a token of which one digit is wrong."""
        at, other = re.fullmatch(r"(\d+) of (\w+)", rest).groups()
        token, at = self.links[other].token, int(at) - 1
        digit = f"{(int(token[at], 16) + 1) % 16:x}"
        self.link(who).send_lines(f"resume {token[:at]}{digit}{token[at + 1 :]} {self.links[other].taken}")

    def is_left(self, who):
        self.link(who).lines.are_next(END)

    def is_taken_no_more(self, who):
        poured = self.link(who).poured
        poured.comes_to_a_stop()
        if not poured.was_refused:
            raise Differs(f"expected the end of the link, but {poured.sent} bytes were taken")

    def acts(self):
        """What each step of a transcript does, by its words."""
        return {
            "joins": lambda who, _: self.joins(who),
            "opens": lambda who, _: self.opens(who),
            "opens with": lambda who, lines: self.opens(who, material.lines_in(lines)),
            "gets a link": lambda who, _: self.gets_a_link(who),
            "breaks": lambda who, _: self.breaks(who),
            "breaks after": self.breaks_after,
            "breaks before the end of": self.breaks_before_the_end,
            "is cut": lambda who, _: self.is_cut(who),
            "is reset": lambda who, _: self.is_reset(who),
            "resumes": self.resumes,
            "guesses digit": self.guesses_digit,
            "sends late": self.sends_late,
            "has little room": lambda who, _: self.site(who, is_narrow=True),
            "sends bytes": self.sends_bytes,
            "sends": self.sends,
            "is told": self.is_told,
            "ends": lambda who, _: self.link(who).end(),
            "is left": lambda who, _: self.is_left(who),
            "stops reading": lambda who, _: self.link(who).stop_reading(),
            "reads on": lambda who, _: self.link(who).read_on(),
            "pours bytes": lambda who, text: self.link(who).pour(material.text_of(text)),
            "pours": lambda who, lines: self.link(who).pour("".join(f"{self.renamed(it)}\n" for it in material.lines_in(lines))),
            "comes to a stop": lambda who, _: self.link(who).poured.comes_to_a_stop(),
            "is taken no more": lambda who, _: self.is_taken_no_more(who),
            "drips for": lambda who, seconds: self.link(who).drip(int(seconds)),
            "waits": lambda _, seconds: Clock.waits(int(seconds)),
        }


def play(address, transcript, before):
    with Sites(address, transcript.limit, transcript.board.windows, before) as sites:
        transcript.play(sites.acts())


def judge_transforms(address, window, before):
    """In each row the server takes B's operation, and then A's, which A sends before it has received B's. At the end C joins, and reads what all rows leave."""
    with Sites(address, material.LIMIT, [window], before) as sites:
        sites.joins("A")
        sites.joins("B")
        rows = [it for it in rows_in(window) if "no" not in (it.row.client, it.row.server)]
        client, server = Names(1), Names(2)
        for count, row in enumerate(rows):
            names = client.next_for(row.row.client), server.next_for(row.row.server)
            try:
                judge_row(sites, count, *row.spelled(*names))
            except Differs as differs:
                raise Differs(f"in the row `{row.row.text}`: {differs}") from None
        are_shown(rows, sites.joins("C"))


def judge_row(sites, count, client, client_after, server):
    sites.sends("B", f"batch {count} {count} 1 / do {server} / ping {count}")
    sites.is_told("B", f"pong {count}")
    sites.sends("A", f"batch {count} {count} 1 / do {client} / ping {count}")
    sites.is_told("A", f"batch {count} {count} 1 / do {server} / pong {count}")
    sites.sends("B", f"ping {count}")
    sites.is_told("B", f"batch {count} {count + 1} 1 / do {client_after} / pong {count}")


def are_shown(rows, lines):
    """Tests that the board's lines show what the rows leave. It does not compare the names of items."""
    bare = [re.sub(r"^(char|item) \d+\.\d+ ", r"\1 ", it) for it in lines]
    for row in rows:
        wanted = [re.sub(r"^(char|item) \S+ ", r"\1 ", it) for it in material.lines_of([row.shown()])]
        at = bare.index(wanted[0]) if wanted[0] in bare else len(bare)
        if bare[at : at + len(wanted)] != wanted:
            raise Differs(f"in the row `{row.row.text}`: expected {wanted} at the end")


def judge_line(address, row, before):
    """Sends a ping after the line. The server reports a fault of the line before it answers the ping."""
    with Sites(address, material.LIMIT, [material.LINES_WINDOW], before) as sites:
        if row.reader == "server":
            sites.joins("A")
        sites.sends("A", row.text)
        sites.sends("A", "ping 12345")
        if row.fault is not None:
            sites.is_told("A", f"error {row.fault}")
            sites.is_left("A")
        else:
            hears_pong(sites, row)


def hears_pong(sites, row):
    if row.reader == "first":
        sites.is_told("A", "welcome 1")
        while sites.site("A").next() != "ready":
            pass
    elif row.text.startswith("ping "):
        sites.is_told("A", row.text.replace("ping", "pong"))
    sites.is_told("A", "pong 12345")


def limit_of(address):
    """The limit that the server sends to a site that joins."""
    link = Link.to(address)
    link.send_lines("hello 3")
    welcome = re.fullmatch(r"welcome [1-9]\d* (\d+)", link.lines.next())
    link.close()
    return int(welcome[1]) if welcome else material.LIMIT


def parts(address):
    """Each part with its name, and the rule that it shows."""
    limit = limit_of(address)
    _, before = material.layout(limit)
    for it in material.played("servers"):
        if it.limit == limit:
            yield it.name, it.rule, lambda it=it: play(address, it, before[it.board.windows[0]])
    if limit != material.LIMIT:
        return
    for window, name in material.TRANSFORM_WINDOWS.items():
        yield f"transforms of {name}", material.TRANSFORM_RULES[window], lambda window=window: judge_transforms(address, window, before[window])
    for row in material.lines_for("first") + material.lines_for("server"):
        yield row.name, row.rule(), lambda row=row: judge_line(address, row, before[material.LINES_WINDOW])
