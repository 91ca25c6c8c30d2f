"""The parts by which the kit judges a server of many boards."""
import collections
import json
import re

import material
from at_server import Site, Sites
from links import END, Differs, Link
from news import NEWS, NewsLink
from rights import RIGHTS, Keys

# A board and one of its words in a transcript or a row, as `P.edit`. `P.edit:16` is the first 16 letters.
PLACE = re.compile(r"\b([P-S])\.(id|own|edit|read|run)\b(?::(\d+))?")
OPENING, ANSWERED, KEYS = (f'docs/WIRE.md, "{it}"' for it in ("The first line", "Between the answer and the link", "IDs and keys"))
# The rules of the table of opening, by the place of a row.
OPENING_RULES = {
    "first": f"{OPENING}: The server answers any line but an `open`, a `make`, an `owner` or a `templates` that is well spelled by `error 38`, and so an `open` of a board that is not there, or with a key that it does not have.",
    "owner": f"{OPENING}: After `may owner` any line but a `make` is answered by `error 40`.",
    "answered": f"{ANSWERED}: Any line but `keys` and `news` is the first line of protocol 3 or 4. A second `open`, `make` or `owner` is so a line with a fault.",
}
KEYS_RULE = f"{OPENING}: The server answers an `open` with a key that the board does not have by `error 38`."
TEMPLATES_RULE = f"{OPENING}: The server answers `templates` by `create`, a `template` for each in ascending order of their bytes, and `end`."


class Shelf:
    """What the kit knows of a server: its address, its owner's key or nothing, whom it lets make boards, its templates, and how many edits a board takes."""

    def __init__(self, address, owner):
        self.address, self.owner = address, owner
        self.create, self.templates = templates_of(address)
        if self.create == "owner" and not owner:
            raise Differs("only the owner makes boards there: give --owner KEY")
        self.limit = None if self.create == "nobody" else self.limit_of_a_board()
        if self.limit and not self.has_parts():
            raise Differs(f"a board takes {self.limit} edits there: the kit has parts for {material.FULL_LIMIT}, and for {material.LIMIT} and more")

    def make(self, board, printed):
        """Makes a board of the lines of a printed one."""
        link = Link.to(self.address)
        if self.create == "owner":
            link.send_lines(f"owner {self.owner}")
            link.lines.are_next("may owner")
        link.send_lines(f"make {board.id} {board.own} -", *printed, "end")
        link.lines.are_next("may own")
        link.close()

    def limit_of_a_board(self):
        board, link = Keys(), Link.to(self.address)
        self.make(board, [])
        link.send_lines(f"open {board.id} {board.own}")
        link.lines.are_next("may own")
        link.send_lines("hello 3")
        first = [link.lines.next("'welcome'") for _ in range(2)]
        link.close()
        welcomes = [int(it[1]) for it in map(re.compile(r"welcome [1-9]\d* ([1-9]\d*)").fullmatch, first) if it]
        if not welcomes:
            raise Differs(f"expected 'run HEX' and 'welcome SITE LIMIT', but got {first}")
        return welcomes[0]

    def has_parts(self):
        return self.is_full_soon() or self.limit >= material.LIMIT

    def is_full_soon(self):
        """Whether a board takes so few edits that its order gets full."""
        return self.limit == material.FULL_LIMIT

    def plays(self, transcript):
        """Whether a transcript is for such a server."""
        return transcript.create == self.create and (transcript.limit == material.FULL_LIMIT) == self.is_full_soon()


def templates_of(address):
    """Whom a server lets make boards, and the names of its templates."""
    link = Link.to(address)
    link.send_lines("templates")
    first, names = link.lines.next("'create'"), []
    create = re.fullmatch("create (anyone|owner|nobody)", first)
    if not create:
        raise Differs(f"expected 'create anyone', 'create owner' or 'create nobody', but got {first!r}")
    while (line := link.lines.next("'template' or 'end'")) != "end":
        found = re.fullmatch("template ([a-z][a-z0-9-]{0,31})", line)
        if not found:
            raise Differs(f"expected 'template NAME' or 'end', but got {line!r}")
        names.append(found[1])
    link.lines.are_next(END)
    link.close()
    return create[1], names


class BoardSite(Site):
    """A site of one of many boards. A board has only what its transcript says, so all its lines count."""

    kind = NewsLink

    def next(self, due="a line"):
        return self.hears(due)


class BoardSites(Sites):
    """The sites of a transcript, and the boards that it makes, each by the letter that it has there."""

    kind = BoardSite
    # For how many seconds a server that has to be quiet is heard.
    MOMENT = 0.5

    def __init__(self, shelf, printed=()):
        super().__init__(shelf.address, shelf.limit, [], 0)
        self.shelf, self.printed, self.boards, self.asked = shelf, printed, collections.defaultdict(Keys), {}

    def renamed(self, line):
        line = PLACE.sub(lambda it: (getattr(self.boards[it[1]], it[2]) or "RUN")[: int(it[3] or 32)], line)
        line = line.replace("OWNER", self.shelf.owner or "OWNER")
        return super().renamed(line.replace("TEMPLATE", (self.shelf.templates or ["no-template"])[0]))

    def is_made(self, name, own):
        """Makes the board of the transcript, with this own key if there is one."""
        self.boards[name] = Keys(own)
        self.shelf.make(self.boards[name], self.printed)

    def asks_for(self, who, name):
        """Asks for a board by its edit key. What the site greets with next is for this board."""
        self.asked[who] = name
        self.sends(who, f"open {name}.id {name}.edit")
        self.is_told(who, "may edit")

    def begins(self, who, name, joins):
        """Joins the board that the site has asked for, or asks for a board first."""
        if name:
            self.asks_for(who, name)
        joins(who)

    def greets(self, who, *lines):
        super().greets(who, *lines)
        self.is_told(who, f"run {self.asked[who]}.run")

    def sends(self, who, lines):
        if "news" in material.lines_in(lines):
            self.link(who).lines.asks()
        super().sends(who, lines)

    def is_told(self, who, lines):
        for line in material.lines_in(lines):
            word = line.split(" ")[0]
            if word in NEWS:
                self.link(who).lines.hear(line)
            elif word == "run":
                self.hears_run(who, line)
            else:
                super().is_told(who, line)

    def hears_run(self, who, line):
        """Tests a line `run P.run`. The first one tells the name, and each later one has to be the same."""
        board, found = self.boards[PLACE.search(line)[1]], self.site(who).next(repr(line))
        shown = re.fullmatch("run ([0-9a-f]{32})", found)
        if not shown or board.run not in (None, shown[1]):
            raise Differs(f"expected {self.renamed(line)!r}, but got {found!r}")
        board.run = shown[1]

    def is_quiet(self, who):
        """Tests that the server sends nothing for a moment."""
        if (line := self.link(who).lines.within(self.MOMENT)) is not None:
            raise Differs(f"expected nothing, but got {line!r}")

    def acts(self):
        return super().acts() | {
            "is made": lambda name, _: self.is_made(name, None),
            "is made by": self.is_made,
            "asks for": self.asks_for,
            "joins": lambda who, name: self.begins(who, name, self.joins),
            "opens": lambda who, name: self.begins(who, name, self.opens),
            "connects": lambda who, _: self.site(who),
            "is quiet": lambda who, _: self.is_quiet(who),
        }


def play(shelf, transcript):
    with BoardSites(shelf, transcript.board.printed) as sites:
        transcript.play(sites.acts())


class OpeningRow:
    """A row of the table of opening: where a line comes, the number of the server's answer, and the line."""

    def __init__(self, row):
        self.place, self.fault, text = row.split(" ", 2)
        self.text = json.loads(text)
        self.name = f"opening: {self.place} {text}"

    def rule(self):
        return OPENING_RULES[self.place]

    def judge(self, shelf, boards):
        """Sends the line in its place. The answer is one line, and then the server ends its side."""
        with BoardSites(shelf) as sites:
            sites.boards = boards
            if self.place == "owner":
                sites.sends("A", "owner OWNER")
                sites.is_told("A", "may owner")
            elif self.place == "answered":
                sites.asks_for("A", "P")
            sites.sends_bytes("A", json.dumps(f"{self.text}\n"))
            sites.is_told("A", f"error {self.fault}")
            sites.is_left("A")


def opening_rows():
    return [OpeningRow(it) for it in material.rows_of("opening")]


def judge_wrong_key(shelf, boards, right, at):
    """Shows a key of which one digit is wrong."""
    board = boards["P"]
    with BoardSites(shelf) as sites:
        sites.sends("A", f"open {board.id} {board.wrong(right, at)}")
        sites.is_told("A", "error 38")
        sites.is_left("A")


def judge_templates(shelf):
    """Tests the order of the templates, which the kit has read."""
    if not shelf.templates:
        raise Differs("expected a template")
    if shelf.templates != sorted(set(shelf.templates)):
        raise Differs(f"expected the names in ascending order, but got {shelf.templates}")


def made_boards(shelf):
    """The two boards of the tables. The first has a toggle, and the second nothing."""
    boards = collections.defaultdict(Keys)
    shelf.make(boards["P"], ["window 1", "toggle 1 off"])
    shelf.make(boards["Q"], [])
    return boards


def table_parts(shelf):
    """The rows of the table, and a key with each digit wrong."""
    boards = made_boards(shelf)
    for row in opening_rows():
        if row.place != "owner" or shelf.owner:
            yield row.name, row.rule(), lambda row=row: row.judge(shelf, boards)
    for right in RIGHTS:
        for at in range(32):
            yield f"keys: digit {at + 1} of {right}", KEYS_RULE, lambda right=right, at=at: judge_wrong_key(shelf, boards, right, at)


def parts(address, owner):
    """Each part with its name, and the rule that it shows."""
    shelf = Shelf(address, owner)
    yield "templates", TEMPLATES_RULE, lambda: judge_templates(shelf)
    for it in material.played("boards"):
        if shelf.plays(it):
            yield it.name, it.rule, lambda it=it: play(shelf, it)
    if shelf.create == "anyone" and not shelf.is_full_soon():
        yield from table_parts(shelf)
