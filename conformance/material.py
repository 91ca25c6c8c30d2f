"""Reads this folder's files: transcripts with the boards that they open with, the table of transforms, and the table of lines."""
import functools
import glob
import itertools
import json
import os
import re

from links import Clock, Differs

HERE = os.path.dirname(os.path.abspath(__file__))
# The limits of the servers that the kit judges: one that plays most parts, one whose order gets full, and one with a long text.
LIMIT, FULL_LIMIT, LONG_LIMIT = 10_000, 2, 100_000
# The limits of servers of protocol 4, each with the seconds for which such a server lets a link wait. The first plays most parts.
# The second has a board of more bytes than it keeps for a link, and the third lets a link wait for a short time only.
GRACES = {4_000: 60, 5_000: 60, 6_000: 2}
LIMITS = (LIMIT, FULL_LIMIT, LONG_LIMIT, *GRACES)
# The windows in which the kit plays the tables.
LINES_WINDOW, LISTS_WINDOW, TEXTS_WINDOW, SETTINGS_WINDOW = 61, 62, 63, 64
TRANSFORM_WINDOWS = {LISTS_WINDOW: "lists", TEXTS_WINDOW: "texts", SETTINGS_WINDOW: "settings"}
WORDS = {LISTS_WINDOW: "list", TEXTS_WINDOW: "text"}
# The rules that the tables show, each with its page and its section.
SEQUENCES_RULE, SETTINGS_RULE = (f'docs/PROTOCOL.md, "{it}"' for it in ("Texts and lists", "Settings"))
TRANSFORM_RULES = {LISTS_WINDOW: SEQUENCES_RULE, TEXTS_WINDOW: SEQUENCES_RULE, SETTINGS_WINDOW: SETTINGS_RULE}
LINES_RULE, SESSIONS_RULE = (f'docs/WIRE.md, "{it}"' for it in ("Lines of a link, and of a layout", "Sessions"))
CLIENT_RULE = 'docs/PROGRAMS.md, "`jup`"'
BOARDS_RULE, REFUSALS_RULE = 'docs/WIRE.md, "Layouts"', 'docs/PROTOCOL.md, "What is refused, and what it leaves"'
BOARD_WORDS = ("window", "text", "list", "toggle", "slider")
# The folders of transcripts: those of a server of one board, of a client, and of a server of many boards.
FOLDERS = ("servers", "clients", "boards")
# With these words the rows begin that come before the board of a transcript.
HEADS = ("limit", "protocol", "long", "create")
# The rules of the table of answers, by the place of a row.
ANSWER_RULES = {
    "hello": 'docs/WIRE.md, "What a client must do besides": After `hello 4` a client takes any first line except `link` and `error N` as a cut.',
    "early": 'docs/WIRE.md, "What a client must do besides": A client that has not read `ready` yet answers `ended`, 35, 36, 40 and 42 by `hello 4` on a new connection.',
    "resume": 'docs/WIRE.md, "What a client must do besides": The table of what the first line after `resume` means to a client.',
    "line": 'docs/WIRE.md, "What a client must do besides": The table of the faults that a client finds in what the server sends after its first line.',
}
# The readers in the table of lines.
READERS = ("first", "server", "client", "greeting")


def rows_of(name):
    """The lines of a file of this folder that are neither empty nor a comment."""
    with open(f"{HERE}/{name}", encoding="utf-8") as file:
        rows = [it.rstrip() for it in file if not it.startswith("#")]
    return [it for it in rows if it]


def rule_in(name):
    """The rule that a file of this folder shows, by its comment."""
    with open(f"{HERE}/{name}", encoding="utf-8") as file:
        found = [it.removeprefix("# Rule: ").strip() for it in file if it.startswith("# Rule: ")]
    assert len(found) == 1, f"{name} has {len(found)} rules"
    return found[0]


def spread(row):
    """The steps that a row with braces spells. `A sends ack {0..2}` is three steps. Several braces of one row count together."""
    ranges = [range(int(first), int(last) + 1) for first, last in re.findall(r"\{(\d+)\.\.(\d+)\}", row)]
    if not ranges:
        return [row]
    assert len({len(it) for it in ranges}) == 1, f"the ranges of {row!r} are of different lengths"
    texts = re.split(r"\{\d+\.\.\d+\}", row)
    return [texts[0] + "".join(f"{number}{text}" for number, text in zip(numbers, texts[1:])) for numbers in zip(*ranges)]


def text_of(text):
    """The text of a step with `bytes`: a JSON string, and how many times it is repeated."""
    found = re.fullmatch(r'(".*")(?: (\d+) times)?', text)
    return json.loads(found[1]) * int(found[2] or 1)


def lines_in(text):
    """The lines of a step. ` / ` separates several, and `N times` after a line repeats it."""
    lines = []
    for line in text.split(" / "):
        found = re.fullmatch(r"(.*) (\d+) times", line)
        lines += [found[1]] * int(found[2]) if found else [line]
    return lines


def text_with(lines):
    """Lines as a text, each with its line feed."""
    return "".join(f"{it}\n" for it in lines)


def repeated(row):
    """A row of a printed board, in which a text may be `"a" 65536 times`."""
    found = re.fullmatch(r'(text \d+ )"(.)" (\d+) times', row)
    return f'{found[1]}"{found[2] * int(found[3])}"' if found else row


def lines_of(printed):
    """A printed board as lines of a link. Its k-th item has the name 0.k."""
    lines, items = [], 0
    for row in printed:
        word, wid, *rest = row.split(" ", 2)
        if word not in ("text", "list"):
            lines.append(row)
            continue
        lines.append(f"{word} {wid}")
        quoted = re.findall(r'"([^"]*)"', rest[0]) if rest else []
        values = [f"char 0.# {ord(it)}" for it in quoted[0]] if word == "text" else [f"item 0.# {it}" for it in quoted]
        lines += [it.replace("#", str(items + at + 1), 1) for at, it in enumerate(values)]
        items += len(values)
    return lines


class Board:
    """A board as it is printed, as lines of a link, and how many items it has."""

    def __init__(self, printed):
        self.printed = printed
        self.windows = [int(it.split()[1]) for it in printed if it.startswith("window ")]

    @functools.cached_property
    def lines(self):
        return lines_of(list(map(repeated, self.printed)))

    @functools.cached_property
    def items(self):
        return sum(it.startswith(("char ", "item ")) for it in self.lines)


class Transcript:
    """A transcript: its board, what its first rows say of it, and its rows of steps in order."""

    def __init__(self, path):
        self.name = os.path.relpath(path, HERE)
        self.rule = rule_in(self.name)
        rows = rows_of(self.name)
        heads = [rows.pop(0) for it in list(rows) if rows[0].split()[0] in HEADS]
        # The limit of its server, whether its client is one of protocol 4, and whether it takes a minute or more.
        self.limit = next((int(it.split()[1]) for it in heads if it.startswith("limit ")), LIMIT)
        self.is_lasting, self.is_long = "protocol 4" in heads, "long" in heads
        # Whom its server lets make boards, if it has many.
        self.create = next((it.split()[1] for it in heads if it.startswith("create ")), "anyone")
        count = next(at for at, row in enumerate(rows) if row.split()[0] not in BOARD_WORDS)
        self.board, self.rows = Board(rows[:count]), rows[count:]

    def play(self, acts):
        """Does each step by the function of `acts` that has its words."""
        form = re.compile(rf"(\w+) ({'|'.join(sorted(acts, key=len, reverse=True))})(?: (.*))?")
        for step in itertools.chain.from_iterable(map(spread, self.rows)):
            who, verb, rest = form.fullmatch(step).groups("")
            try:
                acts[verb](who, rest)
            except Differs as differs:
                raise Differs(f"at `{step}`: {differs}") from None


def transcripts(folder):
    return [Transcript(it) for it in sorted(glob.glob(f"{HERE}/{folder}/*.session"))]


def played(folder):
    """The transcripts that this run plays."""
    return [it for it in transcripts(folder) if Clock.has_long or not it.is_long]


class Transform:
    """A row of the table: two concurrent operations, what each becomes, and what is shown at the end."""

    def __init__(self, number, row):
        cells = [it.strip() for it in row.split("|")]
        self.kind, self.start, self.client, self.server, self.client_after, self.server_after, self.shown = cells
        self.number, self.text = number, row

    def closes(self):
        """Whether both ways round lead from the start to what is shown."""
        one = done(done(self.start, self.client, "x"), self.server_after, "y")
        other = done(done(self.start, self.server, "y"), self.client_after, "x")
        return one == other == " ".join([*self.start.split(" ")[:-1], self.shown])

    def is_in(self, window):
        """Whether the kit plays this row in this window."""
        return window in {"sequence": (LISTS_WINDOW, TEXTS_WINDOW), "list": (LISTS_WINDOW,)}.get(self.kind, (SETTINGS_WINDOW,))


def done(state, operation, letter):
    """What an operation makes of a sequence of letters, or of a setting with its bounds before it."""
    verb, _, rest = operation.partition(" ")
    if verb == "no":
        return state
    if verb == "set":
        return " ".join([*state.split(" ")[:-1], rest])
    put, until = {"ins": (letter, 0), "del": ("", 1), "rel": (letter.upper(), 1)}[verb]
    return state[: int(rest)] + put + state[int(rest) + until :]


def transforms():
    return [Transform(at + 1, row) for at, row in enumerate(rows_of("transforms"))]


class LineRow:
    """A line, its reader, and the number of the fault that the reader reports, or None if it takes the line."""

    def __init__(self, row):
        self.reader, fault, text = row.split(" ", 2)
        self.fault, self.text = None if fault == "taken" else int(fault), json.loads(text)
        self.name = f"lines: {self.reader} {self.text!r}"

    def rule(self):
        """The rule that the line shows, with its page."""
        if self.reader != "server" and "error " in self.text or self.reader == "greeting" and self.fault in (43, 50, 51):
            return CLIENT_RULE
        if self.fault is None or 40 <= self.fault <= 43:
            return LINES_RULE
        if self.fault == 44 and self.reader != "greeting":
            return SESSIONS_RULE
        return BOARDS_RULE if self.reader == "greeting" else REFUSALS_RULE


def lines_for(reader):
    return [it for it in map(LineRow, rows_of("lines")) if it.reader == reader]


class Answer:
    """A row of the table of answers: the place of a text that a client of protocol 4 receives, what the client does, and the text."""

    def __init__(self, row):
        self.place, self.outcome, text = row.split(" ", 2)
        self.text = text_of(text)
        self.name = f"answers: {self.place} {text}"

    def rule(self):
        return ANSWER_RULES[self.place]


def answers():
    return [Answer(it) for it in rows_of("answers")]


def rules():
    """Every rule that a transcript or a table shows."""
    shown = {it.rule for folder in FOLDERS for it in transcripts(folder)}
    lines = {it.rule() for reader in READERS for it in lines_for(reader)}
    return shown | lines | set(TRANSFORM_RULES.values()) | set(ANSWER_RULES.values())


def widget(word, number, start, value):
    """A widget of the table of transforms with a value, as it is printed. A list's labels are single letters."""
    if word == "slider":
        value = f"{start.rpartition(' ')[0]} {value}"
    letters = {"text": [f'"{value}"'], "list": [f'"{it}"' for it in value]}
    return " ".join([word, str(number), *letters.get(word, [value])])


def table_board(window):
    """The board of a table. That of the lines has one widget of each kind. That of the transforms has a widget for each row, with the row's number."""
    if window == LINES_WINDOW:
        return [f"window {window}", 'text 1 "Hi"', 'list 2 "red"', "toggle 3 off", "slider 4 -5 10 0"]
    rows = [it for it in transforms() if it.is_in(window)]
    return [f"window {window}", *(widget(WORDS.get(window, it.kind), it.number, it.start, it.start.split(" ")[-1]) for it in rows)]


def layout(limit):
    """The layout that a server of this limit opens with, as text, and for each window the number of items before those of its transcript. It raises Differs if the limit is none of the kit's."""
    if limit not in LIMITS:
        raise Differs(f"the kit has no parts for the limit {limit}: start the server with the limit {LIMIT} and the layout that `run layout` prints")
    boards = [it.board for it in transcripts("servers") if it.limit == limit]
    if limit == LIMIT:
        boards += [Board(table_board(it)) for it in (LINES_WINDOW, *TRANSFORM_WINDOWS)]
    lines, before, items = [], {}, 0
    for board in boards:
        for window in board.windows:
            assert window not in before, f"two transcripts have window {window}"
            before[window] = items
        lines += [renamed(it, {0: (0, items)}) for it in board.lines]
        items += board.items
    return "".join(f"{it}\n" for it in lines), before


def renamed(line, numbers):
    """A line whose names have the numbers that the sites really have, and count from another item on."""

    def name(found):
        site, item = int(found[1]), int(found[2])
        actual, before = numbers.get(site, (site, 0))
        return f"{actual}.{item + before}"

    return re.sub(r"(?<![\w.])(0|[1-9]\d*)\.(0|[1-9]\d*)(?![\w.])", name, line)
