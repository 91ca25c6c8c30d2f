"""Operations and boards of the fakes, with as little as a server and a client need."""
import re

NUM, INT, NAME = r"(0|[1-9]\d*)", r"(0|-?[1-9]\d*)", r"(0|[1-9]\d*)\.(0|[1-9]\d*)"
LABEL = r"([ -~]{1,48})"
BODIES = {
    ("text", "ins"): rf"{NUM} {NAME} {NUM}",
    ("text", "del"): rf"{NUM} {NAME}",
    ("list", "ins"): rf"{NUM} {NAME} {LABEL}",
    ("list", "del"): rf"{NUM} {NAME}",
    ("list", "rel"): rf"{NUM} {NAME} {LABEL}",
    ("toggle", "set"): r"(on|off)",
    ("slider", "set"): INT,
}
# How many windows a board may have, and how many widgets a window. From LONGEST items on no command inserts.
MOST_IDS, LONGEST = 64, 65_536


class Fault(Exception):
    """A fault, by its number."""

    def __init__(self, number):
        super().__init__(number)
        self.number = number


class Op:
    """An operation on one widget. `verb` is ins, del, rel, set or no. The value in a text is a code point."""

    def __init__(self, win, wid, kind, verb, place=0, name=None, value=None):
        self.win, self.wid, self.kind, self.verb, self.place, self.name, self.value = win, wid, kind, verb, place, name, value

    def __str__(self):
        named = f"{self.place} {self.name[0]}.{self.name[1]}" if self.name else ""
        value = "" if self.value is None else str(self.value)
        return " ".join(it for it in (str(self.win), str(self.wid), self.kind, self.verb, named, value) if it)

    def at(self, place):
        return Op(self.win, self.wid, self.kind, self.verb, place, self.name, self.value)

    def nothing(self):
        return Op(self.win, self.wid, self.kind, "no")


def number(text, below=2**32):
    if int(text) >= below:
        raise Fault(40)
    return int(text)


def signed(text):
    if not -(2**31) <= int(text) < 2**31:
        raise Fault(40)
    return int(text)


def scalar(text):
    if int(text) >= 0x110000 or 0xD800 <= int(text) < 0xE000:
        raise Fault(40)
    return int(text)


def read_op(words):
    """The operation that `W I BODY` spells."""
    found = re.fullmatch(rf"{NUM} {NUM} (text|list|toggle|slider) (\w+)(?: (.*))?", words)
    if not found:
        raise Fault(40)
    win, wid, kind, verb, rest = number(found[1], 2**16), number(found[2], 2**16), found[3], found[4], found[5]
    if verb == "no" and rest is None:
        return Op(win, wid, kind, verb)
    parts = re.fullmatch(BODIES.get((kind, verb), "(?!)"), rest or "")
    if not parts:
        raise Fault(40)
    if verb == "set":
        return Op(win, wid, kind, verb, value=rest if kind == "toggle" else signed(rest))
    place, name = number(parts[1]), (number(parts[2]), number(parts[3]))
    value = parts[4] if verb in ("ins", "rel") else None
    return Op(win, wid, kind, verb, place, name, scalar(value) if value and kind == "text" else value)


class Widget:
    """A text or a list with its items, each a name and a value, or a toggle or a slider with its value."""

    def __init__(self, kind, value=None, low=0, high=0):
        self.kind, self.value, self.low, self.high, self.items, self.names = kind, value, low, high, [], set()

    def copy(self):
        made = Widget(self.kind, self.value, self.low, self.high)
        made.items, made.names = list(self.items), set(self.names)
        return made

    def put(self, place, name, value):
        self.items.insert(place, (name, value))
        self.names.add(name)

    def line(self, wid):
        """The line of the widget in a layout, without its items."""
        bounds = f"{self.low} {self.high} " if self.kind == "slider" else ""
        return f"{self.kind} {wid}" if self.value is None else f"{self.kind} {wid} {bounds}{self.value}"


class Board:
    """A board: windows by their ids, and in each its widgets by their ids."""

    def __init__(self):
        self.windows, self.window, self.last = {}, None, None

    def read_line(self, line):
        """Adds the window, widget or item of a line of a board, or refuses it."""
        word, *rest = line.split(" ", 2)
        if word == "window":
            self.window = self.windows[self.free_id(rest[0], self.windows)] = {}
        elif word in ("char", "item"):
            self.read_item(word, *rest)
        else:
            self.read_widget(word, *rest)

    def read_widget(self, kind, wid, value=None):
        if self.window is None:
            raise Fault(44)
        widget = Widget(kind, value)
        if kind == "slider":
            widget.low, widget.high, widget.value = map(signed, value.split(" "))
            if not widget.low <= widget.value <= widget.high:
                raise Fault(13)
        self.last = self.window[self.free_id(wid, self.window)] = widget

    def read_item(self, word, name, value):
        if not self.last or self.last.kind != {"char": "text", "item": "list"}[word]:
            raise Fault(44)
        site, _, count = name.partition(".")
        name = number(site), number(count)
        if self.holds(self.last, name):
            raise Fault(45)
        self.last.put(len(self.last.items), name, scalar(value) if word == "char" else value)

    def free_id(self, text, taken):
        """The id that a text spells, if it may be added to those that are taken."""
        given = number(text, 2**16)
        if given == 0:
            raise Fault(12)
        if given in taken:
            raise Fault(10)
        if self.is_full(taken):
            raise Fault(11)
        return given

    def is_full(self, taken):
        return len(taken) >= MOST_IDS

    def holds(self, widget, name):
        """Whether a sequence has an item of this name."""
        return name in widget.names

    def in_order(self, ids):
        return sorted(ids)

    def lines(self):
        for win in self.in_order(self.windows):
            yield f"window {win}"
            for wid in self.in_order(self.windows[win]):
                widget = self.windows[win][wid]
                yield widget.line(wid)
                word = "char" if widget.kind == "text" else "item"
                yield from (f"{word} {site}.{count} {value}" for (site, count), value in widget.items)

    def apply_all(self, ops):
        """Applies an edit's operations in order, or none of them."""
        before = self.kept(ops)
        try:
            self.no_name_twice(ops)
            for op in ops:
                self.apply(op)
        except Fault:
            self.put_back(before)
            raise

    def no_name_twice(self, ops):
        """Refuses an edit in which an operation inserts a name that an earlier one inserted or deleted."""
        seen = set()
        for op in ops:
            if op.verb == "ins" and op.name in seen:
                raise Fault(23)
            if op.verb in ("ins", "del"):
                seen.add(op.name)

    def kept(self, ops):
        """Copies of the widgets that these operations change."""
        ids = {(it.win, it.wid) for it in ops if it.wid in self.windows.get(it.win, {})}
        return {(win, wid): self.windows[win][wid].copy() for win, wid in ids}

    def put_back(self, before):
        for (win, wid), widget in before.items():
            self.windows[win][wid] = widget

    def apply(self, op):
        """Applies the operation, or refuses it if it does not fit."""
        widget = self.windows.get(op.win, {}).get(op.wid)
        if not widget or widget.kind != op.kind:
            raise Fault(23)
        if op.verb == "set":
            if op.kind == "slider" and not widget.low <= op.value <= widget.high:
                raise Fault(23)
            widget.value = op.value
        elif op.verb == "ins":
            if op.place > len(widget.items) or self.holds(widget, op.name):
                raise Fault(23)
            widget.put(op.place, op.name, op.value)
        elif op.verb != "no":
            self.change_item(widget, op)

    def change_item(self, widget, op):
        """Deletes or relabels an item."""
        if op.place >= len(widget.items) or widget.items[op.place][0] != op.name:
            raise Fault(23)
        if op.verb == "rel":
            widget.items[op.place] = (op.name, op.value)
        else:
            del widget.items[op.place]
            widget.names.discard(op.name)
