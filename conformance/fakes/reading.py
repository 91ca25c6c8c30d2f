"""Reads lines of a link strictly, and commands as a client's user types them."""
import re
import select

from boards import NUM, Fault, number, read_op

WORDS = {
    "hello": NUM,
    "welcome": f"{NUM} {NUM}",
    "window": NUM,
    "text": NUM,
    "list": NUM,
    "toggle": rf"{NUM} (?:on|off)",
    "slider": rf"{NUM}(?: (?:0|-?[1-9]\d*)){{3}}",
    "char": rf"{NUM}\.{NUM} {NUM}",
    "item": rf"{NUM}\.{NUM} [ -~]{{1,48}}",
    "ready": "",
    "batch": f"{NUM} {NUM} {NUM}",
    "ack": NUM,
    "ping": NUM,
    "pong": NUM,
    "bye": "",
    "error": NUM,
}
LONGEST_LINE = 256


class Lines:
    """The lines that come on a connection, as texts. It reports 41 if 256 bytes have no line feed, and 43 if the bytes end within a line."""

    def __init__(self, connection):
        self.connection, self.held, self.at = connection, b"", 0

    def next(self):
        """The next line, or None at the end."""
        while (end := self.held.find(b"\n", self.at)) < 0 and len(self.held) - self.at < LONGEST_LINE:
            data = self.connection.recv(65536)
            if not data:
                if self.at < len(self.held):
                    raise Fault(43)
                return None
            self.held, self.at = self.part() + data, 0
        if end < 0 or end - self.at >= LONGEST_LINE:
            raise Fault(41)
        line, self.at = self.held[self.at : end], end + 1
        return line.decode("latin-1")

    def part(self):
        """The part of a line that the next piece goes on with."""
        return self.held[self.at :]

    def is_there(self):
        """Whether a line, or a part of one, has come."""
        return self.at < len(self.held) or bool(select.select([self.connection], [], [], 0)[0])


class Grammar:
    """Reads a line of a link: its first word, and the numbers or the text after it."""

    def read(self, line):
        word, space, rest = line.partition(" ")
        if word == "do":
            return word, [self.read_op(rest)]
        if word not in WORDS or bool(space) != bool(WORDS[word]) or not re.fullmatch(WORDS[word], rest):
            raise Fault(40)
        numbers = [number(it) for it in rest.split(" ")] if re.fullmatch(r"\d+( \d+)*", rest) else [rest]
        if word == "hello" and numbers != [3]:
            raise Fault(42)
        if word == "batch" and not 1 <= numbers[2] <= 32:
            raise Fault(40)
        return word, numbers

    def read_op(self, rest):
        return read_op(rest)


class Gathering:
    """Gathers the lines of a batch."""

    def __init__(self):
        self.counts, self.left, self.ops = [], 0, []

    def take(self, word, rest):
        """The message that a line ends, as its first word and its fields, or None within a batch."""
        if self.left != 0 if word != "do" else self.left == 0:
            raise Fault(44)
        if word == "batch":
            self.counts, self.left, self.ops = rest[:2], rest[2], []
            return None
        if word != "do":
            return word, rest
        self.left, self.ops = self.left - 1, [*self.ops, *rest]
        return None if self.left else ("batch", [*self.counts, self.ops])


QUOTED = r'"((?:[ !#-\[\]-~]|\\"|\\\\|\\u\{(?:0|[1-9a-f][0-9a-f]*)\})*)"'
SHAPES = {"ins": rf"{NUM} (char|item) {QUOTED}", "del": NUM, "rel": rf"{NUM} {QUOTED}", "set": r"(on|off|0|-?[1-9]\d*)"}


def unquoted(text):
    """What the text between two quotes spells, or None if that is not its one spelling."""
    found = re.sub(r'\\u\{(\w+)\}|\\(["\\])', lambda it: it[2] or char_of(int(it[1], 16)), text)
    return found if quoted(found) == f'"{text}"' else None


def char_of(value):
    return chr(value) if value < 0x110000 and not 0xD800 <= value < 0xE000 else ""


def quoted(text):
    return '"' + re.sub(r"[^ !#-\[\]-~]", escaped, text) + '"'


def escaped(found):
    char = found[0]
    return f"\\{char}" if char in '"\\' else f"\\u{{{ord(char):x}}}"


class Commands:
    """Reads the commands of a user, one from each line."""

    longest_label = 48

    def batch_count(self, line):
        """How many commands the batch has that a line begins, or None if it begins none."""
        found = re.fullmatch(r"batch (\d|[1-5]\d|6[0-4])", line)
        return int(found[1]) if found else None

    def read(self, line):
        """A command's word, its ids, its place or setting, the kind of its value, and its value. None if the line is no command."""
        found = re.fullmatch(rf"(ins|del|rel|set) {NUM} {NUM} (.*)", line)
        parts = found and re.fullmatch(SHAPES[found[1]], found[4])
        if not parts or max(int(found[2]), int(found[3])) > 65_535:
            return None
        word, win, wid = found[1], int(found[2]), int(found[3])
        if word == "set":
            is_in_range = parts[1] in ("on", "off") or -(2**31) <= int(parts[1]) < 2**31
            return (word, win, wid, parts[1], None, None) if is_in_range else None
        if int(parts[1]) >= 2**32:
            return None
        if word == "del":
            return word, win, wid, int(parts[1]), None, None
        value, kind = unquoted(parts[parts.lastindex]), parts[2] if word == "ins" else "item"
        return (word, win, wid, int(parts[1]), kind, value) if value is not None and self.is_value(kind, value) else None

    def is_value(self, kind, value):
        return len(value) == 1 if kind == "char" else bool(re.fullmatch(rf"[ -~]{{1,{self.longest_label}}}", value))
