"""The notes of protocol 4, as the parts of a server and those of a client read and count them."""
import re
import time

from links import END, Clock, Differs, is_as

WORDS = ("link", "resume", "resumed", "ended", "got")
GOT = r"got (0|[1-9]\d*)"
# For how many seconds at most a link of protocol 4 waits for a carrier.
MOST_SECONDS = 86_400
LINK = r"link ([0-9a-f]{32}) (0|[1-9]\d*)( kept)?"


def is_counted(line):
    """Whether a line counts, which is after the first one of a carrier."""
    return line != END and line.split(" ", 1)[0] not in WORDS


def token_in(line):
    """The token of a `link`, or None if the line is none."""
    found = re.fullmatch(LINK, line)
    return found[1] if found and int(found[2]) <= MOST_SECONDS else None


def is_early(found, wanted):
    """Whether a line is a `got` that an end sent sooner than one or another line that is wanted."""
    count = re.fullmatch(GOT, found)
    if not count or is_as(wanted, found):
        return False
    return not wanted.startswith("got ") or wanted != "got *" and int(count[1]) < int(wanted.split(" ")[1])


def counted(line, before):
    """A `got` of a transcript with the count that its sender means, which has so many lines more."""
    found = re.fullmatch(r"got (0|-?[1-9]\d*)", line)
    return f"got {before + int(found[1])}" if found else line


def pieces(rest):
    """The count and the lines of a step `breaks after N bytes of LINES`."""
    count, lines = re.fullmatch(r"(\d+) bytes of (.*)", rest).groups()
    return int(count), lines


class Gots:
    """The counts that one end of a link has confirmed. Each has to be more than the one before it, or the same at a carrier's beginning and after a minute."""

    # For how many seconds an end does not confirm the same count again. It may after 60, and the kit may see a line later than it came.
    PAUSE = 20

    def __init__(self):
        # The last count, when that came, and whether this carrier may begin with the same.
        self.last, self.told, self.begins_again = 0, 0.0, True

    def begins(self, is_resumed):
        """A carrier begins."""
        self.begins_again, self.told = is_resumed, time.monotonic()

    def hears(self, line, came_at):
        """Notes a line that came at a time, and reports a `got` that confirms less than an earlier one, or no more where that is not due."""
        found = re.fullmatch(GOT, line)
        if not found:
            return
        if int(found[1]) < self.last:
            raise Differs(f"{line!r} confirms less than an earlier 'got {self.last}'")
        if int(found[1]) == self.last and not self.begins_again and came_at - self.told < self.PAUSE / Clock.speed:
            raise Differs(f"{line!r} confirms no more than an earlier one")
        self.last, self.told, self.begins_again = int(found[1]), came_at, False
