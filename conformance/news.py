"""The notes by which a server of many boards reports who is there, as the kit hears them among other lines (docs/WIRE.md, "Between the answer and the link")."""
import re

from links import Differs, Lines, Link

NEWS = ("links", "full")
# `links` comes once a second at most. The kit may see a line later than it came, so it counts less.
PAUSE = 0.5


class NewsLines(Lines):
    """The lines of a server. Once the site has asked for news, these may come between any two lines. They are kept for when the transcript expects them."""

    def __init__(self, file):
        super().__init__(file)
        # The news that came last and that no step has expected, by their words. How many answers to `news` are due, and when `links` last came without one.
        self.kept, self.is_asked, self.answers, self.links_at = {}, False, 0, None

    def asks(self):
        self.is_asked, self.answers = True, self.answers + 1

    def is_news(self, line):
        return self.is_asked and line.split(" ", 1)[0] in NEWS

    def next(self, due="a line"):
        """The next line that is no news. After the last line of a link no news comes."""
        line = super().next(due)
        while self.is_news(line):
            self.hears(line)
            line = super().next(due)
        self.is_asked &= line != "bye" and not line.startswith("error ")
        return line

    def hears(self, line):
        """Notes news, and reports `links` that come too soon after others."""
        if not re.fullmatch(r"links (0|[1-9]\d*)|full", line):
            raise Differs(f"expected 'links N' or 'full', but got {line!r}")
        self.kept[line.split(" ")[0]] = line
        if line == "full":
            return
        if self.answers:
            self.answers -= 1
            return
        if self.links_at and self.came_at - self.links_at < PAUSE:
            raise Differs(f"{line!r} comes {self.came_at - self.links_at:.2f} seconds after the last `links`")
        self.links_at = self.came_at

    def hear(self, wanted):
        """Tests that these news come before any other line, unless they have come already. `links` with another count may come before."""
        word, due = wanted.split(" ")[0], repr(wanted)
        while (found := self.kept.pop(word, None)) != wanted:
            due = f"{wanted!r} after {found!r}" if found else due
            line = super().next(due)
            if not self.is_news(line):
                raise Differs(f"expected {due}, but got {line!r}")
            self.hears(line)


class NewsLink(Link):
    """A link on which news may come."""

    kind = NewsLines
