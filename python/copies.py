"""copies: a text of the board with the names of its characters, and what a new link does about the edits of an earlier link of one `jupfile`. All functions are pure.

A server takes the edits of a link in their order, and none once the link is over. Each inserted character has a name, the number of the site and its own, and none is given twice. So the names show which of the earlier edits the server has taken.
"""
import collections
from collections.abc import Iterable
from typing import NamedTuple

Name = tuple[int, int]
# A number after all insertions.
ALL = 2**32
# The words of a line that begins a widget.
WIDGETS = (b"text", b"list", b"toggle", b"slider")


class Copy(NamedTuple):
    """A text of the board, and the name of each of its characters."""

    names: list[Name]
    text: str

    def runs(self) -> list[tuple[int, int, str]]:
        """The same as stretches of characters that one site inserted in turn: the site, the first number and the characters."""
        starts = [at for at, (site, number) in enumerate(self.names) if at == 0 or self.names[at - 1] != (site, number - 1)]
        return [(*self.names[at], self.text[at:end]) for at, end in zip(starts, [*starts[1:], len(self.names)])]


def copy_of(runs: Iterable[tuple[int, int, str]]) -> Copy:
    """The copy that has these stretches."""
    runs = list(runs)
    names = [(site, first + at) for site, first, text in runs for at in range(len(text))]
    return Copy(names, "".join(text for _, _, text in runs))


class Past(NamedTuple):
    """What a link left.

    `copy` has all edits of its `site`, also those that the server may not have taken. Up to the insertion `taken` it is known to have taken them. `gone` are characters that these edits deleted. `saved` has, of the sites of this file that inserted lately, the last insertion that a server has surely saved if it saves any. `token` names the link, and the client had `confirmed` so many of the server's lines.
    """

    site: int
    taken: int
    copy: Copy
    gone: list[Name]
    saved: dict[int, int]
    token: str | None
    confirmed: int

    def lost(self, now: Copy) -> set[Name]:
        """What the server had not taken of a link that is over. It takes the edits of a site in order."""
        last = max([self.taken, *(number for site, number in now.names if site == self.site)])
        return {(site, number) for site, number in self.copy.names if site == self.site and number > last}

    def restored(self, now: Copy) -> str:
        """The text that a new link finds, as it would be if the server had taken all. Each character that got lost comes after the one that it came after."""
        there, gone, lost, after, at = set(now.names), set(self.gone), self.lost(now), collections.defaultdict(list), None
        for name, char in zip(*self.copy):
            if name in there:
                at = name
            elif name in lost:
                after[at].append(char)
        return "".join([*after[None], *("".join([char, *after[name]]) for name, char in zip(*now) if name not in gone)])

    def known_text(self) -> str:
        """What a server is known to have that was started again with the board that it saved."""
        return "".join(char for name, char in zip(*self.copy) if not is_after(name, self.saved))


def is_after(name: Name, last: dict[int, int]) -> bool:
    """Whether a site inserted this after its last insertion of these. Of a site without one all came before."""
    site, number = name
    return number > last.get(site, number)


def opened(opening: bytes, win: int, wid: int) -> Copy:
    """A text as the server opens a link with it, of the lines from the last `welcome` up to `ready` (docs/WIRE.md)."""
    names, chars, at = [], [], (0, 0)
    start = opening.rindex(b"\nwelcome ")
    for line in opening[start : opening.index(b"\nready\n", start)].split(b"\n"):
        word, *rest = line.split(b" ")
        if word == b"window":
            at = (int(rest[0]), 0)
        elif word in WIDGETS:
            at = (at[0], int(rest[0]))
        elif word == b"char" and at == (win, wid):
            site, _, number = rest[0].partition(b".")
            names.append((int(site), int(number)))
            chars.append(chr(int(rest[1])))
    return Copy(names, "".join(chars))
