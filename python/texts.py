"""texts: how two texts differ, how three merge, and what a file has to be. All functions are pure.

A difference is a list of `Hunk`s, ascending and apart. Both it and a merge take a time linear in the lengths of the texts.
"""
import collections
import functools
import itertools
import re
from bisect import bisect_left
from collections.abc import Iterable, Iterator
from typing import NamedTuple

# The most characters that people may insert into a text of the board, and the most commands of an edit.
MOST_CHARACTERS, MOST_COMMANDS = 65_536, 32
# What texts are cut into to compare them: first lines, then words, each with the white space after it, then single characters.
LINES, WORDS, CHARACTERS = re.compile(r"[^\n]*\n|[^\n]+"), re.compile(r"\S+\s*|\s+"), re.compile(r"(?s).")
Grains = tuple[re.Pattern[str], ...]
# How often a grain is tried again between what it found equal.
MOST_ROUNDS = 3
# From how many characters on a changed word is compared by characters, as where a language has no spaces.
LONG_WORD = 32
# After how many seconds without a change a file counts as saved although it has lost its end, and after how many it does although it still grows.
CUT, LONGEST_CUT = 3.0, 5.0
# How many seconds an editor may take from reading a file to saving it without reading it again.
READ_AGO = 5.0
# How many characters may differ for single characters to be compared, and how many steps that may take for each character.
MOST_DIFFERENT, STEPS = 64, 4


class Hunk(NamedTuple):
    """The characters from `start` to before `end` become `text`."""

    start: int
    end: int
    text: str


class Step(NamedTuple):
    """Inserts a character before the one at a place, or deletes the one there if `char` is None."""

    place: int
    char: str | None


class Unfit(Exception):
    """The bytes of a file are no text of a board, and why."""


def read_text(data: bytes) -> str:
    """The text of a file. Its line ends stay as they are."""
    try:
        text = data.decode("utf-8")
    except UnicodeDecodeError as wrong:
        raise Unfit(f"byte {wrong.start + 1} is no UTF-8") from None
    if "\0" in text:
        raise Unfit(f"character {text.index(chr(0)) + 1} is NUL, so it seems to be no text")
    if len(text) > MOST_CHARACTERS:
        raise Unfit(f"it has {len(text):,} characters, and a text takes {MOST_CHARACTERS:,}")
    return text


def difference(old: str, new: str) -> list[Hunk]:
    """What makes `new` of `old`: common ends are left out first, then lines, words and characters are compared."""
    return list(_known_difference(old, new))


@functools.lru_cache(maxsize=4)
def _known_difference(old: str, new: str) -> tuple[Hunk, ...]:
    """The same, found once for the texts that were asked for last."""
    return tuple(_joined(_compared(old, new, 0, (LINES, WORDS, CHARACTERS))))


def apply(old: str, hunks: Iterable[Hunk]) -> str:
    """The text that hunks make of another."""
    pieces, at = [], 0
    for start, end, text in hunks:
        pieces += [old[at:start], text]
        at = end
    return "".join([*pieces, old[at:]])


def size(hunks: Iterable[Hunk]) -> tuple[int, int]:
    """How many characters hunks insert, and how many they delete."""
    hunks = list(hunks)
    return sum(len(it.text) for it in hunks), sum(it.end - it.start for it in hunks)


def has_lost_its_end(old: str, new: str) -> bool:
    """Whether `new` has less in the place of the last characters of `old`, as a file that is half written."""
    hunks = difference(old, new)
    return bool(hunks) and hunks[-1].end == len(old) and len(hunks[-1].text) < len(old) - hunks[-1].start


def merge(base: str, mine: str, theirs: str) -> str:
    """The text with what both sides did to `base`. A character of `base` is there if neither side deleted it. What one side inserted is there, and words that both inserted at one place are there once."""
    if mine in (base, theirs):
        return theirs
    if theirs == base:
        return mine
    pieces, at = [], 0
    for start, end, mine_there, theirs_there in _regions(difference(base, mine), difference(base, theirs)):
        kept = base[start:end]
        pieces += [base[at:start], _both(_Side(kept, start, mine_there), _Side(kept, start, theirs_there))]
        at = end
    return "".join([*pieces, base[at:]])


def started_from(versions: list[str], saved: str) -> str:
    """Which of the versions of a file an editor had read that then saved this: the one into which it inserted least. Of several it is the one of which the editor deleted least, and of several the last. So a file that is half written comes from the version of which it is a part."""
    best, least = versions[-1], size(difference(versions[-1], saved))
    for version in reversed(versions[:-1]):
        # A difference has at least as many characters as one text is longer than the other.
        more = len(saved) - len(version)
        if (max(more, 0), max(-more, 0)) < least and (found := size(difference(version, saved))) < least:
            best, least = version, found
    return best


def edits(old: str, new: str) -> Iterator[list[Step]]:
    """The edits that make `new` of `old`, each of at most 32 steps. Deletions come first, so that the text is never longer than the longer of the two. A word is not cut, unless it is longer than an edit."""
    batch: list[Step] = []
    for piece in _pieces(old, difference(old, new)):
        if len(batch) + len(piece) > MOST_COMMANDS:
            yield batch
            batch = []
        batch = batch + piece
    if batch:
        yield batch


def _pieces(old: str, hunks: list[Hunk]) -> Iterator[list[Step]]:
    """Steps that stay together. The deletions go from the end to the beginning, so that none moves another, and the insertions the other way."""
    for start, end, _ in reversed(hunks):
        for word in reversed(list(WORDS.finditer(old, start, end))):
            yield from _words_of(word[0], [Step(word.start(), None)] * len(word[0]))
    moved = 0
    for start, end, text in hunks:
        steps = [Step(start + moved + at, char) for at, char in enumerate(text)]
        yield from _words_of(text, steps)
        moved += len(text) - (end - start)


def _words_of(text: str, steps: list[Step]) -> Iterator[list[Step]]:
    """The steps of each word, or of as much of it as an edit takes."""
    for word in WORDS.finditer(text):
        yield from (steps[at : min(at + MOST_COMMANDS, word.end())] for at in range(word.start(), word.end(), MOST_COMMANDS))


def _changes(hunk: Hunk) -> bool:
    return hunk.start < hunk.end or hunk.text != ""


def _joined(hunks: Iterable[Hunk]) -> list[Hunk]:
    """The hunks that change something, with those that touch made one."""
    found: list[Hunk] = []
    for hunk in filter(_changes, hunks):
        if found and found[-1].end == hunk.start:
            hunk = Hunk(found[-1].start, hunk.end, found.pop().text + hunk.text)
        found.append(hunk)
    return found


# How two texts are compared.


def _common_start(one: str, other: str) -> int:
    """How many characters two texts begin with that are the same."""
    low, high = 0, min(len(one), len(other))
    while low < high:
        middle = (low + high + 1) // 2
        if one[low:middle] == other[low:middle]:
            low = middle
        else:
            high = middle - 1
    return low


def _is_between(text: str, at: int) -> bool:
    """Whether a cut there leaves each word whole, with the white space after it."""
    return at in (0, len(text)) or text[at - 1].isspace() and not text[at].isspace()


def _common_ends(old: str, new: str, grains: Grains) -> tuple[int, int]:
    """How many characters at the beginning, and how many at the end, are the same. They end between words, unless characters are compared too and are only inserted or only deleted."""
    first, last = _common_start(old, new), _common_start(old[::-1], new[::-1])
    short, long = sorted((old, new), key=len)
    if first + last >= len(short):
        fits = (at for at in range(first, len(short) - last - 1, -1) if _is_between(long, at) and _is_between(long, at + len(long) - len(short)))
        first = next(fits, first if CHARACTERS in grains else -1)
        if first >= 0:
            return first, len(short) - first
        first = len(short) - last
    last = min(last, len(short) - first)
    while not (_is_between(old, first) and _is_between(new, first)):
        first -= 1
    while not (_is_between(old, len(old) - last) and _is_between(new, len(new) - last)):
        last -= 1
    return first, last


def _compared(old: str, new: str, start: int, grains: Grains, rounds: int = MOST_ROUNDS) -> Iterator[Hunk]:
    """The hunks of a part of a text that begins at `start`."""
    first, last = _common_ends(old, new, grains)
    old, new, start = old[first : len(old) - last], new[first : len(new) - last], start + first
    if not grains or not old or not new:
        yield Hunk(start, start + len(old), new)
    elif grains[0] is CHARACTERS:
        yield from _by_characters(old, new, start)
    else:
        yield from _by_pieces(old, new, start, grains, rounds)


def _by_pieces(old: str, new: str, start: int, grains: Grains, rounds: int) -> Iterator[Hunk]:
    """The hunks between the pieces of a grain that are equal. Without such pieces the next grain is tried."""
    found = _equal_pieces(old, new, grains[0]) if rounds else []
    grains, rounds = (grains, rounds - 1) if found else (grains[1:], MOST_ROUNDS)
    old_at = new_at = 0
    for old_start, new_start, length in [*found, (len(old), len(new), 0)]:
        yield from _compared(old[old_at:old_start], new[new_at:new_start], start + old_at, grains, rounds)
        old_at, new_at = old_start + length, new_start + length


def _equal_pieces(old: str, new: str, grain: re.Pattern[str]) -> list[tuple[int, int, int]]:
    """Pieces that each text has once, in the order that both have: where they begin in each, and their length."""
    in_old, in_new = _once(old, grain), _once(new, grain)
    both = [(at, in_new[piece], len(piece)) for piece, at in in_old.items() if piece in in_new]
    return [both[it] for it in _longest_rise([it[1] for it in both])]


def _once(text: str, grain: re.Pattern[str]) -> dict[str, int]:
    """Where the pieces are that the text has once, in their order."""
    pieces = grain.findall(text)
    counts, starts = collections.Counter(pieces), itertools.accumulate(map(len, pieces), initial=0)
    return {piece: start for piece, start in zip(pieces, starts) if counts[piece] == 1}


def _longest_rise(numbers: list[int]) -> list[int]:
    """The indices of a longest rising part of the numbers, which are all different."""
    ends: list[int] = []
    ends_at: list[int] = []
    before: list[int] = []
    for index, number in enumerate(numbers):
        at = bisect_left(ends, number)
        before.append(ends_at[at - 1] if at else -1)
        ends[at : at + 1] = [number]
        ends_at[at : at + 1] = [index]
    found, index = [], ends_at[-1] if ends_at else -1
    while index >= 0:
        found.append(index)
        index = before[index]
    return found[::-1]


def _by_characters(old: str, new: str, start: int) -> Iterator[Hunk]:
    """The hunks of single characters in a long word of which most are the same, or else one hunk of all. So no short word is made of the letters of another."""
    trace = _trace(old, new) if max(len(old), len(new)) > LONG_WORD else None
    if trace is None:
        return iter([Hunk(start, start + len(old), new)])
    return (Hunk(start + at, start + end, text) for at, end, text in reversed(list(_steps_back(trace, old, new))))


def _trace(old: str, new: str) -> list[dict[int, int]] | None:
    """How far into `old` each number of changes comes, by how much more is deleted than inserted. None if too much differs."""
    reach, trace, left = {1: 0}, [], STEPS * (len(old) + len(new))
    for changes in range(min(MOST_DIFFERENT, (len(old) + len(new)) // 3) + 1):
        trace.append(dict(reach))
        for more in range(-changes, changes + 1, 2):
            at = _next_reach(reach, more, changes)
            end = at + _same_run(old, new, at, at - more)
            reach[more] = end
            left -= end - at + 1
            if end >= len(old) and end - more >= len(new):
                return trace
        if left < 0:
            break
    return None


def _next_reach(reach: dict[int, int], more: int, changes: int) -> int:
    """Where a path comes by an insertion, or by a deletion if that comes further."""
    if more == -changes or (more != changes and reach[more - 1] < reach[more + 1]):
        return reach[more + 1]
    return reach[more - 1] + 1


def _same_run(old: str, new: str, old_at: int, new_at: int) -> int:
    """How many characters are the same from these places on."""
    end, most = 0, min(len(old) - old_at, len(new) - new_at)
    while end < most and old[old_at + end] == new[new_at + end]:
        end += 1
    return end


def _steps_back(trace: list[dict[int, int]], old: str, new: str) -> Iterator[Hunk]:
    """The single changes of a path, the last first."""
    old_at, new_at = len(old), len(new)
    for changes in range(len(trace) - 1, 0, -1):
        reach, more = trace[changes], old_at - new_at
        if more == -changes or (more != changes and reach[more - 1] < reach[more + 1]):
            old_at = reach[more + 1]
            new_at = old_at - more - 1
            yield Hunk(old_at, old_at, new[new_at])
        else:
            old_at = reach[more - 1]
            new_at = old_at - more + 1
            yield Hunk(old_at, old_at + 1, "")


# How three texts merge.


def _regions(mine: list[Hunk], theirs: list[Hunk]) -> Iterator[tuple[int, int, list[Hunk], list[Hunk]]]:
    """The parts of the base in which something changed: where each begins and ends, and the hunks of the two sides in it. Hunks that touch are in one part."""
    sides = sorted([(hunk, 0) for hunk in mine] + [(hunk, 1) for hunk in theirs])
    there: tuple[list[Hunk], list[Hunk]] = ([], [])
    start, end = 0, -1
    for hunk, side in sides:
        if hunk.start > end:
            if end >= 0:
                yield start, end, *there
            there, start = ([], []), hunk.start
        there[side].append(hunk)
        end = max(end, hunk.end)
    if end >= 0:
        yield start, end, *there


class _Side:
    """What a side made of a part of the base, and which of its characters it inserted."""

    def __init__(self, kept: str, start: int, hunks: list[Hunk]) -> None:
        pieces, own, at = [], bytearray(), 0
        for hunk in hunks:
            before = kept[at : hunk.start - start]
            pieces += [before, hunk.text]
            own += bytes(len(before)) + b"\1" * len(hunk.text)
            at = hunk.end - start
        self.text = "".join([*pieces, kept[at:]])
        self.own = own + bytes(len(kept) - at)

    def inserted(self, start: int, end: int) -> str:
        """Those characters of a part of the text that this side inserted."""
        return "".join(itertools.compress(self.text[start:end], self.own[start:end]))


def _both(mine: _Side, theirs: _Side) -> str:
    """A part in which no character of the base was kept by both: what both have, and what each inserted."""
    pieces, at, theirs_at = [], 0, 0
    for start, end, text in _joined(_compared(mine.text, theirs.text, 0, (LINES, WORDS))):
        theirs_at += start - at
        theirs_end = theirs_at + len(text)
        pieces += [mine.text[at:start], theirs.inserted(theirs_at, theirs_end), mine.inserted(start, end)]
        at, theirs_at = end, theirs_end
    return "".join([*pieces, mine.text[at:]])


# What a file and a text of a board are to become.


class Whole:
    """Tells a whole text from one that is half written. The file had one of the texts `had`, and has `half` since the moment `begun`, if it may be half written."""

    def __init__(self, had: list[str]) -> None:
        self.had, self.half, self.begun = list(had), None, 0.0

    def has_come(self, data: bytes, since: float, now: float) -> bool:
        """Whether bytes that the file has since a moment count as whole. They may end within a character."""
        text = data.decode("utf-8", "replace")
        if self.half is not None and not text.startswith(self.half):
            # Nobody went on there, so it was whole.
            self.had, self.half = [self.half], None
        if self.half is None:
            self.begun = since
        # A text that waits was cut when it came, so it is not compared again.
        if (text == self.half or self.is_cut(text)) and now - since < CUT and now - self.begun < LONGEST_CUT:
            self.half = text
            return False
        self.had, self.half = [text], None
        return True

    def is_cut(self, text: str) -> bool:
        return has_lost_its_end(started_from(self.had, text), text)


class Origin(NamedTuple):
    """The inode of the file into which somebody saved a text, and when. At the moment `then` the file still had what was taken before, and at `since` it had the text."""

    inode: int
    then: float
    since: float


class Cut(NamedTuple):
    """Somebody saved a text, which the file had since a moment. It has lost its end, so the rest is perhaps still to be written. They may have read one of `versions`. Both sides were to have `before`, and are to have `wanted` by this alone."""

    since: float
    versions: list[str]
    before: str
    wanted: str


class Shared:
    """A file and a text of a board on their way to be equal.

    `board` is what the board has, and `mine` what both are to have. The last of `versions` is what the file has, and those before it are what an editor may have read that has not saved yet. Each has the moment from which the file had it. `cuts` are the saves that may be half written, by the inode of their file.
    """

    def __init__(self, board: str, mine: str, versions: list[str], cuts: dict[int, Cut], now: float) -> None:
        """A start: the board had `board`, and both were to have `mine`."""
        self.board, self.mine = board, mine
        self.versions = [(now, it) for it in versions]
        self.cuts = {inode: it._replace(since=now) for inode, it in cuts.items()}

    @property
    def file(self) -> str:
        """What the file has."""
        return self.versions[-1][1]

    def saved(self, text: str, origin: Origin) -> None:
        """Somebody saved the file. What they changed of the version that they had read is to be done to both. A version that was there already stays one of several."""
        self.forget_old(origin.then)
        lately = self.read_lately()
        self.strayed(lately, text, origin)
        others = [it for it in self.versions if it[1] != text] if text in lately else []
        self.versions = [*others, (origin.then, text)]

    def strayed(self, versions: list[str], text: str, origin: Origin) -> None:
        """Somebody saved this text, and had read one of these versions. If the file had a text that may have been half written, this one counts as saved in its place."""
        cut = self.cuts.pop(origin.inode, Cut(origin.since, versions, self.mine, self.mine))
        read = started_from(cut.versions, text)
        wanted = merge(read, text, cut.before)
        # What the second text inserts comes first, so that it goes on right where the first one ended.
        self.mine = merge(cut.wanted, self.mine, wanted)
        if has_lost_its_end(read, text):
            self.cuts[origin.inode] = Cut(origin.since, list(cut.versions), cut.before, wanted)

    def read_lately(self) -> list[str]:
        """The versions of the file that an editor may have read."""
        return [it for _, it in self.versions]

    def changed(self, board: str) -> None:
        """Others changed the board."""
        self.mine, self.board = merge(self.board, self.mine, board), board

    def wrote(self, now: float) -> None:
        """The file was written, and has what both are to have."""
        self.versions.append((now, self.mine))

    def forget_old(self, then: float) -> None:
        """Forgets the versions that had been replaced long before a moment, and what was cut long before it."""
        later = [at for at, _ in self.versions[1:]]
        self.versions = [it for it, end in zip(self.versions, [*later, then]) if end > then - READ_AGO]
        self.cuts = {inode: it for inode, it in self.cuts.items() if it.since > then - READ_AGO}
