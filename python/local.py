"""local: the file that `jupfile` shares, and what it keeps beside the file. What is written here is whole at each moment, so that a start after a kill finds all of it.

The folder .FILE.jupfile beside the file has:

    lock            no other jupfile has the folder meanwhile
    state           what both sides had, and what was sent (State)
    was.I.S.M       a file that this program replaced, while an editor may still save into it. Its name is what the file was when it was read
    before          a copy of what was saved, where others had deleted some of it meanwhile, or it was no text
    new, state.new  what is being written
"""
import contextlib
import ctypes
import errno
import fcntl
import glob
import json
import os
import sys
from collections.abc import Iterator
from typing import NamedTuple

import copies
import texts

# How many seconds pass between two writes of the file.
PAUSE = 0.2
# After how many seconds without a change a file is read, and a shorter one, since an editor may not have written all of it yet.
SETTLED, SHORTER = 0.1, 1.0
# After how many seconds of changes a file is read although it is shorter.
LONGEST = 2.0
# How many seconds a file is watched that another has replaced, from the last change of it.
WATCHED = 5.0
# How many characters the versions have together that are kept beside the file, in any case the last two.
MOST_KEPT = 1_000_000
# `renameat2` of Linux swaps two files with this flag. Some file systems can't, and other systems have no such call.
SWAP, EXCHANGE, HERE = getattr(ctypes.CDLL(None, use_errno=True), "renameat2", None), 2, -100
NO_EXCHANGE = (errno.ENOSYS, errno.EINVAL, errno.ENOTSUP)
# The mode of what is kept, and what the mode of a new file leaves out.
OWN = 0o600
os.umask(UMASK := os.umask(0))


class Taken(Exception):
    """Another program has the folder."""


class Sign(NamedTuple):
    """What tells one state of a file from another."""

    inode: int
    size: int
    changed: int


def sign_of(path: str) -> Sign | None:
    """The state of a file, or None if it is not there."""
    try:
        state = os.stat(path)
    except FileNotFoundError:
        return None
    return Sign(state.st_ino, state.st_size, state.st_mtime_ns)


def read(path: str) -> bytes:
    """What a file has. A file that is not there has nothing."""
    try:
        with open(path, "rb") as file:
            return file.read()
    except FileNotFoundError:
        return b""


def own(path: str, flags: int) -> int:
    """Opens a file that nobody else may read, since it may have the token of a link."""
    return os.open(path, flags, OWN)


def write_whole(path: str, data: bytes, mode: int) -> None:
    """Writes a new file, and waits until the disk has it. A file of this name may have another name too, so nothing is written into it."""
    with contextlib.suppress(FileNotFoundError):
        os.unlink(path)
    with open(path, "wb", opener=own) as file:
        os.fchmod(file.fileno(), mode)
        file.write(data)
        file.flush()
        os.fsync(file.fileno())


def swap(one: str, other: str) -> int:
    """Swaps two files. Returns 0, or the number of the system's error."""
    if SWAP is None:
        return errno.ENOSYS
    failed = SWAP(HERE, os.fsencode(one), HERE, os.fsencode(other), EXCHANGE)
    return ctypes.get_errno() if failed else 0


def put_new(new: str, path: str) -> bool:
    """Puts a file where there is none. Returns whether there still was none."""
    try:
        os.link(new, path)
    except FileExistsError:
        return False
    except OSError:
        # The file system has no hard links.
        os.rename(new, path)
        return True
    os.unlink(new)
    return True


def put_in_place(new: str, was: str, path: str) -> bool:
    """Puts a file in the place of another, and the other in the place `was`. Returns whether it did.

    A swap is one step, so what somebody saves until then is in `was`. Without it there is no file for a moment, and what somebody saves in this moment stays.
    """
    os.rename(new, was)
    failed = swap(was, path)
    if not failed:
        return True
    os.rename(was, new)
    if failed == errno.ENOENT:
        return False
    if failed not in NO_EXCHANGE:
        raise OSError(failed, os.strerror(failed), path)
    os.rename(path, was)
    return put_new(new, path)


class Waiting:
    """Waits until a file is no longer being written. `taken` is the state that was read last, and `quiet` the last moment at which the file had it."""

    def __init__(self, taken: Sign | None, now: float) -> None:
        self.taken, self.coming, self.since, self.quiet = taken, taken, now, now

    def is_due(self, found: Sign | None, now: float) -> bool:
        """Whether a state is new, and has been there for long enough."""
        if found == self.taken:
            self.quiet = now
        if found != self.coming:
            self.coming, self.since = found, now
        wait = SHORTER if self.is_shorter() and now - self.quiet < LONGEST else SETTLED
        return found != self.taken and now - self.since >= wait

    def is_shorter(self) -> bool:
        return self.coming is None or self.coming.size == 0 or self.taken is not None and self.coming.size < self.taken.size

    def is_quiet(self) -> bool:
        return self.coming == self.taken

    def take(self, now: float) -> texts.Origin:
        """The file was read."""
        then, self.taken, self.quiet = self.quiet, self.coming, now
        return texts.Origin(self.taken.inode if self.taken else 0, then, self.since)


class Replaced(NamedTuple):
    """A file that another has replaced. It is watched for an editor that saved it just then or still has it open, and has read one of the versions."""

    path: str
    versions: list[str]
    waiting: Waiting
    whole: texts.Whole


class LocalFile:
    """The file, as editors save it and this program writes it."""

    def __init__(self, path: str, room: str, versions: list[str], now: float) -> None:
        """A start: the file had one of these versions, and so had the files that an earlier run replaced."""
        self.path, self.room = path, room
        # It is not known whether somebody is writing the file: each size counts as shorter than this one.
        self.waiting = Waiting(Sign(0, sys.maxsize, 0), now)
        found = glob.glob(f"{glob.escape(room)}/was.*")
        self.replaced = [Replaced(it, list(versions), Waiting(Sign(*map(int, it.rsplit(".", 3)[1:])), now), texts.Whole(versions)) for it in found]
        self.whole, self.written = texts.Whole(versions), 0.0

    def saved(self, now: float) -> tuple[bytes, texts.Origin] | None:
        """What somebody has saved since the last look."""
        found = sign_of(self.path)
        if not self.waiting.is_due(found, now):
            return None
        data = read(self.path)
        if sign_of(self.path) != found or found and not self.whole.has_come(data, self.waiting.since, now):
            return None
        return data, self.waiting.take(now)

    def is_there(self) -> bool:
        """Whether the last look found the file."""
        return self.waiting.taken is not None

    def can_be_written(self, now: float) -> bool:
        """Whether nobody is writing it, and the last write was some time ago."""
        return self.waiting.is_quiet() and sign_of(self.path) == self.waiting.taken and now - self.written >= PAUSE

    def write(self, text: str, versions: list[str], now: float) -> bool:
        """Writes the file whole, unless somebody just saved or deleted it. What it had before stays watched for a while. Returns whether it was written."""
        new, before = f"{self.room}/new", self.waiting.taken
        try:
            mode = os.stat(self.path).st_mode & 0o7777 if before else 0o666 & ~UMASK
            write_whole(new, text.encode(), mode)
            mine = sign_of(new)
            if sign_of(self.path) != before:
                return False
            is_written = self.replace(new, before, versions, now) if before else put_new(new, self.path)
        except FileNotFoundError:
            return False
        if is_written:
            self.waiting, self.whole, self.written = Waiting(mine, now), texts.Whole([text]), now
        return is_written

    def replace(self, new: str, before: Sign, versions: list[str], now: float) -> bool:
        was = f"{self.room}/was.{'.'.join(map(str, before))}"
        is_written = put_in_place(new, was, self.path)
        if sign_of(was):
            self.replaced = [it for it in self.replaced if it.path != was]
            self.replaced.append(Replaced(was, versions, Waiting(before, now), texts.Whole(versions)))
        return is_written

    def strays(self, now: float) -> Iterator[tuple[list[str], bytes, texts.Origin]]:
        """What somebody saved into a file that was replaced meanwhile, each with the versions that they may have read."""
        for it in self.replaced:
            if not it.waiting.is_due(sign_of(it.path), now):
                continue
            data = read(it.path)
            if it.whole.has_come(data, it.waiting.since, now):
                yield it.versions, data, it.waiting.take(now)

    def forget_replaced(self, now: float) -> None:
        """Deletes the replaced files that were watched for long enough. What was saved into them has been kept."""
        for it in [it for it in self.replaced if it.waiting.since + WATCHED < now and it.waiting.is_quiet() and sign_of(it.path) == it.waiting.taken]:
            os.unlink(it.path)
            self.replaced.remove(it)

    def versions(self, lately: list[str]) -> list[str]:
        """All versions that somebody may have read, the one that the file has at the end."""
        older = dict.fromkeys(text for it in self.replaced for text in it.versions if text not in lately)
        return [*older, *lately]


class State(NamedTuple):
    """What is kept: what the link left, what both sides were to have, and the versions of the file that are in it already. `cuts` are the saves that may be half written, by the inode of their file."""

    past: copies.Past | None
    mine: str
    versions: list[str]
    cuts: dict[int, texts.Cut]

    def to_json(self, board: str) -> str:
        past = self.past and {name: it.runs() if name == "copy" else list(it.items()) if isinstance(it, dict) else it for name, it in self.past._asdict().items()}
        cuts = [[inode, it._asdict()] for inode, it in self.cuts.items()]
        return json.dumps({"board": board, "past": past, "mine": self.mine, "versions": self.versions, "cuts": cuts})


NOTHING = State(None, "", [""], {})


def past_of(found: dict | None) -> copies.Past | None:
    if found is None:
        return None
    gone = list(map(tuple, found["gone"]))
    return copies.Past(found["site"], found["taken"], copies.copy_of(found["copy"]), gone, dict(found["saved"]), found.get("token"), found.get("confirmed", 0))


def latest(versions: list[str]) -> list[str]:
    """The last versions, of which there are not too many."""
    while len(versions) > 2 and sum(map(len, versions)) > MOST_KEPT:
        versions = versions[1:]
    return versions


class Kept:
    """The folder beside the file, and the state in it, which is of one text of one board."""

    def __init__(self, path: str, board: str) -> None:
        folder, name = os.path.split(path)
        self.room, self.board = f"{folder}/.{name}.jupfile", board
        os.makedirs(self.room, exist_ok=True)
        self.lock = open(f"{self.room}/lock", "wb")
        try:
            fcntl.flock(self.lock, fcntl.LOCK_EX | fcntl.LOCK_NB)
        except OSError:
            raise Taken(f"another jupfile has {path}") from None
        # Whose text an earlier run shared, if not this one.
        self.other_board = None
        self.state = self.read()

    def read(self) -> State:
        """What an earlier run kept, or nothing if there was none with this board."""
        data = read(f"{self.room}/state")
        if not data:
            return NOTHING
        found = json.loads(data)
        if found["board"] != self.board:
            self.other_board = found["board"]
            return NOTHING
        cuts = {inode: texts.Cut(**it) for inode, it in found.get("cuts", [])}
        return State(past_of(found["past"]), found["mine"], found["versions"], cuts)

    def keep(self, state: State) -> None:
        """Keeps a state. Of the versions it keeps the last."""
        cuts = {inode: it._replace(versions=latest(it.versions)) for inode, it in state.cuts.items()}
        self.state = state._replace(versions=latest(state.versions), cuts=cuts)
        write_whole(f"{self.room}/state.new", self.state.to_json(self.board).encode(), OWN)
        os.replace(f"{self.room}/state.new", f"{self.room}/state")
        self.sync_folder()

    def sync_folder(self) -> None:
        """Waits until the disk has the names of this folder."""
        handle = os.open(self.room, os.O_RDONLY)
        try:
            os.fsync(handle)
        finally:
            os.close(handle)

    def keep_copy(self, data: bytes) -> str:
        """Keeps a copy of what somebody saved. Returns its path."""
        path = f"{self.room}/before"
        write_whole(path, data, OWN)
        return path
