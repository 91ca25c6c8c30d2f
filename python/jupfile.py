#!/usr/bin/env python3
"""jupfile.py --connect ADDR [--text W.I] FILE: keeps a file and a text of a board equal, until it is stopped by a signal or Ctrl-C.

It joins the server at ADDR. It sends what an editor saves in FILE to the text I of window W, or to the first text of the board. It writes what others did back into FILE, and says on standard output what it does.
It keeps what both last had in the folder .FILE.jupfile beside the file, so that what is typed while it does not run is merged at the next start.
docs/EMBEDDING.md says what an editor has to do, and what the files may be.
"""
# It may be killed at any moment, and still each word that was saved is on the board once after the next start. There are four reasons:
#
# - Nothing is sent before the folder has it (Sharing.keep): the text with the names of its characters, and the versions of the file whose words are in it.
#   So no start takes a word of such a version for a new one.
# - A link outlives its connections (connections.Link.carry), so one that breaks loses nothing. A start ends the link of the run before (connections.Earlier.end), so the server takes nothing more of it.
# - The names of the characters on the board then show which edits of that link the server has taken. The others are made again (copies.Past.restored).
# - A swap replaces the file, and what it had stays in the folder until all of that is kept (local.put_in_place).
#
# A server that was started again does not know that link. Then the texts alone show what was done, and when each word was sent (copies.Past.known_text).
# One thing nobody can tell: whether the server never took an insertion, or took it and somebody deleted it before this program knew. It is made again.
import argparse
import collections
import os
import signal
import sys
import time
from typing import NamedTuple

import connections
import copies
import jup
import local
import texts
from connections import LAST, LATE, LOOK, SOON, tell

IO_FAULT, FAULT = 1, 4
# The numbers of faults that this program tells apart.
LONG_TEXT, BACKLOG = 6, 7
# After how many seconds a server has saved what it took. `jupweb` saves every two seconds.
SAVED = 4.0


def counted(old: str, new: str) -> str:
    """How much two texts differ, in words."""
    come, gone = texts.size(texts.difference(old, new))
    return f"{come} characters in, {gone} out"


class Ended(Exception):
    """The program can't go on: why, and its status."""

    def __init__(self, why: str, status: int) -> None:
        super().__init__(why)
        self.status = status


class Edit(NamedTuple):
    """An edit that the server may not have taken: the number of the last insertion up to it, and what it deletes."""

    last: int
    gone: list[copies.Name]


class Link(connections.Link):
    """A link, and a text of its board. `W.I` names the text, or nothing does, and it is then the first one."""

    def __init__(self, address: str, wanted: str | None) -> None:
        super().__init__(address)
        # Whether the server has all edits, and whether that was asked since the last edit.
        self.is_settled, self.is_asked, self.is_told_to_wait = True, False, False
        self.win, self.wid = self.text_of(wanted)
        # The text, with the names of its characters.
        opened, self.opening = copies.opened(self.opening, self.win, self.wid), b""
        self.names, self.chars = opened.names, list(opened.text)
        # The edits that the server may not have taken, how many were made at all, and the numbers of the last insertion made, and of the last surely taken.
        self.unsure: collections.deque[Edit] = collections.deque()
        self.made = self.last = self.taken = 0
        # Of each site of this file that inserted lately the last insertion that the server has surely saved, and when it has saved more.
        self.saved: dict[int, int] = {self.client.site.number: 0}
        self.unsaved: collections.deque[tuple[float, dict[int, int]]] = collections.deque()

    def text_of(self, wanted: str | None) -> tuple[int, int]:
        found = [(it.win, it.wid) for it in self.client.widgets() if it.kind == jup.WidgetKind.TEXT]
        if wanted is None and found:
            return found[0]
        for win, wid in found:
            if f"{win}.{wid}" == wanted:
                return win, wid
        raise Ended(f"the board has no text {wanted or ''}".rstrip(), FAULT)

    def follow(self) -> Edit:
        """Takes the changes of the text since the last call, and returns them as an edit. Forgets the edits that the server has surely taken."""
        if self.is_asked and self.client.is_synced:
            self.is_settled, self.is_asked = True, False
        left = 0 if self.is_settled else self.client.site.backlog
        while len(self.unsure) > left:
            self.taken = self.unsure.popleft().last
            self.unsaved.append((time.monotonic() + SAVED, {self.client.site.number: self.taken}))
        # A server that is not heard any more may have ended before it saved.
        while self.unsaved and self.unsaved[0][0] < self.heard:
            self.saved |= self.unsaved.popleft()[1]
        last, gone = self.last, []
        for it in self.client.changes():
            if (it.win, it.wid) != (self.win, self.wid):
                continue
            if it.kind == jup.Kind.DELETE:
                gone.append(self.names.pop(it.place))
                del self.chars[it.place]
            elif it.kind == jup.Kind.INSERT_CHAR:
                self.names.insert(it.place, (it.site, it.number))
                self.chars.insert(it.place, chr(it.value))
                last = it.number
        return Edit(last, gone)

    def copy(self) -> copies.Copy:
        """The text with the names of its characters."""
        self.follow()
        return copies.Copy(list(self.names), "".join(self.chars))

    def text(self) -> str:
        self.follow()
        return "".join(self.chars)

    def go_on(self, past: copies.Past) -> str:
        """Goes on where an earlier link at this server ended. Returns the text as it would be if the server had taken all of that link."""
        self.saved |= past.saved
        self.unsaved.append((time.monotonic() + SAVED, dict.fromkeys(past.saved, copies.ALL)))
        return past.restored(self.copy())

    def past(self) -> copies.Past:
        """What this link leaves if it ends now."""
        gone = [name for it in self.unsure for name in it.gone]
        return copies.Past(self.client.site.number, self.taken, self.copy(), gone, dict(self.saved), self.token, self.confirmed)

    def become(self, old: str, new: str) -> None:
        """Makes the text `new`, as far as that can be done now."""
        for steps in texts.edits(old, new):
            try:
                self.client.edit(*map(self.command, steps))
            except jup.Fault as fault:
                self.wait(fault.number)
                return
            self.note(self.follow())
        self.is_told_to_wait = False

    def note(self, edit: Edit) -> None:
        """Notes an edit of this link until the server has surely taken it."""
        self.unsure.append(edit)
        self.made, self.last = self.made + 1, edit.last
        self.is_settled = self.is_asked = False

    def command(self, step: texts.Step) -> jup.Command:
        if step.char is None:
            return jup.delete(self.win, self.wid, step.place)
        return jup.insert_char(self.win, self.wid, step.place, step.char)

    def wait(self, number: int) -> None:
        """Says once why an edit was not made, or ends if none will be."""
        words = {
            BACKLOG: "the server is 1,024 edits behind: the rest of the file waits",
            LONG_TEXT: "the text is full: the rest of the file waits until somebody deletes something, and the file is not written meanwhile",
        }
        if number not in words:
            raise Ended(f"an edit is refused: fault {number}", FAULT)
        if not self.is_told_to_wait:
            tell(words[number])
        self.is_told_to_wait = True

    def ask(self) -> None:
        """Asks the server whether it has all edits, unless that was asked or is known."""
        if not self.is_settled and not self.is_asked:
            self.client.ping()
            self.is_asked = True


class Sharing:
    """A file and a text of the board, while there is a link."""

    def __init__(self, link: Link, is_known: bool, file: local.LocalFile, kept: local.Kept) -> None:
        self.link, self.file, self.kept = link, file, kept
        # Whether the file has a text that was taken, and whether this is the first of it.
        self.is_fit, self.is_first = False, True
        board = link.text()
        self.shared = texts.Shared(board, self.wanted(board, kept.state, is_known), kept.state.versions, kept.state.cuts, time.monotonic())
        self.keep()
        link.keep = self.keep

    def wanted(self, board: str, state: local.State, is_known: bool) -> str:
        """What both sides are to have, since others may have gone on without this program. The server may know the earlier link."""
        if state.past is None:
            return board
        if is_known:
            return texts.merge(state.past.copy.text, state.mine, self.link.go_on(state.past))
        tell("the server does not know the earlier link, so the texts alone show what was done meanwhile")
        return texts.merge(state.past.known_text(), state.mine, board)

    def step(self, now: float) -> None:
        """Takes what both sides did, and lets each have what the other did."""
        self.follow()
        is_taken = [self.take_file(now), self.take_strays(now)]
        if self.edit() or any(is_taken):
            self.keep()
        if self.is_fit and self.shared.mine == self.shared.board:
            self.settle(now)
        self.file.forget_replaced(now)

    def follow(self) -> None:
        """Takes what others did to the board."""
        board = self.link.text()
        if board != self.shared.board:
            self.shared.changed(board)

    def edit(self) -> bool:
        """Lets the board have what the file has. Returns whether anything was done."""
        shared, before = self.shared, self.link.made
        if self.is_fit and shared.mine != shared.board:
            self.link.become(shared.board, shared.mine)
            shared.board = self.link.text()
        return self.link.made != before

    def take_file(self, now: float) -> bool:
        """Takes what was saved. Returns whether there was something."""
        found = self.file.saved(now)
        if found is None:
            return False
        if not self.file.is_there():
            # The file is written again.
            self.is_fit, self.is_first = True, False
            return False
        try:
            text = texts.read_text(found[0])
        except texts.Unfit as why:
            self.is_fit = False
            tell(f"not taken, and left as it is until it is saved again: {why}")
            return False
        if not self.is_first and self.is_fit and text == self.shared.file:
            return False
        self.take(text, found[1])
        return True

    def take(self, text: str, origin: texts.Origin) -> None:
        before = self.shared.mine
        self.shared.saved(text, origin)
        if before != self.shared.mine:
            tell(f"saved: {counted(before, self.shared.mine)}")
        if self.is_first and any(it.start < it.end for it in texts.difference(text, self.shared.mine)):
            tell(f"others deleted some of the file meanwhile. {self.kept.keep_copy(text.encode())} has it as it was")
        self.is_fit, self.is_first = True, False

    def take_strays(self, now: float) -> bool:
        """Takes what was saved into files that were replaced meanwhile. Returns whether there was something."""
        is_taken = False
        for versions, data, origin in self.file.strays(now):
            try:
                text = texts.read_text(data)
            except texts.Unfit as why:
                tell(f"not taken from an editor that had the file open while it was written: {why}. {self.kept.keep_copy(data)} has it")
                continue
            before = self.shared.mine
            self.shared.strayed(versions, text, origin)
            versions[:] = [text]
            is_taken = True
            if before != self.shared.mine:
                tell(f"saved while the file was written: {counted(before, self.shared.mine)}")
        return is_taken

    def settle(self, now: float) -> None:
        """Once the server has all edits: writes the file if it has something else than the board."""
        self.link.ask()
        if not self.link.is_settled:
            return
        shared = self.shared
        shared.forget_old(self.file.waiting.quiet)
        versions = shared.read_lately()
        if shared.file == shared.mine and self.file.is_there():
            if self.signs() != self.kept_signs:
                self.keep()
        elif self.file.can_be_written(now):
            # The version to come is kept first. So a start after a kill knows the file as it was and as it is.
            self.keep(shared.mine)
            words = f"written: {counted(shared.file, shared.mine)}" if self.file.is_there() else "written again"
            if self.file.write(shared.mine, versions, now):
                tell(words)
                shared.wrote(now)

    def keep(self, *coming: str) -> None:
        """Keeps what both sides have and are to have, and the versions of the file, with one that comes."""
        self.follow()
        versions = self.file.versions([*self.shared.read_lately(), *coming])
        self.kept.keep(local.State(self.link.past(), self.shared.mine, versions, self.shared.cuts))
        self.kept_signs = self.signs()

    def signs(self) -> tuple:
        """What shows whether something else is to be kept."""
        return self.shared.board, self.shared.mine, self.shared.read_lately(), len(self.link.unsure), dict(self.link.saved)

    def is_equal(self) -> bool:
        """Whether the file, the board and what is kept are the same, and nobody is saving."""
        is_quiet = self.file.waiting.is_quiet() and self.link.is_settled and self.is_fit
        return is_quiet and self.shared.file == self.shared.mine == self.shared.board == self.kept.state.mine


class Program:
    """Shares a file until it is stopped, over one link after another."""

    def __init__(self, address: str, wanted: str | None, path: str) -> None:
        self.address, self.wanted, self.path = address, wanted, os.path.realpath(path)
        self.kept = local.Kept(self.path, f"{address} {wanted or 'first'}")
        if self.kept.other_board:
            tell(f"the file was last shared with {self.kept.other_board}, so nothing of it counts as deleted")
        self.is_stopped, self.earlier = False, None

    def stop(self, *_: object) -> None:
        self.is_stopped = True

    def run(self) -> None:
        pause = SOON
        while not self.is_stopped:
            try:
                link, is_known = self.join()
                pause = SOON
                self.share(link, is_known)
            except connections.Lost as why:
                tell(f"{why}. It is tried again in {pause:g} s")
                self.sleep(pause)
                pause = min(2 * pause, LATE)

    def join(self) -> tuple[Link, bool]:
        """A new link, and whether its server knows the link of an earlier run, which is over then."""
        past = self.kept.state.past
        if past is None or past.token is None:
            return Link(self.address, self.wanted), False
        if self.earlier is None or self.earlier.token != past.token:
            self.earlier = connections.Earlier(past.token, past.confirmed)
        self.earlier.end(self.address)
        link = Link(self.address, self.wanted)
        # The server may have been started again in between.
        return link, self.earlier.end(self.address)

    def share(self, link: Link, is_known: bool) -> None:
        tell(f"joined {self.address} as site {link.client.site.number}: text {link.win}.{link.wid} has {len(link.names)} characters")
        file = local.LocalFile(self.path, self.kept.room, self.kept.state.versions, time.monotonic())
        sharing = Sharing(link, is_known, file, self.kept)
        until = None
        while until is None or time.monotonic() < until and not sharing.is_equal():
            sharing.step(time.monotonic())
            link.carry(LOOK)
            if self.is_stopped and until is None:
                until = time.monotonic() + LAST
        link.leave()
        tell("stopped" if sharing.is_equal() else "stopped. What the board does not have of the file is merged at the next start")

    def sleep(self, seconds: float) -> None:
        until = time.monotonic() + seconds
        while not self.is_stopped and time.monotonic() < until:
            time.sleep(LOOK)


def address(word: str) -> str:
    """A word of the command line that has to be an address."""
    host, _, port = word.rpartition(":")
    if not host or not port.isdecimal():
        raise argparse.ArgumentTypeError("an address is a host and a port, as 127.0.0.1:4711")
    return word


def main(words: list[str]) -> int:
    parser = argparse.ArgumentParser(prog="jupfile.py", description=__doc__, formatter_class=argparse.RawDescriptionHelpFormatter, usage=argparse.SUPPRESS)
    parser.add_argument("--connect", required=True, type=address, metavar="ADDR", help="where the server listens, as 127.0.0.1:4711")
    parser.add_argument("--text", metavar="W.I", help="the ids of the window and of the text, as 1.1. The first text of the board, if not given")
    parser.add_argument("file", metavar="FILE", help="the file. It is made if it is not there")
    given = parser.parse_args(words)
    try:
        program = Program(given.connect, given.text, given.file)
        for number in (signal.SIGINT, signal.SIGTERM):
            signal.signal(number, program.stop)
        program.run()
    except (Ended, connections.Refused) as why:
        tell(str(why))
        return why.status if isinstance(why, Ended) else FAULT
    except (OSError, ValueError, local.Taken) as why:
        tell(str(why) if isinstance(why, local.Taken) else f"io fault: {why}")
        return IO_FAULT
    return 0


if __name__ == "__main__":
    sys.exit(main(sys.argv[1:]))
