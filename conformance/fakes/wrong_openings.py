"""Servers of many boards that are wrong on purpose in what comes before a link: first lines, makes and imports. Each class is wrong in one way."""
from boards import Fault
from imports import BrokenOff, Printed
from keys import ID
from opening import MOST_IMPORT, Opening, Silent
from shelves import TEMPLATES, Shelf

ANY_KEY = "[0-9a-f]{0,32}"


class LooseKeys(Opening):
    """It reads a key of fewer digits."""

    open_form = f"open ({ID}) ({ANY_KEY})"


class Trims(Opening):
    """It reads a first line without the spaces before and after it."""

    def line(self):
        return super().line().strip()


class OpensAgain(Opening):
    """It takes a second `open` on a connection."""

    def next_note(self, visitor):
        line = super().next_note(visitor)
        if line and line.startswith("open "):
            self.held = self.held.partition(b"\n")[2]
            visitor.say("may edit")
            return self.next_note(visitor)
        return line


class LikeOneBoard(Opening):
    """It answers a first line that is none by 40, as a server of one board does."""

    def answers(self, line):
        if not line.startswith(("open ", "make ", "owner ", "templates")):
            raise Fault(40)
        super().answers(line)


class AnswersAll(Opening):
    """It answers a first line that is too long, too late or not whole by 38."""

    def line(self):
        try:
            return super().line()
        except Silent:
            raise Fault(38) from None


class KeysAbove(Opening):
    """It sends the keys of a higher right too."""

    def keys(self, right, key):
        return next(it.keys for it in self.shelf.boards.values() if it.keys[right] == key)


class KeysUpwards(Opening):
    """It sends the lowest key first."""

    def keys(self, right, key):
        return dict(reversed(super().keys(right, key).items()))


class NoNoteOfTheOwner(Opening):
    """After `may owner` it answers a line that is no `make` by 38."""

    def shows_owner(self, key):
        try:
            super().shows_owner(key)
        except Fault as fault:
            raise Fault(38 if fault.number == 40 else fault.number) from None


class TemplateTestedLast(Opening):
    """It looks for the template after it has tested whether the client can make boards."""

    def layout(self, name, is_owner):
        if not self.shelf.may_make(is_owner):
            raise Fault(39)
        return super().layout(name, is_owner)


class BadLinesDropped(Opening):
    """It drops the bad lines of an import."""

    def layout(self, name, is_owner):
        return self.read(self.imports(2**25)) if name == "-" else super().layout(name, is_owner)

    def read(self, lines):
        reader = Printed()
        for line in lines:
            try:
                reader.read_line(line)
            except Fault:
                continue
        return list(reader.board.lines())


class PartsMade(Opening):
    """It makes a board of an import whose bytes end before its line `end`."""

    def imports(self, most):
        try:
            return super().imports(most)
        except BrokenOff:
            return []


class AnswersEarly(Opening):
    """It answers an import before its line `end`."""

    def imports(self, most):
        self.connection.sendall(b"may own\n")
        return super().imports(most)


class ImportsWithoutBound(Opening):
    """It takes an import of any length."""

    def imports(self, most):
        return super().imports(2**30)


class SmallImports(Opening):
    """It takes imports of fewer bytes."""

    def imports(self, most):
        return super().imports(most - 1)


class OwnerImportsLikeOthers(Opening):
    """It takes no more bytes of its owner than of others."""

    def imports(self, most):
        return super().imports(MOST_IMPORT)


class PatientAtFirst(Opening):
    """It waits for a first line for as long as that takes."""

    first = 100_000


class PatientAfterTheAnswer(Opening):
    """It waits for the line after the answer for as long as that takes."""

    answered = 100_000


class PatientLater(Opening):
    """It waits for a later line for as long as that takes."""

    later = 100_000


class PatientImports(Opening):
    """It waits for an import for as long as that takes."""

    importing = 100_000


class HastyLater(Opening):
    """It gives a later line no more time than the first one after the answer."""

    def notes(self, *given):
        self.later /= 6
        super().notes(*given)


class ManyImports(Shelf):
    """It makes any number of imports at the same time."""

    def __init__(self, *given):
        super().__init__(*given)
        self.imports.release(100)


class AnyOwner(Shelf):
    """It takes any key for that of its owner."""

    def is_owner(self, key):
        return True


class AnyoneMakes(Shelf):
    """Anyone can make boards, whatever it says."""

    def may_make(self, is_owner):
        return True


class TemplatesUnsorted(Shelf):
    """It lists its templates in the order in which they were made."""

    def templates(self):
        return list(TEMPLATES)


class MakesOver(Shelf):
    """A make puts a new board in the place of another one."""

    def made_again(self, board_id, key, layout):
        try:
            return super().made_again(board_id, key, layout)
        except Fault:
            return self.put(board_id, key, layout)


class MakesAgain(Shelf):
    """A second `make` of the same key begins the board again."""

    def made_again(self, board_id, key, layout):
        super().made_again(board_id, key, layout)
        return self.put(board_id, key, layout)


class RefusesAgain(Shelf):
    """It refuses a second `make` of the same key."""

    def made_again(self, board_id, key, layout):
        raise Fault(39)


def with_opening(kind):
    """A shelf whose connections begin so."""
    return type("WrongOpening", (Shelf,), {"opening": kind})


WAYS = {
    "trims": with_opening(Trims),
    "opens-again": with_opening(OpensAgain),
    "like-one-board": with_opening(LikeOneBoard),
    "answers-all": with_opening(AnswersAll),
    "keys-upwards": with_opening(KeysUpwards),
    "no-note-of-the-owner": with_opening(NoNoteOfTheOwner),
    "template-tested-last": with_opening(TemplateTestedLast),
    "bad-lines-dropped": with_opening(BadLinesDropped),
    "parts-made": with_opening(PartsMade),
    "answers-early": with_opening(AnswersEarly),
    "imports-without-bound": with_opening(ImportsWithoutBound),
    "small-imports": with_opening(SmallImports),
    "owner-imports-like-others": with_opening(OwnerImportsLikeOthers),
    "patient-at-first": with_opening(PatientAtFirst),
    "patient-after-the-answer": with_opening(PatientAfterTheAnswer),
    "patient-later": with_opening(PatientLater),
    "patient-imports": with_opening(PatientImports),
    "hasty-later": with_opening(HastyLater),
    "many-imports": ManyImports,
    "any-owner": AnyOwner,
    "anyone-makes": AnyoneMakes,
    "templates-unsorted": TemplatesUnsorted,
    "makes-over": MakesOver,
    "makes-again": MakesAgain,
    "refuses-again": RefusesAgain,
}
