"""Kills `jupfile` at every step that it makes, starts it again, and sees that each word is there once. It also has an editor save at each step, or pause in the middle of a save.

It also breaks its connection at every step, and kills it after that. All of it runs in one process, with a clock of its own: `jupfile`, a server, the editor of the file and another client. The server is that of python/server_model.py. The client is the library if JUP_LIBRARY names it, and else the plain one of conformance/fakes.
A step is a call that looks at a file or changes it, or sends, waits or hears. A file that is written can also be cut in the middle.
"""
import builtins
import collections
import contextlib
import errno
import io
import itertools
import os
import re
import sys
import tempfile
import types
import unittest

if "JUP_LIBRARY" not in os.environ:
    import jup_model

    sys.modules["jup"] = jup_model
import connections
import copies
import jup
import jupfile
import local
import server_model
import stars

WORD = re.compile(r"\S+\s*")
# How many seconds pass between two looks, how many looks the program has to begin, and how many everything has at the end.
LOOK, BEGUN, AT_THE_END = 0.25, 20, 60
# How many steps from a change a save may make a difference.
NEAR = 6
# What a step does: it looks at a file or changes it, or it sends, waits or hears.
LOOKS, CHANGES, WAITS = "looks", "changes", "waits"
# A folder in memory, if there is one, since no step has to wait for a disk.
FOLDER = "/dev/shm" if os.access("/dev/shm", os.W_OK) else None


class Killed(BaseException):
    """The program was killed at a step."""


class Over(BaseException):
    """All was played."""


class Socket:
    """The program's end of a connection."""

    def __init__(self, world):
        if world.is_away:
            raise connections.Broken("nobody listens")
        self.world, self.served = world, server_model.Served(world.server)
        world.links.append(self.served)

    def send(self, data):
        self.world.step(WAITS)
        if self.served.is_broken:
            raise ConnectionResetError(errno.ECONNRESET, "reset")
        self.served.come(data)
        return len(data)

    def recv(self, _):
        self.world.step(WAITS)
        if not self.served.is_broken:
            return self.served.going()
        data, self.served.held = self.served.held, b""
        return data

    def close(self):
        pass


class Half:
    """A file that is cut in the middle if the program is killed then."""

    def __init__(self, world, file):
        self.world, self.file = world, file

    def __enter__(self):
        return self

    def __exit__(self, *_):
        self.file.close()

    def write(self, data):
        self.file.write(data[: len(data) // 2])
        self.file.flush()
        self.world.step(CHANGES)
        self.file.write(data[len(data) // 2 :])

    def __getattr__(self, name):
        return getattr(self.file, name)


class World:
    """A server whose board has a text, a folder with a file, and what is done at which look."""

    def __init__(self, place, text, script, plan, is_older):
        self.path, self.script, self.plan, self.now = f"{place}/a.txt", collections.deque(script), plan, 0.0
        self.steps, self.looks, self.saves, self.seen, self.read_before, self.is_away, self.held = [], 0, 0, "", None, False, 0
        # The words that were put in, those that the editor deleted and others did, and those of the opening.
        self.put, self.gone, self.deleted, self.first = set(), set(), set(), set(text.split())
        self.serve(text, is_older=is_older)

    def serve(self, text, others=1, is_older=False):
        """A server starts, and others join it. The last of them will edit. `links` are the connections of the program."""
        layout = ["window 1", "text 1", *(f"char 0.{at + 1} {ord(it)}" for at, it in enumerate(text))]
        self.server, self.links = server_model.Server(layout, 1_000_000, is_older), []
        for _ in range(others):
            self.other, self.client = server_model.Served(self.server), jup.Client()
            self.other.come(self.client.take())
            self.other_reads()

    # What the program calls.

    def step(self, kind):
        """A step begins: what is planned for it happens now."""
        self.steps.append((kind, any(it.lines for it in self.links)))
        act = self.plan.get(len(self.steps))
        if act:
            self.looks = self.looks if self.script else 0
            act(self)

    def called(self, kind, call):
        def step(*given):
            if given[0] == self.path:
                self.file()
            self.step(kind)
            return call(*given)

        return step

    def open(self, path, mode, opener=None):
        self.step(CHANGES if mode == "wb" else LOOKS)
        file = builtins.open(path, mode, opener=opener)
        assert "state" not in path or os.fstat(file.fileno()).st_mode & 0o077 == 0, "others may read the token of the link"
        return Half(self, file) if mode == "wb" else file

    def select(self, reads, writes, _, seconds):
        self.step(WAITS)
        self.now += seconds
        self.looks += 1
        for it in self.links:
            it.passes()
        if self.script and self.script[0][0] < self.looks:
            self.looks = 0
            self.script.popleft()[1](self)
        elif not self.script and self.looks > AT_THE_END:
            raise Over
        return [it for it in reads if it.served.has_something()], writes, []

    # What others do.

    def text(self):
        return "".join(chr(value) for _, value in self.server.star.board.windows[1][1].items)

    def file(self):
        """What the file has, or what it had before there was none."""
        with contextlib.suppress(FileNotFoundError), open(self.path, encoding="utf-8", newline="") as file:
            self.seen = file.read()
        return self.seen

    def save(self, text, by_rename=False):
        """An editor saves."""
        path = f"{self.path}.saving" if by_rename else self.path
        with open(path, "w", encoding="utf-8", newline="") as file:
            self.write(file, text)
        if by_rename:
            os.rename(path, self.path)

    def write(self, file, text):
        """An editor writes into an open file. No two writes have one time, as on a machine whose clock ticks often enough."""
        file.write(text)
        file.flush()
        self.saves += 1
        os.utime(file.fileno(), ns=(self.saves * 10**9, self.saves * 10**9))

    def is_left(self):
        """The program was stopped. Counts the links of which the server still holds lines."""
        for it in self.links:
            it.read()
        self.held += sum(not it.has_only_count() for it in self.server.links.values())

    def other_reads(self):
        self.other.read()
        while self.other.has_something():
            self.client.feed(self.other.going())

    def other_edits(self, commands):
        """The other client edits, 32 commands at a time."""
        for at in range(0, len(commands), 32):
            self.other_reads()
            self.client.edit(*commands[at : at + 32])
            self.other.come(self.client.take())
        self.other.read()


# What a script does.


def inserts(*words, at=1, by_rename=False, is_stale=False):
    """The editor saves the file with words more, as it reads it now or has read it before."""

    def act(world):
        pieces = WORD.findall(world.read_before if is_stale else world.file())
        pieces[at:at] = [f"{it}\n" for it in words]
        world.put |= set(words)
        world.save("".join(pieces), by_rename)

    return act


def half_of(*words, at=1, pause=None, share=2):
    """The editor begins to save the file with words more, and stops after a half, or after another share of it. If a pause is given, it goes on after that."""

    def act(world):
        pieces = WORD.findall(world.file())
        pieces[at:at] = [f"{it}\n" for it in words]
        text = "".join(pieces)
        world.put |= set(words)
        world.pen, world.rest = open(world.path, "w", encoding="utf-8", newline=""), text[len(text) // share :]
        world.write(world.pen, text[: len(text) // share])
        if pause is not None:
            world.looks = 0
            world.script.appendleft((pause, rest))

    return act


def rest(world):
    """The editor saves the rest, into the file that it has open."""
    with world.pen:
        world.write(world.pen, world.rest)


def reads(world):
    """The editor reads the file, and saves that later."""
    world.read_before = world.file()


def deletes(word):
    """The editor saves the file without a word."""

    def act(world):
        world.gone.add(word)
        world.save("".join(it for it in WORD.findall(world.file()) if it.strip() != word))

    return act


def deletes_first(world):
    """The editor saves the file without its first word."""
    world.save("".join(WORD.findall(world.file())[1:]))


def others_insert(word, at=1):
    """Another client inserts a word."""

    def act(world):
        world.other_reads()
        place = sum(map(len, WORD.findall(world.client.text(1, 1))[:at]))
        world.put.add(word)
        world.other_edits([jup.insert_char(1, 1, place + more, char) for more, char in enumerate(f"{word}\n")])

    return act


def others_delete(word):
    """Another client deletes a word, if it is there."""

    def act(world):
        world.other_reads()
        found = re.search(rf"(?m)^{word}\s", world.client.text(1, 1))
        if found:
            world.deleted.add(word)
            world.other_edits([jup.delete(1, 1, found.start())] * len(found[0]))

    return act


def stops(world):
    """A signal stops the program. It starts again then."""
    world.program.stop()


def server_restarts(world, others=1):
    """The server is stopped, and starts again with its board. Others join it first."""
    for it in world.links:
        it.stop()
    world.serve(world.text(), others)


def crowd_comes(world):
    """The server is stopped and started again, and somebody else gets the number that the program had."""
    server_restarts(world, others=2)


def server_saves(world):
    """The server saves its board."""
    world.on_disk = world.text()


def server_is_killed(world):
    """The server ends, and starts again with the board that it saved last."""
    for it in world.links:
        it.breaks()
    world.serve(world.on_disk)


def goes_away(world):
    """The connections break, and no other can be made."""
    for it in world.links:
        it.breaks()
    world.is_away = True


def comes_back(world):
    """Connections can be made again."""
    world.is_away = False


def server_comes_back(world):
    """The server starts again with the board that it saved last."""
    comes_back(world)
    world.serve(world.on_disk)


# What happens at a step.


def killed(fate):
    """The program is killed. `fate` says what the server does with what it had sent."""

    def act(world):
        for it in world.links:
            fate(it)
        raise Killed

    return act


def is_read(link):
    """The server reads all of it before the next start."""
    link.read()


def is_lost(link):
    """All that the server has not read is lost."""
    link.lines.clear()


def half_is_lost(link):
    """The server reads the first edit, and the rest is lost."""
    ends = [at for at, line in enumerate(link.lines) if line.startswith("batch")][1:]
    while ends and len(link.lines) > ends[0]:
        link.lines.pop()
    link.read()


def is_read_after(looks):
    """The server reads all of it so many looks after the next start."""

    def fate(link):
        link.looks = looks

    return fate


def is_read_soon(link):
    """The server reads all of it while the next start joins."""
    link.looks = 3


def is_read_late(link):
    """The server reads all of it after the next start has sent its own."""
    link.looks = 16


def is_answered_up_to(count):
    """The server reads all of it, and so many bytes of what it then sends come."""

    def fate(link):
        link.read()
        link.held = link.going()[:count]

    return fate


def is_half_answered(link):
    """The server reads all of it, and half of what it then sends comes."""
    link.read()
    data = link.going()
    link.held = data[: len(data) // 2]


FATES = (is_read, is_lost, half_is_lost, is_read_soon, is_read_late)


def broken(fate):
    """The connections of the program break. `fate` says what the server does with what was on its way."""

    def act(world):
        for it in world.links:
            fate(it)
            it.is_broken = True

    return act


def silent(world):
    """Nothing passes on the connections of the program any more, and nothing shows it."""
    for it in world.links:
        it.is_silent = True


def expired(world):
    """The connections of the program break for so long that the server ends the links."""
    broken(half_is_lost)(world)
    for it in world.server.links.values():
        it.expires()


def modules(world):
    """The names in modules of the program that mean something else here."""
    clock = types.SimpleNamespace(monotonic=lambda: world.now, sleep=lambda seconds: world.select([], [], [], seconds))
    kinds = {**dict.fromkeys(("rename", "replace", "link", "unlink", "fsync"), CHANGES), "stat": LOOKS}
    return {
        (local, "os"): types.SimpleNamespace(**{**vars(os), **{name: world.called(kind, vars(os)[name]) for name, kind in kinds.items()}}),
        (local, "open"): world.open,
        (local, "swap"): world.called(CHANGES, local.swap),
        (connections, "connected"): lambda _: Socket(world),
        (connections, "select"): types.SimpleNamespace(select=world.select),
        **{(it, "time"): clock for it in (connections, jupfile)},
        **{(it, "LOOK"): LOOK for it in (connections, jupfile)},
    }


@contextlib.contextmanager
def replaced(found):
    """Has these names of modules mean something else."""
    before = {(module, name): vars(module).get(name) for module, name in found}
    for (module, name), value in found.items():
        setattr(module, name, value)
    try:
        yield
    finally:
        for (module, name), value in before.items():
            setattr(module, name, value) if value is not None else delattr(module, name)


def play(text, script, plan, is_older=False):
    """Plays a script in a world of its own, with what is planned for single steps. Returns the world."""
    with tempfile.TemporaryDirectory(prefix="jupfile-", dir=FOLDER) as place:
        world = World(place, text, script, plan, is_older)
        with replaced(modules(world)), contextlib.redirect_stdout(io.StringIO()) as world.said:
            while is_killed(world):
                pass
        world.at_the_end = world.file(), world.text()
        world.left = sorted(os.listdir(f"{place}/.a.txt.jupfile"))
    return world


def is_killed(world):
    """Runs the program until it is killed or stopped, or all was played. Returns whether it is to start again."""
    program = None
    try:
        program = world.program = jupfile.Program("127.0.0.1:4711", None, world.path)
        program.run()
        world.is_left()
        return True
    except Killed:
        return True
    except Over:
        return False
    finally:
        if program:
            program.kept.lock.close()


def wrong(world, is_known):
    """What is wrong at the end. A deleted word may be there if it is not known that the server had taken it."""
    file, board = world.at_the_end
    counts = collections.Counter(board.split())
    due = (world.put | world.first) - world.deleted - world.gone
    yield from (f"{it} was deleted, and is there" for it in world.gone & set(counts))
    if is_known and world.deleted & set(counts):
        yield f"{world.deleted & set(counts)} came back"
    if file != board:
        yield f"the file has {file!r}, and the board {board!r}"
    yield from (f"{it} is there {counts[it]} times" for it in sorted(due | set(counts)) if counts[it] != 1)
    if leftover := [it for it in world.left if it.startswith("was.")]:
        yield f"{leftover} are left"
    if sum(it.has_edits() for it in world.server.links.values()) > 1:
        yield "an earlier link is left"


TEXT = "alpha\nbeta\ngamma\ndelta\n"
# Each of these words is sent as an edit of its own.
LONG_WORDS = ("x" * 20, "y" * 20, "z" * 20)
# Others edit while the file is saved and sent.
TYPING = [
    (BEGUN, inserts("one")),
    (0, others_insert("two")),
    (3, others_insert("three", at=2)),
    (3, others_delete("beta")),
    (3, inserts(*LONG_WORDS, by_rename=True)),
    (0, deletes("gamma")),
    (5, others_delete("x" * 20)),
]
# The editor saves what it read before others edited.
STALE = [(BEGUN, reads), (0, others_insert("two", at=2)), (3, inserts(*LONG_WORDS, at=3, is_stale=True)), (0, others_insert("three"))]
# The file is written again and again, and then the editor saves what it had read before.
OFTEN = [(BEGUN, reads), *((0, others_insert(f"often{at}")) for at in range(14)), (1, inserts("stale", at=3, is_stale=True))]
RESTARTED = [(BEGUN, inserts(*LONG_WORDS)), (0, others_insert("two")), (0, server_restarts), (4, inserts("one", at=3)), (4, others_insert("three"))]
CROWDED = [(BEGUN, inserts(*LONG_WORDS)), (0, crowd_comes), (5, others_insert("xa")), (0, inserts("one", at=3)), (4, others_insert("xxb"))]
LOST = [(BEGUN, server_saves), (0, inserts(*LONG_WORDS)), (6, server_is_killed), (4, inserts("one", at=3)), (4, others_insert("two"))]
DELETED = [(BEGUN, others_insert("two")), (2, others_delete("two"))]
# Others edit so much that the program confirms lines before it sends its own.
MANY = [(BEGUN, others_insert("m" * 30)), (0, others_insert("n" * 30)), (3, inserts(*LONG_WORDS)), (0, others_insert("o" * 30, at=3)), (2, others_delete("m" * 30)), (3, inserts("one"))]
# The server ends soon after it took words, before it saved them, and is away for long.
AWAY = [(BEGUN, server_saves), (0, inserts(*LONG_WORDS)), (12, goes_away), (40, server_comes_back), (4, inserts("one", at=3)), (20, others_insert("two"))]
SENT, WRITTEN = [(BEGUN, inserts(*LONG_WORDS[:2]))], [(BEGUN, others_insert("two"))]
# An editor pauses in the middle of a save, for so many looks that the half of the file counts as saved.
PAUSE, MOST_PAUSE = 14, 19
PAUSED = [(BEGUN, half_of("one")), (3, others_insert("two")), (PAUSE - 4, rest), (4, inserts("three", at=3))]


class Steps(unittest.TestCase):
    def steps_of(self, script, *kinds, after=0, plan={}):
        """The steps of these kinds after one: their numbers, and whether something was sent then that the server had not read."""
        world = play(TEXT, script, plan)
        self.check(world, "without more")
        return {at: is_sent for at, (kind, is_sent) in enumerate(world.steps, 1) if kind in kinds and at > after}

    def begun(self, script):
        """The number of the last step before the script begins."""
        world = play(TEXT, [(script[0][0], lambda world: world.plan.setdefault("begun", len(world.steps)))], plan := {})
        return plan["begun"]

    def check(self, world, *what, is_known=False):
        found = list(wrong(world, is_known))
        self.assertFalse(found, f"{what}: {found}, {world.at_the_end}\n{world.said.getvalue()}")

    def check_kills(self, script, fates, after=0, is_known=False):
        """The program is killed at each step. If nothing was sent then, all fates of that are one."""
        for step, is_sent in self.steps_of(script, CHANGES, WAITS, after=after).items():
            for fate in fates if is_sent else fates[:1]:
                self.check(play(TEXT, script, {step: killed(fate)}), step, fate.__name__, is_known=is_known and fate is is_read)

    def check_breaks(self, script, fates):
        """The connection breaks at each step. The link goes on, so each deleted word stays deleted."""
        for step in self.steps_of(script, WAITS):
            for fate in fates:
                world = play(TEXT, script, {step: broken(fate)})
                self.check(world, step, fate.__name__, is_known=True)
                self.assertEqual((world.said.getvalue().count("joined "), world.server.faults), (1, []), (step, fate.__name__))

    def check_saves(self, script, after=0, kills=0):
        """The editor saves at each step near a change, and the program is killed at one of the changes that come then."""
        changes = self.steps_of(script, CHANGES, after=after)
        near = [it for it in self.steps_of(script, LOOKS, CHANGES, after=after) if any(abs(it - at) <= NEAR for at in changes)]
        for step, by_rename in itertools.product(near, (False, True)):
            save = inserts("saved", at=2, by_rename=by_rename)
            for kill in list(self.steps_of(script, CHANGES, after=step, plan={step: save}))[:kills]:
                self.check(play(TEXT, script, {step: save, kill: killed(is_read)}), step, kill, by_rename)

    def test_killed_at_each_step(self):
        self.check_kills(TYPING, FATES, is_known=True)
        self.check_kills(DELETED, (is_read,), is_known=True)

    def test_killed_at_each_step_beside_an_editor_that_read_before(self):
        self.check_kills(STALE, FATES)

    def test_killed_after_many_writes(self):
        self.check_kills(OFTEN, (is_read,), after=max(self.steps_of(OFTEN, CHANGES)) - 100)

    def test_killed_at_each_step_while_the_server_starts_again(self):
        self.check_kills(RESTARTED, (is_read, is_lost))
        self.check_kills(LOST, (is_read, is_lost))

    def test_the_server_stops_at_each_look_and_others_join_before_the_program(self):
        for stop, more in itertools.product(range(10), range(0, 12, 2)):
            script = [(BEGUN, inserts(*LONG_WORDS)), (stop, crowd_comes), (more, others_insert("xa")), (0, others_insert("xxb")), (4, inserts("one", at=3))]
            self.check(play(TEXT, script, {}), stop, more)

    def test_killed_at_each_step_while_others_join_before_the_program(self):
        self.check_kills(CROWDED, (is_read, is_lost))

    def test_one_of_several_equal_words_is_deleted_once(self):
        for stop, restarts in itertools.product(range(10), (server_restarts, crowd_comes)):
            world = play("same\n" * 4, [(BEGUN, deletes_first), (stop, restarts)], {})
            # What was deleted just before the server stopped may come back.
            self.assertIn(world.at_the_end, [("same\n" * count,) * 2 for count in (3, 4)], (stop, restarts.__name__))

    def test_one_of_several_equal_words_is_deleted(self):
        text, script = "same\n" * 4, [(BEGUN, deletes_first)]
        for step, (_, is_sent) in list(enumerate(play(text, script, {}).steps, 1))[self.begun(script) :]:
            for fate in FATES if is_sent else FATES[:1]:
                world = play(text, script, {step: killed(fate)})
                self.assertEqual(world.at_the_end, ("same\n" * 3,) * 2, (step, fate.__name__))

    def test_killed_twice(self):
        firsts = self.steps_of(SENT, CHANGES, WAITS, after=self.begun(SENT))
        for first in [it for it, is_sent in firsts.items() if is_sent]:
            for fate in (is_read_soon, is_read_late):
                plan = {first: killed(fate)}
                for second in self.steps_of(SENT, CHANGES, WAITS, after=first, plan=plan):
                    self.check(play(TEXT, SENT, {**plan, second: killed(is_read_late)}), first, second, fate.__name__)

    def test_the_connection_breaks_at_each_step(self):
        self.check_breaks(TYPING, (is_read_late, is_half_answered))
        self.check_breaks(MANY, (half_is_lost,))

    def test_the_connection_breaks_within_the_opening(self):
        script = [(BEGUN, inserts("one"))]
        step = next(it for it, is_sent in self.steps_of(script, WAITS).items() if is_sent)
        for count in range(0, 400, 3):
            world = play(TEXT, script, {step: broken(is_answered_up_to(count))})
            self.check(world, count)
            self.assertEqual(world.said.getvalue().count("joined "), 1, count)

    def test_the_connection_breaks_again_and_again(self):
        begun = self.begun(MANY)
        for every in range(3, 30):
            plan = dict.fromkeys(range(begun, begun + 300, every), broken(half_is_lost))
            world = play(TEXT, MANY, plan)
            self.check(world, every, is_known=True)
            self.assertEqual((world.said.getvalue().count("joined "), world.server.faults), (1, []), every)
            pauses = re.findall(r"again in (\S+) s", world.said.getvalue())
            self.assertEqual(pauses[:6], ["0.2", "0.4", "0.8", "1.6", "3.2", "5"][: len(pauses)], every)
            self.assertEqual(set(pauses[6:]) - {"5"}, set(), every)

    def test_the_pauses_are_short_again(self):
        breaks = [(BEGUN, broken(is_lost)), (8, broken(is_lost)), (60, broken(is_lost)), (0, inserts("one"))]
        world = play(TEXT, breaks, {})
        self.check(world, is_known=True)
        self.assertEqual(re.findall(r"again in (\S+) s", world.said.getvalue()), ["0.2", "0.4", "0.2"])

    def test_a_connection_that_is_gone_without_a_sign(self):
        script = [(BEGUN, inserts("one")), (2, silent), (0, inserts("two", at=2)), (400, others_insert("three")), (20, inserts("four"))]
        world = play(TEXT, script, {})
        self.check(world, is_known=True)
        self.assertEqual((world.said.getvalue().count("joined "), world.said.getvalue().count("silent")), (1, 1))

    def test_killed_after_the_connection_broke(self):
        for first in list(self.steps_of(SENT, WAITS, after=self.begun(SENT)))[:40:4]:
            plan = {first: broken(half_is_lost)}
            for second in list(self.steps_of(SENT, CHANGES, WAITS, after=first, plan=plan))[:60:3]:
                self.check(play(TEXT, SENT, {**plan, second: killed(is_read_late)}), first, second)

    def test_the_connection_breaks_for_too_long(self):
        for script in (TYPING, MANY):
            for step in self.steps_of(script, WAITS, after=self.begun(script)):
                self.check(play(TEXT, script, {step: expired}), step)

    def test_killed_and_confirmed(self):
        self.check_kills(MANY, (is_read_late, half_is_lost), after=self.begun(MANY))

    def test_killed_and_read_at_each_look_after_that(self):
        firsts = [it for it, is_sent in self.steps_of(SENT, WAITS, after=self.begun(SENT)).items() if is_sent]
        for first, looks in itertools.product(firsts, range(1, 16)):
            self.check(play(TEXT, SENT, {first: killed(is_read_after(looks))}), first, looks)

    def test_killed_at_a_server_without_a_place_left(self):
        firsts = self.steps_of(SENT, CHANGES, WAITS, after=self.begun(SENT))
        with replaced({(stars, "MOST_SITES"): 2}):
            for first in firsts:
                self.check(play(TEXT, SENT, {first: killed(half_is_lost)}), first)

    def test_killed_and_the_server_starts_again_beside_the_next_start(self):
        firsts = [it for it, is_sent in self.steps_of(SENT, WAITS, after=self.begun(SENT)).items() if is_sent]
        for first in firsts:
            for second in range(first + 1, first + 60):
                self.check(play(TEXT, SENT, {first: killed(is_read), second: server_restarts}), first, second)

    def test_others_edit_while_it_stops(self):
        for looks in range(12):
            script = [(BEGUN, inserts(*LONG_WORDS)), (4, stops), (looks, others_insert("m" * 30)), (0, others_insert("n" * 30)), (BEGUN, inserts("one"))]
            world = play(TEXT, script, {})
            self.check(world, looks, is_known=True)
            self.assertEqual(world.held, 0, looks)

    def test_the_server_is_away_before_it_saved(self):
        self.check(play(TEXT, AWAY, {}))
        self.check_kills(AWAY, (is_read,), after=self.begun(AWAY))

    def test_a_long_time_without_a_connection(self):
        script = [(BEGUN, inserts("one")), (2, goes_away), (0, inserts("two", at=2)), (400, comes_back), (30, others_insert("three"))]
        world = play(TEXT, script, {})
        self.check(world, is_known=True)
        self.assertEqual((world.said.getvalue().count("joined "), world.said.getvalue().count("silent"), world.server.faults), (1, 0, []))

    def test_an_older_server(self):
        steps = len(play(TEXT, MANY, {}, is_older=True).steps)
        for step in range(1, steps, 8):
            self.check(play(TEXT, MANY, {step: broken(is_read)}, is_older=True), step)

    def test_saved_at_each_step(self):
        self.check_saves(TYPING)

    def test_saved_and_killed_then(self):
        self.check_saves(WRITTEN, after=self.begun(WRITTEN), kills=8)

    def test_an_editor_pauses_in_the_middle_of_a_save(self):
        others = ([], [(1, others_insert("two", at=4))], [(5, others_insert("two", at=2))], [(12, others_insert("two", at=2))], [(13, others_insert("two", at=3))], [(2, others_delete("gamma"))], [(4, others_delete("delta"))])
        for share, pause, between in itertools.product((2, 4, 1000), range(6, MOST_PAUSE), others):
            script = [(BEGUN, half_of("one", share=share)), *between, (pause - sum(looks + 1 for looks, _ in between), rest)]
            self.check(play(TEXT, script, {}), share, pause, between)

    def test_nobody_sees_a_half_soon(self):
        for looks in range(12):
            seen = []
            script = [(BEGUN, deletes("beta")), (looks, half_of("one")), (PAUSE - 6, lambda world: seen.append(world.text())), (0, rest)]
            self.check(play(TEXT, script, {}), looks)
            self.assertIn("delta", seen[0], looks)

    def test_an_editor_pauses_at_each_step(self):
        changes = self.steps_of(WRITTEN, CHANGES, after=self.begun(WRITTEN))
        for step, share in itertools.product(range(min(changes) - NEAR, max(changes) + NEAR), (2, 1000)):
            self.check(play(TEXT, WRITTEN, {step: half_of("one", pause=PAUSE, share=share)}), step, share)

    def test_killed_at_each_step_while_an_editor_pauses(self):
        self.check_kills(PAUSED, (is_read, is_lost), after=self.begun(PAUSED))

    def test_without_a_swap(self):
        before, local.SWAP = local.SWAP, None
        try:
            self.check_kills(TYPING, (is_read,))
            self.check_saves(WRITTEN, after=self.begun(WRITTEN), kills=3)
        finally:
            local.SWAP = before


class Copies(unittest.TestCase):
    def test_an_opening(self):
        opening = b"\nwelcome 9 1000\nwindow 1\ntext 1\nchar 0.1 33\nwelcome 2 1000\nwindow 1\ntext 1\nchar 0.1 72\nchar 4.7 105\nlist 2\nitem 0.3 char 9.9 1\ntext 3\nchar 1.1 33\nwindow 2\ntext 1\nchar 0.9 97\nready\nbatch 0 0 1\n"
        self.assertEqual(copies.opened(opening, 1, 1), ([(0, 1), (4, 7)], "Hi"))
        self.assertEqual(copies.opened(opening, 1, 3), ([(1, 1)], "!"))
        self.assertEqual(copies.opened(opening, 2, 1), ([(0, 9)], "a"))

    def test_stretches(self):
        copy = copies.Copy([(0, 1), (0, 2), (3, 1), (0, 3), (3, 3), (3, 2)], "abcdef")
        self.assertEqual(copy.runs(), [(0, 1, "ab"), (3, 1, "c"), (0, 3, "d"), (3, 3, "e"), (3, 2, "f")])
        self.assertEqual(copies.copy_of(copy.runs()), copy)

    def test_what_the_server_had_not_taken(self):
        past = copies.Past(3, 1, copies.copy_of([(0, 1, "ab"), (3, 1, "xyz"), (0, 3, "c")]), [(0, 4)], {3: 1}, None, 0)
        now = copies.copy_of([(0, 1, "a"), (3, 2, "y"), (4, 1, "N"), (0, 3, "cd")])
        self.assertEqual(past.lost(now), {(3, 3)})
        self.assertEqual(past.lost(copies.copy_of([(0, 1, "ab")])), {(3, 2), (3, 3)})
        self.assertEqual(past.restored(now), "ayzNc")
        self.assertEqual(past.known_text(), "abxc")


if __name__ == "__main__":
    unittest.main()
