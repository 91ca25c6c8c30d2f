"""jup: a client of the protocol of docs/WIRE.md, without sockets, threads or waiting, over the proved library of c/jup.h.

The module loads `libjup.so` from its own folder, or from the path in the environment variable JUP_LIBRARY. `./libjup` builds it.

    client = jup.Client(watch=True)
    client.feed(data)                      # bytes that the server sent, cut anywhere
    socket.sendall(client.take())          # bytes that wait to be sent
    client.edit(jup.insert_char(1, 1, 0, "a"))
    for change in client.changes(): ...    # what the board took

A `LastingClient` has a link that outlives its connections. While none carries it, its user edits on.

    client.cut()                           # the connection broke
    client.resume()                        # there is another one: take and send

A client takes one call at a time. A refused call raises `Fault`, and its `number` says why, as docs/WIRE.md and c/jup.h list them.
"""
import ctypes
import enum
import os
from collections.abc import Iterator
from typing import NamedTuple

__all__ = [
    "Client", "Change", "Command", "Cut", "Fault", "Kind", "LastingClient", "Site", "Stage", "Terms", "Widget", "WidgetKind",
    "delete", "insert_char", "insert_label", "relabel", "set_slider", "set_toggle",
]

# The most bytes of a label, and the most commands of an edit.
MOST_LABEL, MOST_COMMANDS = 48, 32
# How many bytes what a line tells has room for at first. A longer text is asked for again.
ROOM = 65536
# The numbers of the library that this module tells apart.
NO_WIDGET, BAD_LABEL, NOT_OPEN, CUT = 2, 14, 91, 95
# How many digits a token has.
TOKEN_DIGITS = 32


class Stage(enum.IntEnum):
    """How far a session is."""

    GREETING = 0
    OPENING = 1
    OPEN = 2
    OVER = 3
    NONE = 4


class WidgetKind(enum.IntEnum):
    """What a widget is."""

    TEXT = 1
    LIST = 2
    TOGGLE = 3
    SLIDER = 4


class Kind(enum.IntEnum):
    """What a command asks for, or what a change did. NOTHING left the board as it was."""

    NOTHING = 0
    INSERT_CHAR = 1
    INSERT_LABEL = 2
    DELETE = 3
    RELABEL = 4
    SET_TOGGLE = 5
    SET_SLIDER = 6


class Fault(Exception):
    """A refused call, or the end of a session. `number` says why."""

    def __init__(self, number: int) -> None:
        super().__init__(f"fault {number}")
        self.number = number


class Cut(Fault):
    """This connection does not carry the link. Close it, and connect again."""


class Terms(NamedTuple):
    """What a server said as it opened a link.

    `token` names the link, which waits for `seconds` without a connection. If it is `kept`, what the server has confirmed outlives the server.
    """

    token: str
    seconds: int
    kept: bool


class Site(NamedTuple):
    """The number of a client's site, and how many of its edits the server has not acknowledged."""

    number: int
    backlog: int


class _Handle(ctypes.Structure):
    _fields_ = [("inside", ctypes.c_void_p)]


class _Labelled(ctypes.Structure):
    @property
    def label(self) -> str:
        """The label of an item of a list."""
        return bytes(self.label_bytes[: self.label_len]).decode("ascii")


class Command(_Labelled):
    """A command. The functions `insert_char` and the like make one."""

    _fields_ = [
        ("kind", ctypes.c_uint32), ("win", ctypes.c_uint16), ("wid", ctypes.c_uint16), ("place", ctypes.c_uint32),
        ("value", ctypes.c_int32), ("label_len", ctypes.c_uint32), ("label_bytes", ctypes.c_uint8 * MOST_LABEL),
    ]


class Change(_Labelled):
    """A change of the board. `place` counts in the text or list as the changes before this one left it."""

    _fields_ = [
        ("kind", ctypes.c_uint32), ("win", ctypes.c_uint16), ("wid", ctypes.c_uint16), ("place", ctypes.c_uint32),
        ("site", ctypes.c_uint32), ("number", ctypes.c_uint32), ("value", ctypes.c_int32),
        ("label_len", ctypes.c_uint32), ("label_bytes", ctypes.c_uint8 * MOST_LABEL),
    ]


class Widget(ctypes.Structure):
    """A widget without its items. `items` counts those of a text or list; `lo`, `hi` and `value` are of a slider, and `value` of a toggle."""

    _fields_ = [
        ("win", ctypes.c_uint16), ("wid", ctypes.c_uint16), ("kind", ctypes.c_uint32), ("items", ctypes.c_uint32),
        ("lo", ctypes.c_int32), ("hi", ctypes.c_int32), ("value", ctypes.c_int32),
    ]


def _load() -> ctypes.CDLL:
    beside = os.path.join(os.path.dirname(os.path.abspath(__file__)), "libjup.so")
    return ctypes.CDLL(os.environ.get("JUP_LIBRARY") or beside)


_LIBRARY = _load()


def _function(name: str, result: type | None, *parameters: type) -> "ctypes._NamedFuncPointer":
    function = getattr(_LIBRARY, name)
    function.restype, function.argtypes = result, [ctypes.POINTER(_Handle), *parameters]
    return function


_U16, _U32, _SIZE = ctypes.c_uint16, ctypes.c_uint32, ctypes.c_size_t
_U16_OUT, _U32_OUT, _SIZE_OUT = ctypes.POINTER(_U16), ctypes.POINTER(_U32), ctypes.POINTER(_SIZE)
_open = _function("jup_open", _U32, _U32)
_close = _function("jup_close", None)
_stage = _function("jup_stage", _U32, _U32_OUT)
_feed = _function("jup_feed", _U32, ctypes.c_char_p, _SIZE)
_waiting = _function("jup_waiting", _SIZE)
_take = _function("jup_take", _SIZE, ctypes.c_void_p, _SIZE)
_edit = _function("jup_edit", _U32, ctypes.POINTER(Command), _SIZE)
_ping = _function("jup_ping", _U32)
_is_synced = _function("jup_is_synced", _U32)
_bye = _function("jup_bye", _U32)
_ask = _function("jup_ask", _U32, ctypes.c_char_p, _SIZE, ctypes.c_void_p, _SIZE, _SIZE_OUT)
_next_change = _function("jup_next_change", _U32, ctypes.POINTER(Change))
_site = _function("jup_site", _U32, _U32_OUT, _U32_OUT)
_window = _function("jup_window", _U32, _SIZE, _U16_OUT, _SIZE_OUT)
_widget_at = _function("jup_widget_at", _U32, _SIZE, _SIZE, ctypes.POINTER(Widget))
_text = _function("jup_text", _U32, _U16, _U16, _U32, _U32_OUT, _SIZE, _SIZE_OUT)
_label = _function("jup_label", _U32, _U16, _U16, _U32, ctypes.c_void_p, _SIZE, _SIZE_OUT)
_open_lasting = _function("jup_open_lasting", _U32, _U32)
_cut = _function("jup_cut", _U32)
_resume = _function("jup_resume", _U32)
_elapse = _function("jup_elapse", _U32, _U32)
_token = _function("jup_token", _U32, ctypes.c_void_p, _SIZE, _U32_OUT, _U32_OUT)
_arrived = _function("jup_arrived", _U32, _U32_OUT)


def _check(number: int) -> None:
    if number == CUT:
        raise Cut(number)
    if number:
        raise Fault(number)


class Client:
    """A client of one session. It is closed by `close`, at the end of a `with`, or when nobody holds it."""

    _opens = staticmethod(_open)

    def __init__(self, watch: bool = False) -> None:
        """Opens a client, whose greeting waits to be sent. Only with `watch` does it keep changes for `changes`."""
        self._handle = _Handle()
        _check(self._opens(self._handle, int(watch)))

    def close(self) -> None:
        """Frees the client. Each later call raises the fault 90, or says that there is nothing."""
        _close(self._handle)

    __del__ = close

    def __enter__(self) -> "Client":
        return self

    def __exit__(self, *_: object) -> None:
        self.close()

    @property
    def stage(self) -> Stage:
        """How far the session is."""
        return Stage(_stage(self._handle, ctypes.byref(_U32())))

    @property
    def fault(self) -> int:
        """The number of the fault that ended the session, or 0."""
        number = _U32()
        _stage(self._handle, ctypes.byref(number))
        return number.value

    def feed(self, data: bytes) -> None:
        """Takes bytes that the server sent, cut anywhere. A fault ends the session."""
        _check(_feed(self._handle, data, len(data)))

    def take(self) -> bytes:
        """All bytes that wait to be sent. Each comes out once."""
        room, taken = ctypes.create_string_buffer(ROOM), []
        while count := _take(self._handle, room, ROOM):
            taken.append(room.raw[:count])
        return b"".join(taken)

    @property
    def is_waiting(self) -> bool:
        """Whether bytes wait to be sent."""
        return _waiting(self._handle) > 0

    def edit(self, *commands: Command) -> None:
        """Makes one edit of 1 to 32 commands, each of the board after those before it. If one is refused, nothing changes."""
        listed = (Command * max(len(commands), 1))(*commands)
        _check(_edit(self._handle, listed, len(commands)))

    def ping(self) -> None:
        """Asks the server for all that it has. Once that has come, `is_synced` is true."""
        _check(_ping(self._handle))

    @property
    def is_synced(self) -> bool:
        """Whether the server has answered the last ping."""
        return bool(_is_synced(self._handle))

    def bye(self) -> None:
        """Says goodbye. The server then ends the session."""
        _check(_bye(self._handle))

    def ask(self, line: bytes) -> bytes:
        """Does what a line asks for, as the program `jup` takes it, and returns what that prints. It is empty within a batch."""
        room, told = ctypes.create_string_buffer(ROOM), _SIZE()
        _check(_ask(self._handle, line, len(line), room, ROOM, ctypes.byref(told)))
        if told.value > ROOM:
            # Only `show` tells so much, and it changes nothing.
            size = told.value
            room = ctypes.create_string_buffer(size)
            _check(_ask(self._handle, line, len(line), room, size, ctypes.byref(told)))
        return room.raw[: told.value]

    def changes(self) -> Iterator[Change]:
        """Takes the changes that were not told, oldest first. A copy of the board that takes each in turn is then the board."""
        change = Change()
        while _next_change(self._handle, ctypes.byref(change)):
            yield change
            change = Change()

    @property
    def site(self) -> Site:
        """The number of the client's site, and its backlog."""
        number, backlog = _U32(), _U32()
        _check(_site(self._handle, ctypes.byref(number), ctypes.byref(backlog)))
        return Site(number.value, backlog.value)

    def widgets(self) -> Iterator[Widget]:
        """The widgets of all windows, ascending by the ids of windows and widgets."""
        win, count, window = _U16(), _SIZE(), 0
        while _window(self._handle, window, ctypes.byref(win), ctypes.byref(count)) == 0:
            for index in range(count.value):
                widget = Widget()
                _check(_widget_at(self._handle, window, index, ctypes.byref(widget)))
                yield widget
            window += 1

    def widget(self, win: int, wid: int) -> Widget:
        """The widget with these ids."""
        for widget in self.widgets():
            if (widget.win, widget.wid) == (win, wid):
                return widget
        raise Fault(NO_WIDGET)

    def text(self, win: int, wid: int) -> str:
        """The characters of a text."""
        items = self.widget(win, wid).items
        room, count = (_U32 * max(items, 1))(), _SIZE()
        _check(_text(self._handle, win, wid, 0, room, items, ctypes.byref(count)))
        return bytes(room)[: 4 * count.value].decode("utf-32-le")

    def labels(self, win: int, wid: int) -> list[str]:
        """The labels of a list."""
        room, size = ctypes.create_string_buffer(MOST_LABEL), _SIZE()
        labels = []
        for place in range(self.widget(win, wid).items):
            _check(_label(self._handle, win, wid, place, room, MOST_LABEL, ctypes.byref(size)))
            labels.append(room.raw[: size.value].decode("ascii"))
        return labels


class LastingClient(Client):
    """A client of a link that outlives its connections. While none carries the link, its user edits on. What `take` returns is for the present connection.

    `feed` raises `Cut` if this connection does not carry the link, which ends no session. A server without protocol 4 ends it by the fault 42.
    """

    _opens = staticmethod(_open_lasting)

    def cut(self) -> None:
        """The connection broke. What was taken and did not arrive comes again on the next one."""
        _check(_cut(self._handle))

    def resume(self) -> None:
        """Asks a new connection to carry the link: the line for that waits to be sent."""
        _check(_resume(self._handle))

    def elapse(self, seconds: int) -> bool:
        """So many seconds passed since this was last told. Returns whether no byte has come for 90: then close the connection, and call `cut`."""
        return bool(_elapse(self._handle, seconds))

    @property
    def terms(self) -> Terms | None:
        """What the server said as it opened the link, once it has."""
        room, seconds, kept = ctypes.create_string_buffer(TOKEN_DIGITS), _U32(), _U32()
        answer = _token(self._handle, room, TOKEN_DIGITS, ctypes.byref(seconds), ctypes.byref(kept))
        if answer == NOT_OPEN:
            return None
        _check(answer)
        return Terms(room.raw.decode("ascii"), seconds.value, bool(kept.value))

    @property
    def arrived(self) -> int | None:
        """How many of its edits had their effect, once the link is over and the server has said so. They are the first that it made."""
        edits = _U32()
        answer = _arrived(self._handle, ctypes.byref(edits))
        if answer == NOT_OPEN:
            return None
        _check(answer)
        return edits.value


def _with_label(kind: Kind, win: int, wid: int, place: int, label: str) -> Command:
    data = label.encode("ascii", "replace")
    if len(data) > MOST_LABEL or data.decode() != label:
        raise Fault(BAD_LABEL)
    return Command(kind=kind, win=win, wid=wid, place=place, label_len=len(data), label_bytes=(ctypes.c_uint8 * MOST_LABEL)(*data))


def insert_char(win: int, wid: int, place: int, char: str) -> Command:
    """Inserts a character into a text."""
    return Command(kind=Kind.INSERT_CHAR, win=win, wid=wid, place=place, value=ord(char))


def insert_label(win: int, wid: int, place: int, label: str) -> Command:
    """Inserts an item into a list. A label has 1 to 48 bytes, each from a space to `~`."""
    return _with_label(Kind.INSERT_LABEL, win, wid, place, label)


def delete(win: int, wid: int, place: int) -> Command:
    """Deletes a character or an item."""
    return Command(kind=Kind.DELETE, win=win, wid=wid, place=place)


def relabel(win: int, wid: int, place: int, label: str) -> Command:
    """Gives an item of a list another label."""
    return _with_label(Kind.RELABEL, win, wid, place, label)


def set_toggle(win: int, wid: int, is_on: bool) -> Command:
    """Sets a toggle."""
    return Command(kind=Kind.SET_TOGGLE, win=win, wid=wid, value=int(is_on))


def set_slider(win: int, wid: int, value: int) -> Command:
    """Sets a slider."""
    return Command(kind=Kind.SET_SLIDER, win=win, wid=wid, value=value)
