"""Shared code of the scripts that run a `jupweb` on loopback, and of peers that reach it by WebSockets.

Each script takes the path of a built `jupweb`. Without it `./run` builds one. `tools/requests`, `tools/frames` and `tools/serving` take this code too.
"""
import base64
import concurrent.futures
import contextlib
import io
import os
import re
import socket
import struct
import subprocess
import sys
import tempfile
import time

from peers import program

BOARD = b'window 1\ntext 1 "Hi"\nlist 2 "buy bread" "call Ann"\ntoggle 3 off\nslider 4 0 10 5\n'
# The opcodes of frames, with the bit of a message's last frame.
TEXT, BINARY, CLOSE, PING, PONG = 0x81, 0x82, 0x88, 0x89, 0x8A
# How many rows of a table are played at a time. Fewer connections than a server takes are open then.
SIDE_BY_SIDE = 32
# How many seconds pass between two pieces of bytes, so that a server reads each by itself.
PAUSE = 0.005
# A server that has ended a link closes its socket after a second without a byte. It has no reason to if the sender was held up for fewer seconds than these.
LINGERS = 0.9
# Bytes that are cut in two at each place, and the places at which longer ones are cut.
LONGEST_CUT, FIRST_CUTS = 300, 20


def jupweb():
    """The path of the program: the script's first argument, or what `./run` built."""
    return os.path.abspath(sys.argv[1]) if len(sys.argv) > 1 else program("jupweb")


class Server:
    """A `jupweb` that keeps a board in a file. The end of the `with` kills it."""

    def __init__(self, board=BOARD, folder=None, words=(), before=(), host="127.0.0.1", typed=subprocess.PIPE, program=None):
        self.folder = folder or tempfile.mkdtemp(prefix="jupweb-")
        self.file = f"{self.folder}/a.board"
        if board is not None:
            with open(self.file, "wb") as file:
                file.write(board)
        words = [*before, program or jupweb(), "--listen", f"{host}:0", "--board", self.file, *words]
        self.process = subprocess.Popen(words, stdin=typed, stdout=subprocess.PIPE, stderr=subprocess.PIPE)
        self.first = self.process.stdout.readline()
        # The program prints the port that the system has chosen.
        self.address = self.first.decode().strip().removeprefix("listening ")
        self.port = int(self.address.rpartition(":")[2] or 0)

    def __enter__(self):
        assert self.port and self.first.startswith(b"listening "), (self.first, self.process.stderr.read())
        return self

    def __exit__(self, *_):
        self.process.kill()
        self.process.communicate()

    def stop(self, seconds=30):
        """Tells it to stop. Returns its status, and what it printed after the first line."""
        said, wrong = self.process.communicate(b"stop\n", timeout=seconds)
        return self.process.returncode, said, wrong

    def saved(self):
        with open(self.file, "rb") as file:
            return file.read()

    def resident(self, kind="VmRSS"):
        """Its resident memory, in kB: all of it, or with RssAnon the part that is not the program's code."""
        with open(f"/proc/{self.process.pid}/status", encoding="ascii") as status:
            return next(int(line.split()[1]) for line in status if line.startswith(kind))


def frame(first, payload, mask=True, length=None):
    """A frame: its first byte, its length in the shortest form or in the form that is given, the key and the payload."""
    size = len(payload)
    bit = 0x80 if mask else 0
    form = length or (7 if size < 126 else 16 if size < 65_536 else 64)
    head = bytes([first]) + {7: lambda: bytes([bit | size]), 16: lambda: bytes([bit | 126]) + struct.pack(">H", size), 64: lambda: bytes([bit | 127]) + struct.pack(">Q", size)}[form]()
    if not mask:
        return head + payload
    key = os.urandom(4)
    return head + key + bytes(byte ^ key[at % 4] for at, byte in enumerate(payload))


def close_frame(code, reason=b""):
    return frame(CLOSE, struct.pack(">H", code) + reason)


def next_frame(file):
    """The next frame of a server, its first byte and its payload; `None` at the end."""
    head = file.read(2)
    if len(head) < 2:
        return None
    size = head[1]
    if size == 126:
        (size,) = struct.unpack(">H", file.read(2))
    elif size == 127:
        (size,) = struct.unpack(">Q", file.read(8))
    return head[0], file.read(size)


def upgrade(port, host=None, origin=None, version="13", key=None):
    """The head of a request for a link."""
    lines = ["GET /ws HTTP/1.1", f"Host: {host or f'127.0.0.1:{port}'}", "Connection: Upgrade", "Upgrade: websocket", f"Sec-WebSocket-Version: {version}"]
    lines.append(f"Sec-WebSocket-Key: {key or base64.b64encode(os.urandom(16)).decode()}")
    if origin is not None:
        lines.append(f"Origin: {origin}")
    return ("\r\n".join(lines) + "\r\n\r\n").encode()


class Browser:
    """A client by a WebSocket."""

    def __init__(self, port, head=None, receive_buffer=None):
        self.socket = socket.socket()
        if receive_buffer:
            self.socket.setsockopt(socket.SOL_SOCKET, socket.SO_RCVBUF, receive_buffer)
        self.socket.settimeout(30)
        self.socket.connect(("127.0.0.1", port))
        self.socket.setsockopt(socket.IPPROTO_TCP, socket.TCP_NODELAY, 1)
        self.file = self.socket.makefile("rb")
        self.send(head or upgrade(port))
        self.head = b""
        while line := self.file.readline():
            self.head += line
            if line == b"\r\n":
                break
        self.status = int(self.head.split()[1]) if self.head else None
        self.text, self.site, self.edits, self.items, self.heard, self.pings = b"", 0, 0, 0, 0, 0

    def send(self, data):
        self.socket.sendall(data)

    def say(self, text):
        """Sends lines as one text message."""
        self.send(frame(TEXT, text))

    def next(self):
        """The next frame, its first byte and its payload; `None` at the end."""
        return next_frame(self.file)

    def rest(self):
        """All frames to the end."""
        found = []
        with contextlib.suppress(OSError):
            while it := self.next():
                found.append(it)
        return found

    def line(self):
        """The next line that the server sends. It answers pings."""
        while b"\n" not in self.text:
            it = self.next()
            if it is None or it[0] == CLOSE:
                return b""
            if it[0] == PING:
                self.send(frame(PONG, it[1]))
            elif it[0] == TEXT:
                self.text += it[1]
            elif it[0] != PONG:
                raise AssertionError(f"the server sent a frame that begins with {it[0]:#x}")
        line, _, self.text = self.text.partition(b"\n")
        return line + b"\n"

    def hello(self):
        """Greets, and reads to `ready`. Returns the first line."""
        self.say(b"hello 3\n")
        first = self.line()
        if first.startswith(b"welcome "):
            self.site = int(first.split()[1])
            while (line := self.line()) != b"ready\n":
                assert line, "the link has ended"
        return first

    def edit(self, value=97):
        """Inserts a character at the front of text 1 of window 1."""
        self.edits += 1
        self.items += 1
        self.say(b"batch %d %d 1\ndo 1 1 text ins 0 %d.%d %d\n" % (self.edits - 1, self.heard, self.site, self.items, value))

    def undo(self):
        """Deletes the character that its last edit has inserted at the front of that text."""
        self.edits += 1
        self.say(b"batch %d %d 1\ndo 1 1 text del 0 %d.%d\n" % (self.edits - 1, self.heard, self.site, self.items))

    def sync(self):
        """Pings by a line, and reads to its pong."""
        self.pings += 1
        self.say(b"ping %d\n" % self.pings)
        while (line := self.line()) != b"pong %d\n" % self.pings:
            assert line, "the link has ended"
            if line.startswith(b"batch "):
                for _ in range(int(line.split()[3])):
                    self.line()
                self.heard += 1

    def close(self):
        self.file.close()
        self.socket.close()


def asked(port, data, wait=15):
    """All that the server answers to these bytes."""
    with socket.create_connection(("127.0.0.1", port), timeout=wait) as link:
        link.sendall(data)
        found = b""
        with contextlib.suppress(OSError):
            while piece := link.recv(65_536):
                found += piece
        return found


def status_of(answer):
    found = re.match(rb"HTTP/1\.1 (\d+)", answer)
    return int(found[1]) if found else None


def frames_of(data):
    """The frames that a server has sent. They are unmasked, and each length is in its shortest form."""
    file = io.BytesIO(data)
    found = list(iter(lambda: next_frame(file), None))
    expect(data, b"".join(frame(first, payload, mask=False) for first, payload in found))
    return found


def expect(found, due):
    if found != due:
        raise AssertionError(f"expected {due!r:.300}, but got {found!r:.300}")


def play_cut(data, play):
    """Plays bytes by a call that takes their pieces: whole, cut in two at each place, and byte by byte. Long bytes are cut in two at their first places alone."""
    at_most = len(data) if len(data) <= LONGEST_CUT else FIRST_CUTS
    bytewise = [[data[at : at + 1] for at in range(len(data))]] if at_most == len(data) else []
    for pieces in [[data], *([data[:at], data[at:]] for at in range(1, at_most)), *bytewise]:
        try:
            play(pieces)
        except AssertionError as fault:
            raise AssertionError(f"in {len(pieces)} pieces, the first of {len(pieces[0])} bytes: {fault}") from None


def send_pieces(link, pieces):
    """Sends pieces one by one. If the machine holds the sender up for so long that a server which has ended its link closes the socket, the rest is not sent. What the server said before can still be read."""
    begun = time.monotonic()
    for number, piece in enumerate(pieces):
        if number:
            time.sleep(PAUSE)
        try:
            link.sendall(piece)
        except (BrokenPipeError, ConnectionResetError):
            if time.monotonic() - begun < number * PAUSE + LINGERS:
                raise
            return


def fault_of(row):
    """What is wrong with a row of a table: a name, and a call that plays it and raises what is wrong. It is empty if nothing is."""
    name, play = row
    try:
        play()
    except (AssertionError, OSError, ValueError, struct.error, subprocess.TimeoutExpired) as fault:
        return f"{name}: {fault}"
    return ""


def judge(tool, rows):
    """Plays rows at the same time, and prints what is wrong with each, and how many passed. Returns the exit status of the tool."""
    with concurrent.futures.ThreadPoolExecutor(SIDE_BY_SIDE) as pool:
        faults = list(pool.map(fault_of, rows))
    wrong = [it for it in faults if it]
    for fault in wrong:
        print(f"{tool}: failed: {fault}", flush=True)
    print(f"{len(faults) - len(wrong)} passed, {len(wrong)} failed")
    return 1 if wrong or not faults else 0


def judge_at(tool, server, rows):
    """Judges the rows that a call makes for a server."""
    try:
        with server:
            return judge(tool, rows(server))
    except AssertionError as fault:
        print(f"{tool}: failed: the server does not start: {fault}\n0 passed, 1 failed")
        return 1
