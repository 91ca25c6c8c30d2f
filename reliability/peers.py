"""Shared code of the scripts of this folder: a `jupd` on a free port of loopback, and peers that send and read lines of a link.

Each script takes the path of a built `jupd`. Without it `./run` builds one.
"""
import contextlib
import glob
import os
import resource
import secrets
import socket
import subprocess
import sys
import tempfile
import time

ROOT = os.path.dirname(os.path.dirname(os.path.abspath(__file__)))
# The numbers of the system calls sendto and write, as /proc shows them of a thread that waits in one.
SENDS = (b"44 ", b"1 ")


def program(name="jupd"):
    """The path of the program: the script's argument, or what `./run` built."""
    if name == "jupd" and len(sys.argv) > 1:
        return os.path.abspath(sys.argv[1])
    subprocess.run([f"{ROOT}/run", name, "--help"], stdout=subprocess.DEVNULL, check=True)
    return f"{ROOT}/crates/{name}/out/run/{name}"


def free_port():
    """A port that nobody listens at. The system gives connections higher ports, so none takes this one before the program listens."""
    while True:
        port = 20_000 + secrets.randbelow(12_000)
        with socket.socket() as probe, contextlib.suppress(OSError):
            probe.bind(("127.0.0.1", port))
            return port


class Daemon:
    """A `jupd` that serves a layout, with `more` options, in the script's environment or in another. The end of the `with` stops it."""

    def __init__(self, layout, sessions, limit=1_000_000, most_memory=None, environment=None, more=()):
        self.port = free_port()
        words = ["--listen", f"127.0.0.1:{self.port}", "--limit", str(limit), "--sessions", str(sessions), *more]
        bound = lambda: most_memory and resource.setrlimit(resource.RLIMIT_AS, (most_memory, most_memory))
        with tempfile.TemporaryFile() as text:
            text.write(layout)
            text.seek(0)
            self.process = subprocess.Popen([program(), *words], stdin=text, stdout=subprocess.PIPE, preexec_fn=bound, env=environment)
        assert self.process.stdout.readline().startswith(b"listening ")

    def __enter__(self):
        return self

    def __exit__(self, *_):
        self.process.kill()
        self.process.wait()

    def resident(self, kind="VmRSS"):
        """Its resident memory, in kB: all of it, or with RssAnon the part that is not the program's code."""
        with open(f"/proc/{self.process.pid}/status") as status:
            return next(int(line.split()[1]) for line in status if line.startswith(kind))

    def writes_that_wait(self):
        """How many of its threads wait in a write to a socket."""
        count = 0
        for task in glob.glob(f"/proc/{self.process.pid}/task/*/syscall"):
            with open(task, "rb") as call:
                count += call.read().startswith(SENDS)
        return count

    def ends_within(self, seconds):
        """Whether it exits by itself, with status 0, within so many seconds. `printed` is then what it printed."""
        try:
            self.printed = self.process.communicate(timeout=seconds)[0]
            return self.process.returncode == 0
        except subprocess.TimeoutExpired:
            return False


class Peer:
    """One end of a link."""

    def __init__(self, daemon, receive_buffer=None):
        self.socket = socket.socket()
        if receive_buffer:
            self.socket.setsockopt(socket.SOL_SOCKET, socket.SO_RCVBUF, receive_buffer)
        self.socket.settimeout(30)
        self.socket.connect(("127.0.0.1", daemon.port))
        self.socket.setsockopt(socket.IPPROTO_TCP, socket.TCP_NODELAY, 1)
        self.lines = self.socket.makefile("rb")
        self.site, self.edits, self.items, self.heard, self.pings = 0, 0, 0, 0, 0

    def send(self, text):
        self.socket.sendall(text)

    def hello(self):
        """Greets, and reads to `ready`."""
        self.send(b"hello 3\n")
        self.site = int(self.lines.readline().split()[1])
        while self.lines.readline() != b"ready\n":
            pass

    def edit(self, times=1):
        """Inserts a character at the front of text 1 of window 1, or so many in one edit."""
        batch = b"batch %d %d %d\n" % (self.edits, self.heard, times)
        self.edits += 1
        self.send(batch + b"".join(b"do 1 1 text ins 0 %d.%d 97\n" % (self.site, self.items + it) for it in range(1, times + 1)))
        self.items += times

    def relabel(self, times=32):
        """Gives item 0.1 of list 2 of window 1 other labels, so many in one edit. The board does not grow."""
        self.edits += 1
        batch = b"batch %d %d %d\n" % (self.edits - 1, self.heard, times)
        self.send(batch + b"".join(b"do 1 2 list rel 0 0.1 %s\n" % (b"%02d" % it * 24) for it in range(times)))

    def sync(self):
        """Pings, and reads to the pong."""
        self.pings += 1
        self.send(b"ping %d\n" % self.pings)
        while True:
            line = self.lines.readline()
            if line.startswith(b"batch "):
                self.hear(int(line.split()[3]))
            elif line == b"pong %d\n" % self.pings:
                return
            elif not line.startswith(b"ack "):
                raise AssertionError(f"site {self.site} read {line}")

    def acknowledge(self):
        """Acknowledges all edits that it has read."""
        self.send(b"ack %d\n" % self.heard)

    def hear(self, count):
        """Reads the operations of an edit after its first line."""
        for _ in range(count):
            assert self.lines.readline().startswith(b"do ")
        self.heard += 1

    def bye(self):
        self.send(b"bye\n")
        while self.lines.readline() not in (b"bye\n", b""):
            pass

    def close(self):
        """Ends the link and sends nothing."""
        self.lines.close()
        self.socket.close()


def shows(what, holds):
    """Prints what was seen, and ends the script if that is not as specified."""
    print(("yes: " if holds else "NO:  ") + what, flush=True)
    if not holds:
        sys.exit(1)


def wait(seconds):
    time.sleep(seconds)
