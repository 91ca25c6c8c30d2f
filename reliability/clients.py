"""Shared code of the scripts in which clients meet strangers. A client is a running `jup` that keeps to the protocol. A stranger sends what it likes.

Such a script takes the paths of a built `jupd` and of a built `jup`. Without them `./run` builds both.
"""
import os
import random
import socket
import struct
import subprocess
import sys
import threading
import time

from peers import Peer, program

LAYOUT = b"window 1\ntext 1\nlist 2\ntoggle 3 off\nslider 4 0 10 5\n"

COMMANDS = (
    'ins 1 1 0 char "a"',
    "del 1 1 0",
    'ins 1 2 0 item "tea"',
    'rel 1 2 0 "milk"',
    "del 1 2 0",
    "set 1 3 on",
    "set 1 3 off",
    "set 1 4 7",
    'batch 2\nins 1 1 0 char "b"\nset 1 4 3',
)


def jup():
    """The path of the client: the script's second argument, or what `./run` built."""
    return os.path.abspath(sys.argv[2]) if len(sys.argv) > 2 else program("jup")


class Honest:
    """A client that keeps to the protocol: a `jup` that gets its commands as lines."""

    def __init__(self, daemon):
        words = [jup(), "--connect", f"127.0.0.1:{daemon.port}"]
        self.process = subprocess.Popen(words, stdin=subprocess.PIPE, stdout=subprocess.PIPE, text=True, bufsize=1)
        self.site = int(self.process.stdout.readline().split()[1])
        self.edits = 0

    def say(self, command):
        """Sends one command, and returns the first line of the answer."""
        self.process.stdin.write(command + "\n")
        self.process.stdin.flush()
        return self.process.stdout.readline()

    def edit(self, command):
        """Makes an edit, and counts it unless the client refuses it."""
        self.edits += self.say(command).startswith("made ")

    def sync(self):
        assert self.say("sync") == "synced\n", f"site {self.site} was not synced"

    def board(self):
        """The board as the client prints it."""
        lines = [self.say("show")]
        self.process.stdin.write("what\n")
        while True:
            line = self.process.stdout.readline()
            if line in ("bad command\n", ""):
                return "".join(lines)
            lines.append(line)

    def quit(self):
        """Quits. Returns whether the client exited with status 0."""
        return self.say("quit") == "bye\n" and self.process.wait(timeout=30) == 0


def edit_on(clients, rounds, is_over):
    """Has the clients edit at random and sync in turn, for at least `rounds` rounds and until `is_over`. Returns how long the longest sync took, in seconds."""
    dice, longest, done = random.Random(1995), 0.0, 0
    while done < rounds or not is_over():
        for client in clients:
            for _ in range(dice.randrange(1, 4)):
                client.edit(dice.choice(COMMANDS))
            start = time.monotonic()
            client.sync()
            longest = max(longest, time.monotonic() - start)
        done += 1
    return longest


def agree(clients):
    """Syncs all clients. Returns whether they then show one board, and that board."""
    for _ in range(2):
        for client in clients:
            client.sync()
    boards = {client.board() for client in clients}
    return len(boards) == 1, boards.pop()


def in_threads(count, work):
    """Runs `work(k)` in `count` threads, and raises what one of them raised."""
    faults = []

    def one(k):
        try:
            work(k)
        except BaseException as fault:  # raised again below
            faults.append(fault)

    threads = [threading.Thread(target=one, args=(k,)) for k in range(count)]
    for thread in threads:
        thread.start()
    for thread in threads:
        thread.join()
    if faults:
        raise faults[0]


class Stranger(Peer):
    """A peer that reads everything that comes, and keeps the last line."""

    def __init__(self, daemon):
        super().__init__(daemon)
        self.last = b""

    def read_on(self):
        """Reads to the end of the link, and keeps its last line."""
        try:
            for line in self.lines:
                self.last = line
        except OSError:
            pass

    def reset(self):
        """Resets the link, whatever is on its way."""
        self.socket.setsockopt(socket.SOL_SOCKET, socket.SO_LINGER, struct.pack("ii", 1, 0))
        self.close()
