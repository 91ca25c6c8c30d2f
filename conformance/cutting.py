#!/usr/bin/env python3
"""A relay of bytes between a client and a server. It passes a number of bytes of one way, and then breaks the connection in one of several modes."""
import argparse
import contextlib
import socket
import struct
import threading
import time

MODES = {
    "cut": "closes both ends",
    "reset": "closes both ends, and each end reads a reset",
    "silent": "passes nothing more either way, and closes nothing",
    "late": "closes the client's end, and passes what this had sent once the server has answered on a newer connection",
}
WAYS = ("up", "down")
# For how many seconds the mode `late` reads on what the client sends, before it closes the client's end.
HOLDS = 0.05


class Passage:
    """One connection of a client, with the relay's own to the server. A thread for each way passes bytes."""

    def __init__(self, relay, client, server):
        self.relay, self.ends = relay, {"up": (client, server), "down": (server, client)}
        self.client, self.server = client, server
        # Whether the relay has broken it, what the client sent and the server has not got, and whether the server has answered.
        self.is_broken, self.held, self.has_answered = False, b"", threading.Event()
        for end in (client, server):
            end.setsockopt(socket.IPPROTO_TCP, socket.TCP_NODELAY, 1)

    def start(self):
        for way in WAYS:
            threading.Thread(target=self.run, args=(way,), daemon=True).start()

    def run(self, way):
        try:
            self.passes_all(way)
        except OSError:  # an end has gone, or the relay has closed it
            if not self.is_broken:
                self.close()

    def passes_all(self, way):
        """Passes bytes until the sender ends its direction, or the relay breaks the connection."""
        source, sink = self.ends[way]
        while self.is_read() and (data := source.recv(65536)):
            time.sleep(self.relay.delay)
            self.passes(way, data)
        if not self.is_broken:
            sink.shutdown(socket.SHUT_WR)

    def is_read(self):
        return not self.is_broken or self.relay.mode == "late"

    def passes(self, way, data):
        """Passes bytes as far as the relay's plan says, and breaks the connection there."""
        count, breaks = (0, False) if self.is_broken else self.relay.takes(self, way, len(data))
        if count:
            self.ends[way][1].sendall(data[:count])
        if count and way == "down":
            self.has_answered.set()
        if way == "up":
            self.held += data[count:]
        if breaks:
            self.breaks()

    def breaks(self):
        """Breaks the connection in the mode of the relay."""
        self.is_broken = True
        if self.relay.mode in ("cut", "reset"):
            self.close()
        elif self.relay.mode == "late":
            threading.Thread(target=self.is_late, daemon=True).start()

    def is_late(self):
        """Closes the client's end, waits for the server's answer on a newer connection, and then passes what was held."""
        time.sleep(HOLDS)
        closes(self.client)
        self.relay.next_after(self).has_answered.wait()
        with contextlib.suppress(OSError):  # the server may have closed it
            self.server.sendall(self.held)
        closes(self.server)

    def close(self):
        for end in (self.client, self.server):
            closes(end, is_reset=self.relay.mode == "reset")


class Relay:
    """Listens at an address, and connects to `target` for each connection that it gets. The end of the `with` closes all.

    `after` are the counts of bytes of the way at which it breaks a connection, one after the other. They count over all connections, or over the first one only.
    """

    def __init__(self, target, way="up", after=(), mode="cut", delay=0, is_first_only=False, listen=("127.0.0.1", 0)):
        self.target, self.way, self.after, self.mode, self.delay, self.is_first_only = target, way, sorted(after), mode, delay, is_first_only
        # How many bytes passed each way over all connections, how many of them count, and how many connections it broke.
        self.passed, self.counted, self.broken = dict.fromkeys(WAYS, 0), 0, 0
        self.passages, self.bell = [], threading.Condition()
        self.listener = socket.create_server(listen, backlog=64)
        self.address = "%s:%d" % self.listener.getsockname()[:2]
        threading.Thread(target=self.run, daemon=True).start()

    def __enter__(self):
        return self

    def __exit__(self, *_):
        closes(self.listener)
        for passage in self.passages:
            passage.is_broken = True
            passage.close()

    def run(self):
        with contextlib.suppress(OSError):  # the listener was closed
            while True:
                self.begins(self.listener.accept()[0])

    def begins(self, client):
        host, _, port = self.target.rpartition(":")
        try:
            passage = Passage(self, client, socket.create_connection((host, int(port))))
        except OSError:
            closes(client)
            return
        with self.bell:
            self.passages.append(passage)
            self.bell.notify_all()
        if self.takes(passage, self.way, 0)[1]:
            passage.breaks()
        passage.start()

    def takes(self, passage, way, count):
        """Counts bytes that come. Returns how many of them pass, and whether the plan says to break the connection after these."""
        with self.bell:
            breaks = False
            if self.after and way == self.way and (not self.is_first_only or passage is self.passages[0]):
                count = min(count, self.after[0] - self.counted)
                self.counted += count
                breaks = self.counted == self.after[0]
            if breaks:
                del self.after[0]
                self.broken += 1
            self.passed[way] += count
            return count, breaks

    def next_after(self, passage):
        """The connection that came after this one. It waits for that."""
        with self.bell:
            while passage is self.passages[-1]:
                self.bell.wait()
            return self.passages[self.passages.index(passage) + 1]


def closes(end, is_reset=False):
    """Closes a socket, also if a thread is reading it."""
    with contextlib.suppress(OSError):  # the other end has gone
        if is_reset:
            end.setsockopt(socket.SOL_SOCKET, socket.SO_LINGER, struct.pack("ii", 1, 0))
        end.shutdown(socket.SHUT_RD if is_reset else socket.SHUT_RDWR)
    end.close()


def arguments():
    modes = ". ".join(f"{mode}: {what}" for mode, what in MODES.items())
    parser = argparse.ArgumentParser(description=__doc__, epilog=modes)
    parser.add_argument("target", metavar="HOST:PORT", help="the address of the server")
    parser.add_argument("--listen", default="127.0.0.1:0", metavar="HOST:PORT", help="the address at which clients connect; the relay prints it")
    parser.add_argument("--way", choices=WAYS, default="up", help="the way whose bytes count: up to the server, or down to the client")
    parser.add_argument("--after", type=int, action="append", default=[], metavar="BYTES", help="after how many bytes it breaks a connection; may be given several times")
    parser.add_argument("--mode", choices=MODES, default="cut", help="how it breaks a connection")
    parser.add_argument("--delay", type=float, default=0, metavar="SECONDS", help="how long each piece waits in the relay")
    parser.add_argument("--first", action="store_true", help="counts the bytes of the first connection only")
    return parser.parse_args()


def main():
    told = arguments()
    host, _, port = told.listen.rpartition(":")
    with Relay(told.target, told.way, told.after, told.mode, told.delay, told.first, (host, int(port))) as relay:
        print(f"listening {relay.address}", flush=True)
        with contextlib.suppress(KeyboardInterrupt):
            threading.Event().wait()


if __name__ == "__main__":
    main()
