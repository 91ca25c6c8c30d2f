"""A relay from a client by lines to a `jupweb` by WebSockets. `through_websockets.py LISTEN TARGET` runs it for two ports of loopback, and it prints the port at which it listens. A third port is that of the server, if another relay is before it."""
import asyncio
import contextlib
import os
import socket
import struct
import subprocess
import sys

from browsers import BINARY, CLOSE, PING, PONG, TEXT, frame, upgrade

# How many bytes each side of the relay holds. A peer that reads nothing has to reach the server, as it does without a relay.
ROOM = 4_096
# For how many seconds a server reads on at most after its close.
READS_ON = 10


async def send_all(reader, outer):
    """Sends what comes as messages. The end of the bytes becomes a close."""
    with contextlib.suppress(OSError):
        while data := await reader.read(ROOM):
            outer.write(frame(BINARY, data))
            await outer.drain()
        outer.write(frame(CLOSE, struct.pack(">H", 1_000)))
        await outer.drain()


async def next_frame(inner):
    first, size = await inner.readexactly(2)
    if size == 126:
        (size,) = struct.unpack(">H", await inner.readexactly(2))
    elif size == 127:
        (size,) = struct.unpack(">Q", await inner.readexactly(8))
    return first, await inner.readexactly(size)


async def receive_all(inner, outer, writer):
    """Gives on the payloads of messages, and answers pings, up to a close. Returns whether one came."""
    with contextlib.suppress(OSError, asyncio.IncompleteReadError):
        while True:
            first, payload = await next_frame(inner)
            if first == CLOSE:
                return True
            if first == PING:
                outer.write(frame(PONG, payload))
            elif first == TEXT:
                writer.write(payload)
                await writer.drain()
    return False


async def narrow_connection(target):
    """A connection that holds few bytes which its reader has not taken."""
    narrow = socket.socket()
    for room in (socket.SO_RCVBUF, socket.SO_SNDBUF):
        narrow.setsockopt(socket.SOL_SOCKET, room, ROOM)
    # Over loopback a segment is large, and so is what the server's system then holds.
    narrow.setsockopt(socket.IPPROTO_TCP, socket.TCP_MAXSEG, 536)
    narrow.setblocking(False)
    await asyncio.get_running_loop().sock_connect(narrow, ("127.0.0.1", target))
    return await asyncio.open_connection(sock=narrow, limit=ROOM)


async def relay(reader, writer, target, server):
    inner, outer = await narrow_connection(target)
    writer.get_extra_info("socket").setsockopt(socket.SOL_SOCKET, socket.SO_SNDBUF, ROOM)
    writer.transport.set_write_buffer_limits(ROOM)
    outer.write(upgrade(server))
    with contextlib.suppress(OSError, asyncio.IncompleteReadError):
        await inner.readuntil(b"\r\n\r\n")
        sending = asyncio.create_task(send_all(reader, outer))
        if await receive_all(inner, outer, writer):
            # The client reads the end of the server's bytes. What it still sends goes to the server, as long as that reads on.
            writer.write_eof()
            await asyncio.wait((sending,), timeout=READS_ON)
        sending.cancel()
    for it in (writer, outer):
        with contextlib.suppress(OSError):
            it.close()


async def serve(port, target, server=None):
    listener = await asyncio.start_server(lambda reader, writer: relay(reader, writer, target, server or target), "127.0.0.1", port)
    print(listener.sockets[0].getsockname()[1], flush=True)
    async with listener:
        await listener.serve_forever()


class Relay:
    """A relay in a process of its own. The end of the `with` kills it."""

    def __init__(self, target, server=None):
        ports = 0, target, server or target
        self.process = subprocess.Popen([sys.executable, os.path.abspath(__file__), *map(str, ports)], stdout=subprocess.PIPE)

    def __enter__(self):
        self.port = int(self.process.stdout.readline())
        return self

    def __exit__(self, *_):
        self.process.kill()
        self.process.communicate()


if __name__ == "__main__":
    asyncio.run(serve(*map(int, sys.argv[1:])))
