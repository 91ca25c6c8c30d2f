"""A proxy that holds back what goes over a TCP link: each piece for a while each way, or all of it until it is let go. It also breaks links."""
import asyncio
import contextlib
import threading
import time

# How many bytes of a slow way are carried at a time.
PIECE = 512


class Lag:
    """Listens at a port and carries each link to another. It runs until the end of the process."""

    def __init__(self, port, target, seconds):
        self.port, self.target, self.seconds = port, target, seconds
        # Which way is held: "up" to the server, "down" from it. How many bytes a second a way takes, if it is slow.
        self.held, self.rates, self.links = set(), {}, set()
        # Whether new links are closed immediately, when each link came, and after how many bytes more of a way all links are cut.
        self.is_shut, self.came, self.left = False, [], {}
        self.loop = asyncio.new_event_loop()
        is_up = threading.Event()
        threading.Thread(target=self.serve, args=(is_up,), daemon=True).start()
        is_up.wait()

    def serve(self, is_up):
        asyncio.set_event_loop(self.loop)
        self.loop.run_until_complete(asyncio.start_server(self.link, "127.0.0.1", self.port))
        is_up.set()
        self.loop.run_forever()

    async def link(self, reader, writer):
        self.came.append(time.monotonic())
        try:
            if self.is_shut:
                raise ConnectionRefusedError
            inner, outer = await asyncio.open_connection("127.0.0.1", self.target)
        except OSError:
            writer.close()
            return
        self.links |= {writer, outer}
        await asyncio.gather(self.carry(reader, outer, "up"), self.carry(inner, writer, "down"))
        self.links -= {writer, outer}

    async def carry(self, reader, writer, way):
        """Carries one way of a link. Pieces keep their order, and the end comes after them."""
        waiting = asyncio.Queue()
        sending = asyncio.create_task(self.send(waiting, writer, way))
        with contextlib.suppress(OSError):
            while data := await reader.read(PIECE if way in self.rates else 65536):
                waiting.put_nowait((self.loop.time() + self.seconds, data))
                if way in self.rates:
                    await asyncio.sleep(len(data) / self.rates[way])
        waiting.put_nowait((self.loop.time() + self.seconds, b""))
        await sending

    async def send(self, waiting, writer, way):
        with contextlib.suppress(OSError):
            while True:
                due, data = await waiting.get()
                await asyncio.sleep(max(0, due - self.loop.time()))
                while way in self.held:
                    await asyncio.sleep(0.01)
                if not data:
                    break
                writer.write(self.cuts(way, data))
                await writer.drain()
                if self.left.get(way) == 0:
                    self.abort()
        writer.close()

    def cuts(self, way, data):
        """What of a piece is carried before the links are cut."""
        if way in self.left:
            data = data[: self.left[way]]
            self.left[way] -= len(data)
        return data

    def abort(self):
        self.left = {}
        for it in self.links:
            # What is written has to come before the end.
            it.close() if it.transport.get_write_buffer_size() == 0 else it.transport.abort()

    def cut(self):
        """Ends all links, and drops what is held. None of that goes on before the links have ended."""
        asyncio.run_coroutine_threadsafe(self.drop(), self.loop).result()

    async def drop(self):
        for it in self.links:
            it.transport.abort()
        self.held = set()

    def cut_after(self, way, count):
        """Ends all links once so many bytes more have gone a way."""
        self.left = {way: count}

    @contextlib.contextmanager
    def tunnel(self):
        """There is no link in it, and none can be made."""
        self.is_shut = True
        self.cut()
        try:
            yield
        finally:
            self.is_shut = False
