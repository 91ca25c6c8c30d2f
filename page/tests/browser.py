"""A headless Chromium and its tabs, driven over the DevTools protocol with the standard library alone."""
import base64
import contextlib
import json
import os
import shutil
import socket
import struct
import subprocess
import tempfile
import threading
import time
import urllib.request

# How many seconds the browser, or an answer of it, may take.
PATIENCE = 60
# How the browser is started: without a window of the system, and so that a tab behind another works as one in front.
SWITCHES = (
    "--headless=new", "--no-first-run", "--disable-gpu", "--disable-extensions", "--disable-background-networking", "--disable-component-update", "--disable-sync",
    "--disable-background-timer-throttling", "--disable-renderer-backgrounding", "--disable-backgrounding-occluded-windows", "--remote-allow-origins=*",
)
# What a key press is besides its name: its code in DevTools, and the text that it types.
KEYS = {
    "Enter": (13, "\r"), "Tab": (9, None), "Backspace": (8, None), "Delete": (46, None), " ": (32, " "), "Home": (36, None), "End": (35, None),
    "ArrowLeft": (37, None), "ArrowUp": (38, None), "ArrowRight": (39, None), "ArrowDown": (40, None), "Escape": (27, None),
}
SHIFT, CONTROL = 8, 2


def program():
    """The path of Chromium, or None."""
    return next(filter(None, map(shutil.which, ("chromium", "chromium-browser", "google-chrome"))), None)


class Late(Exception):
    """Something did not become so in time."""


class WebSocket:
    """The client's end of a WebSocket with whole text messages, as DevTools sends them."""

    def __init__(self, url):
        host, _, path = url.removeprefix("ws://").partition("/")
        name, _, port = host.partition(":")
        self.socket = socket.create_connection((name, int(port)), timeout=PATIENCE)
        key = base64.b64encode(os.urandom(16)).decode()
        head = f"GET /{path} HTTP/1.1\r\nHost: {host}\r\nUpgrade: websocket\r\nConnection: Upgrade\r\nSec-WebSocket-Key: {key}\r\nSec-WebSocket-Version: 13\r\n\r\n"
        self.socket.sendall(head.encode())
        self.socket.settimeout(None)
        self.file = self.socket.makefile("rb")
        while self.file.readline() not in (b"\r\n", b""):
            pass

    def send(self, text):
        data = text.encode()
        size = len(data)
        long = b"\xfe" + struct.pack(">H", size) if size < 65536 else b"\xff" + struct.pack(">Q", size)
        # A mask of zeros leaves the data as it is.
        self.socket.sendall(b"\x81" + (bytes([0x80 | size]) if size < 126 else long) + bytes(4) + data)

    def receive(self):
        """The next message, or None after the last."""
        whole = b""
        while head := self.file.read(2):
            size = head[1] & 127
            if size > 125:
                size = int.from_bytes(self.file.read(2 if size == 126 else 8), "big")
            whole += self.file.read(size)
            if head[0] & 15 == 8:
                return None
            if head[0] & 128:
                return whole.decode()
        return None


class Target:
    """What DevTools drives: the browser or a tab."""

    def __init__(self, url):
        self.socket, self.count, self.answers, self.events, self.news = WebSocket(url), 0, {}, [], threading.Condition()
        self.hearing = threading.Thread(target=self.hear, daemon=True)
        self.hearing.start()

    def hear(self):
        with contextlib.suppress(OSError, ValueError):
            while text := self.socket.receive():
                message = json.loads(text)
                self.meet(message)
                with self.news:
                    if "id" in message:
                        self.answers[message["id"]] = message
                    else:
                        self.events.append(message)
                    self.news.notify_all()

    def meet(self, message):
        """Does what a message needs immediately. It runs in the thread that hears, so it waits for no answer."""

    def send(self, method, **given):
        """Sends a call, and returns its number. The one that calls it has `news`."""
        self.count += 1
        self.socket.send(json.dumps({"id": self.count, "method": method, "params": given}))
        return self.count

    def call(self, method, **given):
        """Calls a method of DevTools, and returns its result."""
        with self.news:
            number = self.send(method, **given)
            if not self.news.wait_for(lambda: number in self.answers, PATIENCE):
                raise Late(f"no answer of the browser to {method}")
            answer = self.answers.pop(number)
        if "error" in answer:
            raise RuntimeError(f"{method}: {answer['error']}")
        return answer["result"]


class Tab(Target):
    """A tab. Its keys and its pointer are those of a user."""

    def __init__(self, url):
        super().__init__(url)
        for domain in ("Page", "Runtime", "Log", "DOM", "Accessibility"):
            self.call(f"{domain}.enable")
        self.call("Emulation.setFocusEmulationEnabled", enabled=True)

    def meet(self, message):
        """A page that asks whether to leave it is left."""
        if message.get("method") == "Page.javascriptDialogOpening":
            with self.news:
                self.send("Page.handleJavaScriptDialog", accept=True)

    def asked(self):
        """How many times a page has asked whether to leave it."""
        return sum(it["method"] == "Page.javascriptDialogOpening" and it["params"]["type"] == "beforeunload" for it in list(self.events))

    def run(self, code):
        """Evaluates an expression of JavaScript, and returns its value, or that of its promise."""
        answer = self.call("Runtime.evaluate", expression=code, returnByValue=True, awaitPromise=True)
        if "exceptionDetails" in answer:
            raise RuntimeError(answer["exceptionDetails"].get("exception", {}).get("description", str(answer)))
        return answer["result"].get("value")

    def until(self, code, seconds=None):
        """Waits until an expression is true, and returns its value."""
        seconds = seconds or PATIENCE
        end = time.monotonic() + seconds
        while not (found := self.run(code)):
            if time.monotonic() > end:
                raise Late(f"after {seconds} seconds this is not so: {code}")
            time.sleep(0.02)
        return found

    def open(self, url):
        self.call("Page.navigate", url=url)

    def close(self):
        """Closes the tab, if it is not closed yet."""
        if self.hearing.is_alive():
            with self.news, contextlib.suppress(OSError):
                self.send("Page.close")
        self.hearing.join(PATIENCE)

    def reload(self):
        """Loads the page again. What was set in its window is gone."""
        self.run("window.isOld = true")
        self.call("Page.reload")
        end = time.monotonic() + PATIENCE
        while time.monotonic() < end:
            with contextlib.suppress(RuntimeError):
                if not self.run("window.isOld"):
                    return
            time.sleep(0.02)
        raise Late("the page is not loaded again")

    def type(self, text, pause=0.0):
        """Presses the key of each character."""
        for it in text:
            self.press("Enter" if it == "\n" else it)
            time.sleep(pause)

    def press(self, name, modifiers=0, commands=()):
        """Presses a key. `commands` are what an editor of the system does for it, as "paste"."""
        code, text = KEYS.get(name, (0, name))
        key = {"key": name, "code": name, "windowsVirtualKeyCode": code, "modifiers": modifiers}
        typed = {"type": "keyDown", "text": text} if text and not commands else {"type": "rawKeyDown"}
        self.call("Input.dispatchKeyEvent", commands=list(commands), **typed, **key)
        self.call("Input.dispatchKeyEvent", type="keyUp", **key)

    def middle(self, element):
        """Where the middle of an element is, which an expression gives. It is scrolled into view."""
        return self.run(f"(() => {{ const it = {element}; it.scrollIntoView({{ block: 'center' }}); const b = it.getBoundingClientRect(); return [b.x + b.width / 2, b.y + b.height / 2]; }})()")

    def click_at(self, place, times=1):
        """Clicks at a place, as often as a user does in quick succession: the second click of a double click is counted as such."""
        for count in range(1, times + 1):
            for kind in ("mousePressed", "mouseReleased"):
                self.call("Input.dispatchMouseEvent", type=kind, x=place[0], y=place[1], button="left", clickCount=count)

    def click(self, element, times=1):
        """Clicks in the middle of an element, which an expression gives."""
        self.click_at(self.middle(element), times)

    def shot(self, path):
        with open(path, "wb") as file:
            file.write(base64.b64decode(self.call("Page.captureScreenshot", format="png")["data"]))

    def complaints(self):
        """What the browser's log has as an error or a violation, and what the page's script threw."""
        for it in list(self.events):
            if it["method"] == "Runtime.exceptionThrown":
                details = it["params"]["exceptionDetails"]
                yield details.get("exception", {}).get("description", details["text"])
            elif it["method"] == "Log.entryAdded" and it["params"]["entry"]["level"] == "error":
                yield it["params"]["entry"]["text"]


class Browser:
    """A browser with a profile of its own, which is gone at the end of the `with`."""

    def __enter__(self):
        self.folder = tempfile.mkdtemp(prefix="page-")
        words = [program(), *SWITCHES, *(["--no-sandbox"] if os.geteuid() == 0 else []), f"--user-data-dir={self.folder}", "--remote-debugging-port=0", "about:blank"]
        self.process = subprocess.Popen(words, stdin=subprocess.DEVNULL, stdout=subprocess.DEVNULL, stderr=subprocess.DEVNULL, start_new_session=True)
        end = time.monotonic() + PATIENCE
        while time.monotonic() < end:
            with contextlib.suppress(OSError, ValueError):
                with open(f"{self.folder}/DevToolsActivePort", encoding="utf-8") as file:
                    self.port = int(file.readline())
                self.whole = Target(self.ask("version")["webSocketDebuggerUrl"])
                return self
            time.sleep(0.05)
        raise Late("the browser does not answer")

    def __exit__(self, *_):
        self.process.terminate()
        try:
            self.process.wait(PATIENCE)
        except subprocess.TimeoutExpired:
            self.process.kill()
        shutil.rmtree(self.folder, ignore_errors=True)

    def ask(self, what, method="GET"):
        request = urllib.request.Request(f"http://127.0.0.1:{self.port}/json/{what}", method=method)
        with urllib.request.urlopen(request, timeout=PATIENCE) as answer:
            return json.loads(answer.read())

    def tab(self, **where):
        """A new tab, in a window of its own."""
        target = self.whole.call("Target.createTarget", url="about:blank", newWindow=True, **where)["targetId"]
        return Tab(f"ws://127.0.0.1:{self.port}/devtools/page/{target}")
