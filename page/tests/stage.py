"""What the parts of the page's tests share: a server, two tabs of which one is far away, and what they show."""
import contextlib
import functools
import json
import os
import signal
import socket
import subprocess
import sys
import tempfile
import threading
import time

from browser import CONTROL, Late
from lag import Lag

TOP = os.path.dirname(os.path.dirname(os.path.dirname(os.path.abspath(__file__))))
sys.path.insert(0, f"{TOP}/conformance")
from links import Differs, free_address  # noqa: E402

LIMIT = 1_000_000
# How many seconds a piece takes each way to the tab that is far away.
ONE_WAY = 0.08
PATIENCE = 180
# How many seconds a page may take for what it does by itself.
SOON = 20
# How long two tabs have to show the same before that counts.
STEADY = 0.5
BOARD = """window 1
text 1 "Hi"
list 2 "buy bread" "call Ann"
toggle 3 off
slider 4 0 10 5
window 2
text 1 ""
slider 2 -100 100 0
"""
CAPTIONS = """1 "Party"
1.1 "Notes"
1.2 "Who brings what"
1.3 "Everything is paid"
1.4 "Guests"
2 "Later"
2.1 "More \\"notes\\""
"""
# The texts, the labels of lists, the toggles and the sliders that a page shows, in their order. An item that others have deleted is not among them.
SHOWN = """[...document.querySelectorAll('main .widget')].map((it) => {
  const [area, list, box, range] = ['textarea:not(.notice textarea)', 'ol', '[role=switch]', '[type=range]'].map((kind) => it.querySelector(kind));
  return area ? area.value : list ? [...list.querySelectorAll('li:not(.ghost) input')].map((field) => field.value) : box ? box.checked : Number(range.value);
})"""
STATE = "document.body?.dataset.stage"
# Whether a page has joined. A moment later it may know that the board is full.
IS_JOINED = f"['open', 'full'].includes({STATE})"
# Whether a page has no link: one of protocol 3 is lost, and one of protocol 4 waits for a connection.
IS_OFFLINE = f"['lost', 'offline'].includes({STATE})"
# The areas of texts. A notice in a widget may have an area too, which comes after that of the widget.
AREAS = "document.querySelectorAll('main .widget textarea:not(.notice textarea)')"
AREA, OTHER_AREA = f"{AREAS}[0]", f"{AREAS}[1]"
# The first list: what adds an item, the fields of its items, and the hint at the field that adds.
ADD = "document.querySelector('.row > input[id]')"
PLUS = f"{ADD}.parentElement.querySelector('button')"
ROWS = "[...document.querySelectorAll('ol > li')]"
FIELDS = "[...document.querySelectorAll('ol input')]"
ADD_HINT = f"([...{ADD}.closest('.widget').querySelectorAll('.hint')].find((it) => !it.closest('li') && it.checkVisibility())?.textContent ?? '')"
# What the first list shows, and the row of an item that others have deleted.
LABELS = f"{FIELDS}.filter((it) => !it.closest('.ghost')).map((it) => it.value)"
GHOST = "document.querySelector('li.ghost')"
TOGGLE = "document.querySelector('[role=switch]')"
RANGES = "[...document.querySelectorAll('[type=range]')]"
NUMBERS = "[...document.querySelectorAll('[type=number]')]"
# The head of the page, and the notices.
WORDS = "document.getElementById('state')?.textContent"
COUNT = "document.getElementById('notice-count')"
NOTICES = "[...document.querySelectorAll('.notice')]"
# How many notices the head counts, in its words, and the texts that notices offer.
COUNTED = f"({COUNT}?.checkVisibility() ? {COUNT}.textContent.trim() : '')"
OFFERED = f"{NOTICES}.flatMap((it) => [...it.querySelectorAll('textarea[readonly]')].map((area) => area.value))"

# Does something with the store of the browser's records. `done` ends it.
OPENED = "new Promise((done) => { const asked = indexedDB.open('gidzvruka'); asked.onupgradeneeded = () => asked.transaction.abort(); asked.onerror = () => done(0); asked.onsuccess = () => { const store = asked.result.transaction('records', 'readwrite').objectStore('records'); %s } })"
ALL_KEPT = OPENED % "store.getAll().onsuccess = ({ target }) => { asked.result.close(); done(target.result); };"


def are_kept(tab, count, text=""):
    """Waits until the browser keeps so many records of the board's server, and one of them offers a text."""
    offers = f"JSON.stringify([it.words ?? [], it.texts]).includes({json.dumps(text)})"
    tab.until(f"(async () => {{ const all = (await {ALL_KEPT}) || []; return all.length === {count} && ({count} === 0 || all.some((it) => {offers})); }})()")


@contextlib.contextmanager
def clock_stands(tab):
    """In it the clocks of the page stand still, so what a slow machine does late counts as done immediately. They go on by `passes` alone."""
    tab.run("(() => { const [now, date] = [performance.now(), Date.now()]; window.passed = 0; performance.now = () => now + passed; window.dateNow = Date.now; Date.now = () => date + passed; })()")
    try:
        yield
    finally:
        tab.run("delete performance.now, Date.now = dateNow, null")


def passes(tab, seconds):
    """The clocks that stand still go on by so many seconds."""
    tab.run(f"passed += {1000 * seconds}")


def expect(found, wanted, what):
    if found != wanted:
        raise Differs(f"{what}: expected {wanted!r}, but got {found!r}")


def comes(look, wanted, what):
    """Waits until a look finds what is wanted. It is for what needs the server or the other tab. What a tab does by itself is there immediately, as `expect` tests it."""
    end = time.monotonic() + PATIENCE
    while (found := look()) != wanted and time.monotonic() < end:
        time.sleep(0.05)
    expect(found, wanted, what)


def expect_that(is_so, what):
    if not is_so:
        raise Differs(f"it is not so that {what}")


@functools.cache
def lasts(program):
    """Whether the links of a `jupweb` outlive their connections."""
    return b"--grace" in subprocess.run([program, "--help"], capture_output=True, check=False).stdout


class Server:
    """A `jupweb` with a board of its own, at an address that it keeps when it is started again. Its links wait so many seconds for a connection, if they can."""

    def __init__(self, program, board=BOARD, limit=LIMIT, origin=None, page=None, grace=None):
        self.folder = tempfile.TemporaryDirectory(prefix="page-")
        self.board, self.captions = f"{self.folder.name}/board", f"{self.folder.name}/captions"
        for path, text in ((self.board, board), (self.captions, CAPTIONS)):
            with open(path, "w", encoding="utf-8") as file:
                file.write(text)
        self.address = free_address()
        self.port = int(self.address.split(":")[1])
        self.words = [program, "--listen", self.address, "--board", self.board, "--limit", str(limit), "--captions", self.captions]
        self.words += ["--origin", f"http://{origin}"] if origin else []
        self.words += ["--page", page] if page else []
        self.words += ["--grace", str(grace)] if grace is not None else []
        self.start()

    @property
    def url(self):
        return f"http://{self.address}/"

    def start(self):
        self.process = subprocess.Popen(self.words, stdin=subprocess.PIPE, stdout=subprocess.DEVNULL)
        end = time.monotonic() + PATIENCE
        while time.monotonic() < end and self.process.poll() is None:
            with contextlib.suppress(OSError), socket.create_connection(("127.0.0.1", self.port), 1):
                return
            time.sleep(0.05)
        raise Late("the server does not listen")

    def kill(self):
        self.process.send_signal(signal.SIGKILL)
        self.process.wait()

    def stop(self):
        """Stops it as its user does, by a line."""
        with contextlib.suppress(OSError):
            self.process.stdin.write(b"stop\n")
            self.process.stdin.flush()
        try:
            self.process.wait(PATIENCE)
        except subprocess.TimeoutExpired:
            self.kill()
            raise Differs("the server does not stop") from None

    def kept(self):
        with open(self.board, encoding="utf-8") as file:
            return file.read()


class Stage:
    """A server, a tab beside it and one that is far away, in a browser. Without `is_far` both are beside it. Times may be `slack` times as long as they are meant to be."""

    def __init__(self, browser, program, is_far=True, shots=None, slack=1, **how):
        self.browser, self.shots, self.slack = browser, shots, slack
        far = free_address()
        self.lasts, self.server = lasts(program), Server(program, origin=far, **how)
        self.lag = Lag(int(far.split(":")[1]), self.server.port, ONE_WAY)
        self.a, self.b = browser.tab(), browser.tab()
        self.tabs = [self.a, self.b]
        self.far = f"http://{far}/" if is_far else self.server.url
        self.a.open(self.server.url)
        self.b.open(self.far)
        for it in self.tabs:
            it.until(f"{STATE} === 'open'")

    def __enter__(self):
        return self

    def __exit__(self, *_):
        for it in self.tabs:
            it.close()
        if self.server.process.poll() is None:
            self.server.kill()
        self.server.folder.cleanup()

    def opens_again(self, before=None):
        """B opens the board in a new tab. The old one is closed, if it is not yet. `before` is evaluated in between, where the board is not open."""
        self.b.close()
        self.b = self.tabs[1] = self.browser.tab()
        if before:
            self.opens_beside(self.b, before)
        self.b.open(self.far)
        self.b.until(IS_JOINED)

    def opens_beside(self, tab, code):
        """Opens something of the server beside the board, and evaluates code there."""
        tab.open(f"{self.far}captions")
        tab.until(f"location.href === '{self.far}captions' && document.readyState === 'complete'")
        tab.run(code)

    def picture(self, tab, name):
        """Leaves a picture of a tab, if a folder for it is given."""
        if self.shots:
            tab.shot(f"{self.shots}/{name}.png")

    def agreed(self, decides=lambda tab: False):
        """Waits until both tabs show the same, and have nothing that is not confirmed. Returns what they show. `decides` does what a tab waits for, and returns whether there was something."""
        end = time.monotonic() + PATIENCE
        since, last = time.monotonic(), None
        while time.monotonic() < end:
            has_decided = any([decides(it) for it in self.tabs])
            shown = [it.run(SHOWN) for it in self.tabs]
            is_quiet = not has_decided and all(it.run(STATE) in ("open", "full") for it in self.tabs)
            if not is_quiet or shown[0] != shown[1] or shown[0] != last:
                since, last = time.monotonic(), shown[0]
            elif time.monotonic() - since > STEADY:
                return last
            time.sleep(0.05)
        raise Differs(f"the tabs do not come to show the same: {shown}")

    def agrees_on(self, *texts):
        """Tests that both come to show these widgets first."""
        expect(self.agreed()[: len(texts)], list(texts), "what both tabs show")


def row(label):
    """The row of an item."""
    return f"{ROWS}.find((it) => it.querySelector('input').value === {json.dumps(label)})"


def row_with(words):
    """The row of an item that has these words."""
    return f"{ROWS}.find((it) => !it.matches('.ghost') && ` ${{it.querySelector('input').value}} `.includes({json.dumps(f' {words} ')}))"


def button(words, within="document"):
    """The button in sight with these words."""
    return f"[...({within})?.querySelectorAll('button') ?? []].find((it) => it.textContent.trim() === {json.dumps(words)} && it.checkVisibility())"


def named(name):
    """The button with a name for readers of the screen."""
    return f"[...document.querySelectorAll('button')].find((it) => it.ariaLabel === {json.dumps(name)} && it.checkVisibility())"


def hint(label):
    """What the hint at an item says."""
    return f"({row(label)}?.querySelector('.hint:not([hidden])')?.textContent ?? '')"


def select_all(tab):
    tab.press("a", CONTROL, ["selectAll"])


def retype(tab, field, text):
    """Clicks into a field, and types in place of all that it has."""
    tab.click(field)
    select_all(tab)
    tab.type(text)


def put(tab, text):
    """Puts a text in place of what is selected, all of it in one event, as an input method does it."""
    tab.call("Input.insertText", text=text)


def paste(tab, text, element):
    """Pastes a text into a field in place of all that it has, by the clipboard of the browser."""
    tab.run(f"(() => {{ const it = document.createElement('textarea'); it.id = 'for-a-copy'; document.body.append(it); it.value = {json.dumps(text)}; it.focus(); it.select(); }})()")
    tab.press("c", CONTROL, ["copy"])
    tab.run("document.getElementById('for-a-copy').remove()")
    tab.click(element)
    select_all(tab)
    tab.press("v", CONTROL, ["paste"])


def clipboard(tab):
    """What the clipboard of the browser has."""
    tab.run("(() => { const it = document.createElement('textarea'); it.id = 'for-a-copy'; document.body.append(it); it.focus(); })()")
    tab.press("v", CONTROL, ["paste"])
    return tab.run("(() => { const it = document.getElementById('for-a-copy'); it.remove(); return it.value; })()")


def copied(tab, text):
    """Tests that the clipboard comes to have a text, and no more but spaces around it. A page may take a while to copy."""
    end = time.monotonic() + SOON
    while (found := clipboard(tab)).strip() != text.strip():
        expect_that(time.monotonic() < end, f"{text!r} is copied, and not {found!r}")
        time.sleep(0.1)


def leave(tab):
    """Leaves the field with the cursor."""
    tab.run("document.activeElement.blur()")


def together(*steps):
    """Does steps at the same time. The first fault of one is the fault of all."""
    faults = []

    def does(step):
        try:
            step()
        except Exception as fault:  # noqa: BLE001
            faults.append(fault)

    threads = [threading.Thread(target=does, args=(it,)) for it in steps]
    for it in threads:
        it.start()
    for it in threads:
        it.join()
    if faults:
        raise faults[0]


def focus(tab, start=None, end=None, area=AREA):
    """Puts the cursor into a text, at its end or as a selection."""
    offset = "it.value.length" if start is None else start
    tab.run(f"(() => {{ const it = {area}; it.focus(); it.setSelectionRange({offset}, {offset if end is None else end}); }})()")


def selected(tab, area=AREA):
    return tab.run(f"(() => {{ const it = {area}; return it.value.slice(it.selectionStart, it.selectionEnd); }})()")


def after_cursor(tab, count, area=AREA):
    """The characters after the cursor."""
    return tab.run(f"(() => {{ const it = {area}; return it.value.slice(it.selectionStart, it.selectionStart + {count}); }})()")
