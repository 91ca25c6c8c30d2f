"""Links of protocol 4 that break: what is typed meanwhile is on the board later, once and in order."""
import itertools
import string
import threading
import time

from stage import ADD, AREA, COUNTED, FIELDS, IS_OFFLINE, NOTICES, OFFERED, STATE, TOGGLE, WORDS, button, clock_stands, expect, expect_that, focus, leave, put, retype, row
from undoing import by_keys

# For how many seconds the links of the long parts wait for a connection, and those of the short ones.
GRACE, SHORT_GRACE = 20, 2
# How many characters a second are typed.
SPEED = 10
# How many bytes a slow way takes in a second, and how many characters are deleted there.
SLOW, LONG = 5_000, 6_000
# How many characters a page takes without a link: first, and then each of eight times. These are so many edits that it waits for the server to bring them in.
MOST_PASTED, MOST_PUT = 30_600, 250
# Within how many seconds of a user's act the page tries again, and after how many else.
ACT, REST = 1, 6
# How many bytes of a way are cut after, one after the other.
CUTS = 100
BOARD = 'window 1\ntext 1 "It begins so: "\nlist 2 "bread" "milk" "eggs"\ntoggle 3 off\nslider 4 0 10 5\n'
LONG_BOARD = 'window 1\ntext 1 "' + "abcdefghij" * (LONG // 10) + '"\n'
OPENING = "It begins so: "
# Types behind two items and leaves them, as soon as the page brings something in.
LEAVES_ONCE_IT_JOINS = """new MutationObserver((_, it) => {
  if (document.body.dataset.stage !== 'joining') return;
  it.disconnect();
  for (const [label, more] of [['oat milk', ' shake'], ['bread', ' and jam']]) {
    const field = [...document.querySelectorAll('ol input')].find((one) => one.value === label);
    field.focus();
    field.value += more;
    field.dispatchEvent(new InputEvent('input', { bubbles: true }));
    field.blur();
  }
  window.stageThen = document.body.dataset.stage;
}).observe(document.body, { attributes: true })"""


def letters(count):
    return "".join(itertools.islice(itertools.cycle(string.ascii_letters + string.digits), count))


class Typist:
    """Types in a thread of its own, so many characters a second, until the end of the `with`."""

    def __init__(self, tab, speed=SPEED):
        self.tab, self.speed, self.typed, self.is_over = tab, speed, "", False
        self.thread = threading.Thread(target=self.types)

    def __enter__(self):
        focus(self.tab)
        self.thread.start()
        return self

    def __exit__(self, *_):
        self.is_over = True
        self.thread.join()

    def types(self):
        for it in itertools.cycle(string.ascii_letters + string.digits):
            if self.is_over:
                return
            self.tab.type(it)
            self.typed += it
            time.sleep(1 / self.speed)


def typed_through(stage, *cuts):
    """B types while the link is cut for so many seconds, one after the other. Each character is there once and in order, and nothing is offered."""
    with Typist(stage.b) as typist:
        for seconds in cuts:
            time.sleep(1)
            with stage.lag.tunnel():
                stage.b.until(IS_OFFLINE)
                time.sleep(seconds)
        stage.b.until(f"!{IS_OFFLINE}")
        time.sleep(1)
    stage.agrees_on(OPENING + typist.typed)
    expect(stage.b.run(f"[{NOTICES}.length, {COUNTED}]"), [0, ""], "what is offered")
    expect_that(len(typist.typed) > sum(cuts), f"much was typed: {len(typist.typed)}")


def within_the_grace(stage):
    typed_through(stage, 1, 8)


def past_the_grace(stage):
    """The server has given the link up. The page joins again, and brings in what was not taken."""
    typed_through(stage, 60)


def says_how_it_is(stage):
    """The head says how much waits, and after the grace since when. Undo works, with and without the link."""
    focus(stage.b)
    with stage.lag.tunnel():
        stage.b.until(f"{STATE} === 'offline'")
        with clock_stands(stage.b):
            stage.b.type("abc")
            expect(stage.b.run(f"[{WORDS}, {AREA}.readOnly]"), ["Offline. 3 edits wait on this device", False], "the head, and whether the text is shut")
        expect_that(stage.b.run(f"{button('Try now')} !== undefined"), "it can be tried now")
        by_keys(stage.b)
        expect(stage.b.run(f"{AREA}.value"), OPENING, "the text, undone without a link")
        by_keys(stage.b, "Redo")
        stage.b.until(f"{WORDS}.startsWith('Offline since ')", SHORT_GRACE + 4 + stage.slack)
        expect(stage.b.run(f"/^Offline since \\d\\d:\\d\\d\\. What you type is kept here and goes to the board later$/.test({WORDS})"), True, "whether the head says since when")
    stage.b.until(f"{STATE} === 'open'")
    stage.agrees_on(f"{OPENING}abc")
    expect(stage.b.run(WORDS), "Sent", "the head of a server without a journal")
    by_keys(stage.b)
    stage.agrees_on(OPENING)


def brought_in(stage):
    """What was done without a link to each kind of widget is made again on the board that the server has by then. It gives way to others, and is undone as one's own."""
    a, b = stage.tabs
    with stage.lag.tunnel():
        b.until(f"{STATE} === 'offline'")
        focus(b, 3)
        b.type("really ")
        b.press("Backspace")
        retype(b, f"{row('bread')}.querySelector('input')", "rye")
        leave(b)
        retype(b, f"{row('milk')}.querySelector('input')", "oats")
        leave(b)
        b.click(ADD)
        b.type("tea\n")
        b.click(TOGGLE)
        focus(a, 0)
        a.type("> ")
        retype(a, f"{row('milk')}.querySelector('input')", "cheese")
        leave(a)
        a.click(f"{row('eggs')}.querySelector('button[aria-label^=Delete]')")
        time.sleep(SHORT_GRACE + 2)
    b.until(f"!{IS_OFFLINE}")
    stage.agrees_on("> It really" + OPENING[3:], ["rye", "cheese", "tea"], True, 5)
    for _ in range(6):
        by_keys(b)
    stage.agrees_on(f"> {OPENING}", ["bread", "cheese"], False, 5)


def moved_without_a_link(stage):
    """An item that was moved without a link is moved once."""
    with stage.lag.tunnel():
        stage.b.until(f"{STATE} === 'offline'")
        stage.b.run(f"{row('bread')}.querySelector('input').focus()")
        for _ in range(2):
            stage.b.press("ArrowDown", 1)
        time.sleep(SHORT_GRACE + 2)
    stage.b.until(f"!{IS_OFFLINE}")
    stage.agrees_on(OPENING, ["milk", "eggs", "bread"])
    expect(stage.b.run(f"{FIELDS}.indexOf(document.activeElement)"), 2, "the row with the cursor")


def lost_twice(stage):
    """The link ends again while a long text is brought in."""
    text = letters(3_000)
    focus(stage.b)
    with stage.lag.tunnel():
        stage.b.until(f"{STATE} === 'offline'")
        stage.b.call("Input.insertText", text=text)
        time.sleep(SHORT_GRACE + 2)
    stage.lag.rates = {"up": 20_000}
    stage.b.until(f"{STATE} === 'joining' || {STATE} === 'sending'")
    time.sleep(0.5)
    with stage.lag.tunnel():
        time.sleep(SHORT_GRACE + 2)
    stage.lag.rates = {}
    stage.b.until(f"{STATE} === 'open'")
    stage.agrees_on(OPENING + text)


def typed_while_it_joins(stage):
    """Keys that are pressed while a long text is brought in come after it, and none is lost."""
    text = "." * LONG
    focus(stage.b)
    with stage.lag.tunnel():
        stage.b.until(f"{STATE} === 'offline'")
        put(stage.b, text)
        stage.b.until(f"!{AREA}.readOnly")
        time.sleep(SHORT_GRACE + 2)
    with Typist(stage.b, 3 * SPEED) as typist:
        stage.b.until(f"!{IS_OFFLINE}")
        time.sleep(1)
    expect(stage.agreed()[0].removeprefix(OPENING), text + typist.typed, "what comes after the opening")


def joins_for_long(stage):
    """B has done so much without a link that it has to wait for the server to bring it in, and types on. Returns what is in the text."""
    focus(stage.b)
    with stage.lag.tunnel():
        stage.b.until(f"{STATE} === 'offline'")
        for count in (MOST_PASTED, *[MOST_PUT] * 8):
            put(stage.b, "." * count)
            stage.b.until(f"!{AREA}.readOnly")
        time.sleep(SHORT_GRACE + 2)
        stage.lag.rates = {"up": SLOW}
    stage.b.until(f"{STATE} === 'joining'")
    stage.lag.held = {"up"}
    stage.b.type("meanwhile")
    expect(stage.b.run(STATE), "joining", "the stage")
    stage.lag.rates = {}
    return OPENING + "." * (MOST_PASTED + 8 * MOST_PUT) + "meanwhile"


def typed_before_the_link_ends(stage):
    """Keys that are pressed while a long text is brought in come after it, if the link ends meanwhile."""
    text = joins_for_long(stage)
    with stage.lag.tunnel():
        time.sleep(SHORT_GRACE + 2)
    stage.agrees_on(text)


def typed_before_the_server_ends(stage):
    """They are offered, if the server ends meanwhile and starts again."""
    joins_for_long(stage)
    stage.server.kill()
    stage.lag.cut()
    stage.b.until(IS_OFFLINE)
    stage.server.start()
    stage.b.until(f"{STATE} === 'open'")
    expect(stage.b.run(f"{OFFERED}.filter((it) => it.includes('meanwhile'))"), ["meanwhile"], "what is offered of it")


def left_while_it_joins(stage):
    """Items that are left while a long text is brought in are sent after it. They have what the page had made of them, and what others have."""
    a, b = stage.tabs
    milk = f"{row('milk')}.querySelector('input')"
    with stage.lag.tunnel():
        b.until(f"{STATE} === 'offline'")
        focus(b)
        put(b, "." * LONG)
        b.until(f"!{AREA}.readOnly")
        retype(b, milk, "oat milk")
        leave(b)
        b.run(LEAVES_ONCE_IT_JOINS)
        retype(a, f"{row('bread')}.querySelector('input')", "brown bread")
        leave(a)
        time.sleep(SHORT_GRACE + 2)
    b.until("window.stageThen === 'joining'")
    expect(stage.agreed()[1], ["brown bread and jam", "oat milk shake", "eggs"], "the list")


def no_room(stage):
    """The text is full by the time that the page joins again. What has no room is offered, and the rest of the work is brought in."""
    a, b = stage.tabs
    with stage.lag.tunnel():
        b.until(f"{STATE} === 'offline'")
        focus(b)
        b.type("1234567")
        b.click(TOGGLE)
        focus(a, 0)
        a.type("abcde")
        a.until(f"{STATE} === 'open'")
        time.sleep(SHORT_GRACE + 2)
    b.until(f"{OFFERED}.length === 1")
    expect(b.run(OFFERED), ["34567"], "what is offered")
    text, is_on = stage.agreed()
    expect([len(text), text[-2:], is_on], [65_536, "12", True], "the length of the text, its end, and the toggle")


def a_cut_at_each_byte(stage):
    """The proxy cuts after each number of bytes to the server, while a key is on its way."""
    text = letters(CUTS)
    focus(stage.b)
    for count, it in enumerate(text):
        stage.lag.cut_after("up", count)
        stage.b.type(it)
        stage.b.until(f"{IS_OFFLINE} || {STATE} === 'open'")
        # A key that types nothing has the page try again soon.
        stage.b.press("End")
        stage.b.until(f"!{IS_OFFLINE}")
    stage.lag.left = {}
    stage.b.until(f"{STATE} === 'open'")
    stage.agrees_on(OPENING + text)
    expect(stage.b.run(f"{NOTICES}.length"), 0, "what is offered")


def tried_soon(stage):
    """The relay counts the tries: one within a second of a key, a click and the event `online`, and else one in six seconds at most."""
    most = 0 if stage.slack == 1 else 1
    with stage.lag.tunnel():
        stage.b.until(f"{STATE} === 'offline'")
        time.sleep(12)
        tries = list(stage.lag.came)
        time.sleep(2 * REST + most)
        gaps = [after - before for before, after in itertools.pairwise([*stage.lag.came[len(tries) - 1 :], time.monotonic()])]
        expect_that(max(gaps) < REST + most, f"a try comes after six seconds at most: {gaps}")
        for step in (lambda: stage.b.press("ArrowDown"), lambda: stage.b.click("document.querySelector('main h2')"), lambda: stage.b.run("dispatchEvent(new Event('online'))")):
            time.sleep(1.2)
            count = len(stage.lag.came)
            step()
            begun = time.monotonic()
            while len(stage.lag.came) == count and time.monotonic() - begun < REST:
                time.sleep(0.01)
            expect_that(time.monotonic() - begun < ACT + most, "a try comes within a second of an act")
    stage.b.until(f"{STATE} === 'open'")


def a_slow_way(stage):
    """A long deletion over a slow way is done, and the page is never offline."""
    stage.lag.rates = {"up": SLOW}
    with stage.lag.tunnel():
        stage.b.until(IS_OFFLINE)
    stage.b.until(f"{STATE} === 'open'")
    stage.b.run("window.stages = new Set(), new MutationObserver(() => stages.add(document.body.dataset.stage)).observe(document.body, { attributes: true })")
    focus(stage.b, 0, LONG)
    stage.b.press("Delete")
    stage.b.until(f"{STATE} === 'sending'")
    stage.b.until(f"{STATE} === 'open'", 4 * LONG * 25 / SLOW)
    stage.agrees_on("")
    expect(stage.b.run("[...stages].sort()"), ["open", "sending"], "how the page was")


PARTS = {
    "a tunnel: cuts of 1 and 8 seconds while one types": within_the_grace,
    "a tunnel: a cut of a minute, past the grace": past_the_grace,
    "a tunnel: a cut at each of 100 bytes": a_cut_at_each_byte,
    "a tunnel: tries soon after an act": tried_soon,
}
SHORT_PARTS = {
    "a tunnel: the head says how it is": says_how_it_is,
    "a tunnel: what was done is brought in": brought_in,
    "a tunnel: a move is brought in": moved_without_a_link,
    "a tunnel: lost twice": lost_twice,
    "a tunnel: typed while it joins": typed_while_it_joins,
    "a tunnel: typed before the link ends again": typed_before_the_link_ends,
    "a tunnel: typed before the server ends": typed_before_the_server_ends,
    "a tunnel: items that are left while it joins": left_while_it_joins,
}
FULL_PARTS = {"a tunnel: no room": no_room}
FULL_BOARD = f'window 1\ntext 1 "{"a" * 65_529}"\ntoggle 3 off\n'
SLOW_PARTS = {"a slow way: a long deletion": a_slow_way}
