"""What a browser keeps of a board: work that was not sent is there after its tab was closed."""
import contextlib
import json
import time

from stage import ADD, ALL_KEPT, AREA, COUNTED, IS_JOINED, IS_OFFLINE, NOTICES, OFFERED, OPENED, STATE, TOGGLE, WORDS, are_kept, button, comes, expect, expect_that, focus, leave, put, retype, row
from tunnel import OPENING, SHORT_GRACE, letters
from undoing import by_keys

# Within how many seconds the work of an earlier page is offered.
OFFERS = 2
# Changes each record.
CHANGED = OPENED % "store.getAll().onsuccess = ({ target }) => { for (const it of target.result) { %s; store.put(it); } store.transaction.oncomplete = done; asked.result.close(); };"
# Holds the store back for three seconds, so that all who want to change it wait.
HELD = "void " + OPENED % "const end = Date.now() + 3000; const again = () => { if (Date.now() < end) store.count().onsuccess = again; else asked.result.close(); }; again();"
TOLD = f"{NOTICES}.map((it) => it.querySelector('.notice-words').textContent)"
BRINGS_IN, UNFOLDS = button("Bring in"), "document.querySelector('.notice summary')"
# A browser that keeps nothing for the page, and one that reaches no server.
REFUSES = "Object.defineProperty(window, 'indexedDB', { get() { throw new DOMException('denied', 'SecurityError'); } })"
REACHES_NONE = "window.WebSocket = class extends EventTarget { bufferedAmount = 0; close() {} }"
# Others who join: their sites have the numbers after those of the two tabs.
OTHERS = 4
JOIN = "Promise.all(Array.from({ length: %d }, () => new Promise((done) => { const it = new WebSocket(new URL('ws', location.href).href.replace('http', 'ws')); it.onopen = () => it.send('hello 3\\n'); it.onmessage = done; })))"
FULL_LIMIT = 5


def types_offline(stage, text, start=None):
    """B types without a link, and the browser keeps it."""
    stage.b.until(f"{STATE} === 'offline'")
    focus(stage.b, start)
    stage.b.type(text)
    are_kept(stage.b, 1, text)


@contextlib.contextmanager
def closed(stage, before=None):
    """In it there is no link, and at its end B closes the tab. After it B has opened another one."""
    with stage.lag.tunnel():
        yield
        # What was done last is kept a moment later, or when the tab is closed.
        stage.b.close()
    stage.opens_again(before)


def is_killed(tab):
    """Kills a tab a moment after it has done something."""
    time.sleep(1)
    with tab.news:
        tab.send("Page.crash")
    time.sleep(1)


def is_offered(stage, words):
    stage.b.until(f"{TOLD}.join().includes({json.dumps(words)})")


def nothing_is_offered(tab):
    time.sleep(OFFERS)
    expect(tab.run(f"[{TOLD}, {COUNTED}]"), [[], ""], "what is offered")


def nothing_is_left(stage):
    """The browser keeps nothing, and another visit offers nothing."""
    are_kept(stage.b, 0)
    stage.opens_again()
    nothing_is_offered(stage.b)


def brings_in(stage):
    stage.b.until(f"{BRINGS_IN} !== undefined")
    stage.b.click(BRINGS_IN)


def offers_a_text(stage, text):
    """It is a text to copy, which can't be brought in."""
    stage.b.until(f"{NOTICES}.length > 0")
    expect(stage.b.run(f"[{OFFERED}, {BRINGS_IN} === undefined]"), [[text], True], "the text that is offered, and whether it can't be brought in")
    expect(stage.b.run(f"{AREA}.closest('.widget').contains({NOTICES}[0])"), True, "whether it is at its widget")
    stage.b.click(button("Dismiss"))


def closed_and_opened(stage):
    """What was done without a link to each kind of widget is offered. "Bring in" does it on the board of then, once, and an undo takes it back as one step."""
    with closed(stage):
        types_offline(stage, "not ")
        retype(stage.b, f"{row('bread')}.querySelector('input')", "rye")
        leave(stage.b)
        stage.b.click(f"{row('milk')}.querySelector('button[aria-label^=Delete]')")
        stage.b.click(ADD)
        stage.b.type("tea\n")
        stage.b.click(TOGGLE)
        focus(stage.a, 0)
        stage.a.type("> ")
        stage.a.click(f"{row('eggs')}.querySelector('button[aria-label^=Delete]')")
        time.sleep(SHORT_GRACE + 2)
    is_offered(stage, ", and it was not sent: 4 characters in Notes, 3 items in Who brings what, Everything is paid.")
    stage.agrees_on(f"> {OPENING}", ["bread", "milk"], False, 5)
    brings_in(stage)
    stage.agrees_on(f"> {OPENING}not ", ["rye", "tea"], True, 5)
    by_keys(stage.b)
    stage.agrees_on(f"> {OPENING}", ["bread", "milk"], False, 5)
    by_keys(stage.b, "Redo")
    nothing_is_left(stage)
    stage.agrees_on(f"> {OPENING}not ", ["rye", "tea"], True, 5)


def within_the_grace(stage):
    """The server still waits for the link of the closed tab. What was typed is there once."""
    with closed(stage):
        types_offline(stage, "ends")
    is_offered(stage, "4 characters in Notes.")
    brings_in(stage)
    stage.agrees_on(f"{OPENING}ends")
    nothing_is_left(stage)
    stage.agrees_on(f"{OPENING}ends")


def shown_and_discarded(stage):
    """ "Show" unfolds the text, and "Discard" deletes it."""
    with closed(stage):
        types_offline(stage, "a thought")
    stage.b.until(f"{BRINGS_IN} !== undefined")
    area = f"{NOTICES}[0].querySelector('textarea')"
    expect(stage.b.run(f"{area}.checkVisibility()"), False, "whether the text is in sight")
    stage.b.click(UNFOLDS)
    expect(stage.b.run(f"[{area}.checkVisibility(), {area}.value]"), [True, "Notes:\na thought"], "the text")
    stage.b.click(button("Discard"))
    expect(stage.b.run(f"{NOTICES}.length"), 0, "the notices")
    nothing_is_left(stage)
    stage.agrees_on(OPENING)


def given_way(stage):
    """Others have changed the same meanwhile, so theirs stays, and a word comes to where it was typed."""
    with closed(stage):
        types_offline(stage, "really ", 3)
        retype(stage.b, f"{row('milk')}.querySelector('input')", "oats")
        leave(stage.b)
        retype(stage.a, f"{row('milk')}.querySelector('input')", "cheese")
        leave(stage.a)
        focus(stage.a, 0, 2)
        stage.a.type("So it")
        stage.a.until(f"{STATE} === 'open'")
    is_offered(stage, ": 7 characters in Notes.")
    brings_in(stage)
    stage.agrees_on(f"So it really{OPENING[2:]}"[:12] + f" {OPENING[3:]}", ["bread", "cheese", "eggs"])


def a_long_text(stage):
    """A long text is brought in whole and undone whole. What one types meanwhile comes after it."""
    text = letters(6_000)
    with closed(stage):
        stage.b.until(f"{STATE} === 'offline'")
        focus(stage.b)
        put(stage.b, text)
        stage.b.until(f"!{AREA}.readOnly")
    is_offered(stage, "6,000 characters in Notes.")
    focus(stage.b)
    stage.b.run(f"{BRINGS_IN}.click()")
    stage.b.type("!")
    expect(sorted(stage.agreed()[0]), sorted(f"{OPENING}{text}!"), "the characters")
    for _ in range(2):
        by_keys(stage.b)
    stage.agrees_on(OPENING)


def not_sent_yet(stage):
    """The tab is closed or killed before the server has what was brought in. It is offered again, and comes once."""
    with closed(stage):
        types_offline(stage, "once")
    for ends in (lambda: stage.b.close(), lambda: is_killed(stage.b)):
        stage.b.until(f"{BRINGS_IN} !== undefined")
        stage.lag.held = {"up"}
        brings_in(stage)
        stage.b.until(f"{AREA}.value === '{OPENING}once'")
        expect(stage.b.run(f"{NOTICES}.length"), 0, "the notices after it was brought in")
        ends()
        stage.lag.cut()
        stage.opens_again()
        is_offered(stage, "4 characters in Notes.")
    brings_in(stage)
    stage.agrees_on(f"{OPENING}once")
    nothing_is_left(stage)


def taken_after_all(stage):
    """The server took what the browser keeps, and the page did not hear of it. Nothing is offered."""
    focus(stage.b)
    stage.lag.held = {"down"}
    stage.b.type("heard")
    stage.b.click(TOGGLE)
    stage.a.until(f"{TOGGLE}.checked")
    are_kept(stage.b, 1)
    with closed(stage):
        pass
    nothing_is_left(stage)
    stage.agrees_on(f"{OPENING}heard", ["bread", "milk", "eggs"], True)


def of_another_version(stage):
    """What another version of the page kept is offered as a text."""
    with closed(stage, CHANGED % "it.version += 1, it.edits = 'what this version can\\'t read'"):
        types_offline(stage, "from later")
    offers_a_text(stage, "from later")
    nothing_is_left(stage)
    stage.agrees_on(OPENING)


def of_another_run(stage):
    """The server was started again, and has another board by the same names. It is offered as a text."""
    focus(stage.a, 0)
    stage.a.type("> ")
    stage.agrees_on(f"> {OPENING}")
    with closed(stage):
        types_offline(stage, "of then", 1)
        stage.server.stop()
        stage.a.until(IS_OFFLINE)
        stage.server.start()
        stage.a.until(f"{STATE} === 'open'")
        focus(stage.a, 2)
        stage.a.type("and ")
        stage.a.run(JOIN % OTHERS)
    offers_a_text(stage, "of then")
    nothing_is_left(stage)
    stage.agrees_on(f"> and {OPENING}")


def two_tabs(stage):
    """Two tabs of a board keep a record each. What a tab keeps is offered in no other while it is open."""
    for text in ("one ", "two "):
        stage.b.run(REACHES_NONE)
        stage.lag.cut()
        stage.b.until(f"{STATE} === 'offline'")
        focus(stage.b)
        stage.b.type(text)
        are_kept(stage.b, 1 if text == "one " else 2, text)
        stage.tabs.append(stage.b)
        stage.b = stage.tabs[1] = stage.browser.tab()
        stage.b.open(stage.far)
        stage.b.until(f"{STATE} === 'open'")
        nothing_is_offered(stage.b)
    while len(stage.tabs) > 2:
        stage.tabs.pop().close()
    stage.opens_again()
    for _ in range(2):
        brings_in(stage)
        time.sleep(1)
    text = stage.agreed()[0].removeprefix(OPENING)
    expect_that(text in ("one two ", "two one "), f"both texts are there once: {text!r}")
    nothing_is_left(stage)


def two_that_open(stage):
    """Of two tabs that open at the same time, one offers what an earlier one kept. Once that is closed too, the other one does."""
    with stage.lag.tunnel():
        types_offline(stage, "mine")
        stage.b.close()
    holds = stage.browser.tab()
    stage.opens_beside(holds, HELD)
    others = [stage.browser.tab(), stage.browser.tab()]
    for it in others:
        it.open(stage.far)
    time.sleep(OFFERS + 3)
    holds.close()
    offering = lambda: [it.run(f"{NOTICES}.length") for it in others]
    comes(lambda: sorted(offering()), [0, 1], "how many notices each has")
    offering = offering()
    others[offering.index(1)].close()
    stage.b = stage.tabs[1] = others[offering.index(0)]
    stage.b.reload()
    brings_in(stage)
    stage.agrees_on(f"{OPENING}mine")


def killed(stage):
    """A tab that is killed leaves what it had a moment before, without a link and with one that takes nothing."""
    with stage.lag.tunnel():
        types_offline(stage, "before the end")
        is_killed(stage.b)
    stage.opens_again()
    is_offered(stage, "14 characters in Notes.")
    brings_in(stage)
    stage.agrees_on(f"{OPENING}before the end")
    stage.lag.held = {"up"}
    focus(stage.b)
    stage.b.type(" again")
    are_kept(stage.b, 1, " again")
    is_killed(stage.b)
    stage.lag.cut()
    stage.opens_again()
    is_offered(stage, "6 characters in Notes.")
    brings_in(stage)
    stage.agrees_on(f"{OPENING}before the end again")


def drafts_and_offers(stage):
    """A draft that can't be sent is offered after the tab was closed, without a question of the browser, and so is what the notice then offers."""
    stage.b.click(ADD)
    put(stage.b, "K\u00e4se")
    are_kept(stage.b, 1)
    for _ in range(2):
        stage.b.close()
        expect(stage.b.asked(), 0, "how many times the page asked")
        stage.opens_again()
        stage.b.until(f"{NOTICES}.length === 1")
        expect(stage.b.run(f"[{TOLD}, {OFFERED}]"), [["You typed this here, and it was not sent."], ["K\u00e4se"]], "what is offered")
    stage.b.click(button("Dismiss"))
    nothing_is_left(stage)


def refused_storage(stage):
    """The browser keeps nothing for the page. Words say so, one types on, and the page asks before it is closed."""
    stage.b.call("Page.addScriptToEvaluateOnNewDocument", source=REFUSES)
    stage.b.reload()
    stage.b.until(f"{STATE} === 'open'")
    nothing_is_offered(stage.b)
    with stage.lag.tunnel():
        stage.b.until(f"{STATE} === 'offline'")
        focus(stage.b)
        stage.b.type("abc")
        stage.b.until(f"{NOTICES}.length > 0")
        expect(stage.b.run(TOLD), ["This browser keeps nothing for this page. What waits is gone once you close this tab."], "what the page says")
        stage.b.type("d")
        stage.b.until(f"{WORDS} === 'Offline. 4 edits wait in this tab'")
        expect(stage.b.run(f"{NOTICES}.length"), 1, "the notices")
        expect(stage.b.run("!dispatchEvent(new Event('beforeunload', { cancelable: true }))"), True, "whether the page asks before it is closed")
    stage.agrees_on(f"{OPENING}abcd")
    stage.b.until(f"{NOTICES}.length === 0")
    expect(stage.b.run("dispatchEvent(new Event('beforeunload', { cancelable: true }))"), True, "whether the page asks nothing once all is sent")


def full_storage(stage):
    """The storage is full. Words say so, and go once there is room."""
    origin = stage.far.rstrip("/")
    with stage.lag.tunnel():
        stage.b.until(f"{STATE} === 'offline'")
        stage.b.call("Storage.overrideQuotaForOrigin", origin=origin, quotaSize=1)
        focus(stage.b)
        stage.b.type("abc")
        stage.b.until(f"{NOTICES}.length > 0")
        expect_that("keeps nothing" in stage.b.run(f"{TOLD}[0]"), "the page says so")
        stage.b.call("Storage.overrideQuotaForOrigin", origin=origin)
        stage.b.type("d")
        stage.b.until(f"{NOTICES}.length === 0")
        expect(stage.b.run(WORDS), "Offline. 4 edits wait on this device", "the head")
    stage.agrees_on(f"{OPENING}abcd")


def a_private_window(stage):
    """It keeps what waits until it is closed."""
    for is_closed in (False, True):
        context = stage.browser.whole.call("Target.createBrowserContext")["browserContextId"] if not is_closed else context
        stage.b.close()
        stage.b = stage.tabs[1] = stage.browser.tab(browserContextId=context)
        stage.b.open(stage.far)
        stage.b.until(f"{STATE} === 'open'")
        if not is_closed:
            with stage.lag.tunnel():
                types_offline(stage, "secret")
                stage.b.close()
    is_offered(stage, "6 characters in Notes.")
    stage.browser.whole.call("Target.disposeBrowserContext", browserContextId=context)
    stage.opens_again()
    nothing_is_left(stage)


def forgotten(stage):
    """ "Forget this board on this device" deletes what is kept, and what the page has is kept no more."""
    with closed(stage):
        types_offline(stage, "old")
    stage.b.until(f"{BRINGS_IN} !== undefined")
    stage.b.click("document.getElementById('menu-button')")
    stage.b.click(button("Forget this board on this device"))
    stage.b.until(f"{NOTICES}.length === 0")
    are_kept(stage.b, 0)
    with closed(stage):
        stage.b.until(f"{STATE} === 'offline'")
        focus(stage.b)
        stage.b.type("new")
        stage.b.until(f"{WORDS} === 'Offline. 3 edits wait in this tab'")
        time.sleep(1)
        are_kept(stage.b, 0)
    nothing_is_left(stage)
    stage.agrees_on(OPENING)


def moved(stage):
    """An item that was moved is moved once, with the label that others gave it meanwhile."""
    with closed(stage):
        types_offline(stage, "x")
        stage.b.run(f"{row('bread')}.querySelector('input').focus()")
        for _ in range(2):
            stage.b.press("ArrowDown", 1)
        retype(stage.a, f"{row('eggs')}.querySelector('input')", "six eggs")
        leave(stage.a)
        stage.a.until(f"{STATE} === 'open'")
    brings_in(stage)
    stage.agrees_on(f"{OPENING}x", ["milk", "six eggs", "bread"])
    by_keys(stage.b)
    stage.agrees_on(OPENING, ["bread", "milk", "six eggs"])


def keeps_the_toggle(stage):
    """Waits until B's browser keeps it. The record of a full text is large, so that takes some seconds on a busy machine. Each look holds up the page's own writes."""
    end = time.monotonic() + 30 * stage.slack
    while not stage.b.run(f"(async () => ((await {ALL_KEPT}) || []).some(({{ edits }}) => edits?.includes('\"set\"')))()"):
        expect_that(time.monotonic() < end, "the browser keeps the toggle")
        time.sleep(1)


def no_room(stage):
    """The text is full by then. What has no room is offered, and the rest is brought in."""
    with closed(stage):
        types_offline(stage, "1234567")
        stage.b.click(TOGGLE)
        expect(stage.b.run(f"{TOGGLE}.checked"), True, "the toggle")
        focus(stage.a, 0)
        stage.a.type("abcde")
        stage.a.until(f"{STATE} === 'open'")
        keeps_the_toggle(stage)
    brings_in(stage)
    stage.b.until(f"{OFFERED}.length === 1")
    expect(stage.b.run(OFFERED), ["34567"], "what is offered")
    text, is_on = stage.agreed()
    expect([len(text), text[-2:], is_on], [65_536, "12", True], "the length of the text, its end, and the toggle")


def a_full_order(stage):
    """The server has refused an edit, so the page is read-only. What can't be brought in is offered as long as its user wants."""
    with closed(stage):
        types_offline(stage, "too late")
        for tab in (stage.a, stage.browser.tab()):
            tab.open(stage.server.url)
            tab.until(IS_JOINED)
            focus(tab)
            tab.type("1234567")
            tab.until(f"{STATE} === 'full'")
        tab.close()
    stage.b.until(f"{STATE} === 'full'")
    for _ in range(2):
        is_offered(stage, "8 characters in Notes.")
        brings_in(stage)
        is_offered(stage, "This can\u2019t be brought in now.")
        is_offered(stage, "8 characters in Notes.")
        stage.opens_again()
        stage.b.until(f"{STATE} === 'full'")
    is_offered(stage, "8 characters in Notes.")


def refused_by_the_server(stage):
    """The page hears that the order is full once it has brought in. The text is offered, also on the next visit."""
    with closed(stage):
        types_offline(stage, "too late")
        focus(stage.a)
        stage.a.type("1234567")
        stage.a.until(f"{STATE} === 'full'")
    stage.b.until(f"{BRINGS_IN} !== undefined")
    stage.b.run(f"{BRINGS_IN}.click()")
    stage.b.until(f"{STATE} === 'full'")
    for _ in range(2):
        stage.b.until(f"{OFFERED}.some((it) => it.includes('too late'))")
        stage.opens_again()


PARTS = {
    "kept: closed and opened": closed_and_opened,
    "kept: shown, and discarded": shown_and_discarded,
    "kept: theirs stays": given_way,
    "kept: a move": moved,
    "kept: a long text": a_long_text,
    "kept: closed before it is sent": not_sent_yet,
    "kept: the server took it": taken_after_all,
    "kept: of another version": of_another_version,
    "kept: of another run of the server": of_another_run,
    "kept: two tabs": two_tabs,
    "kept: two tabs that open": two_that_open,
    "kept: a tab that is killed": killed,
    "kept: drafts and offers": drafts_and_offers,
    "kept: a browser that refuses": refused_storage,
    "kept: a full storage": full_storage,
    "kept: a private window": a_private_window,
    "kept: forgotten": forgotten,
}
LATER_PARTS = {"kept: within the grace": within_the_grace}
FULL_TEXT_PARTS = {"kept: no room": no_room}
FULL_PARTS = {"kept: a full order": a_full_order, "kept: refused by the server": refused_by_the_server}
