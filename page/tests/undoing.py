"""Undo and redo take back what one person did, whatever the other did meanwhile: by keys, by a menu and by the buttons."""
import time

from browser import CONTROL, SHIFT
from drafts import cross, field, list_is
from editing import AT_RANDOM, DECIDE, pasted
from stage import (ADD, AREA, COUNTED, FIELDS, IS_OFFLINE, LABELS, NUMBERS, OTHER_AREA, RANGES, STATE, TOGGLE, button, clock_stands, comes, expect, expect_that, focus, leave, passes, put, retype, row, select_all, together)

BOARD = "window 1\ntext 1 \"abcdef\"\nlist 2 \"bread\" \"milk\" \"eggs\"\ntoggle 3 off\nslider 4 0 10 5\nwindow 2\ntext 1 \"\"\nslider 2 -100 100 0\n"
OPENING = ["abcdef", ["bread", "milk", "eggs"], False, 5, "", 0]
# A command of a menu, or of a gesture. A browser makes this event, and does nothing itself if the page prevents it.
BY_A_MENU = """(() => {
  const event = new InputEvent('beforeinput', { inputType: 'history%s', bubbles: true, cancelable: true });
  (document.activeElement ?? document.body).dispatchEvent(event);
  return event.defaultPrevented;
})()"""
UNDO, REDO = "document.getElementById('undo')", "document.getElementById('redo')"
NEWS = "document.getElementById('news').textContent"
# The remarks beside the captions.
REMARKS = "[...document.querySelectorAll('main .after')].map((it) => it.textContent).filter((it) => it !== '')"
# How many seconds end a step of typing, and a little more.
PAUSE = 1.2
# What can't be an item.
UNFIT = "K\u00e4se"
PASTED = 20_000
MOST_EDITS = 700
# An undo may take so many times as long as the paste did.
MOST_TIMES = 2


def by_keys(tab, what="Undo"):
    tab.press("z", CONTROL | (SHIFT if what == "Redo" else 0))


def by_a_menu(tab, what="Undo"):
    expect(tab.run(BY_A_MENU % what), True, "whether the page prevents what the browser would do")


def by_a_button(tab, what="Undo"):
    tab.click(UNDO if what == "Undo" else REDO)


WAYS = {"by keys": by_keys, "by a menu": by_a_menu, "by the buttons": by_a_button}


def says(tab, words):
    """Waits until the page says this, beside a caption. It does so for a few seconds, so nothing else is waited for before."""
    tab.until(f"{REMARKS}.includes({words!r})")


def each_way(part):
    """A part for each way to undo. `part` gets the stage and the way."""
    what = part.__doc__.rstrip(".")
    return {f"undo {name}: {what[0].lower()}{what[1:]}": lambda stage, it=way: part(stage, it) for name, way in WAYS.items()}


def relabels(tab, old, new):
    """Relabels an item, without a click: one that comes a moment after others moved the rows does nothing."""
    tab.run(f"{field(old)}.focus()")
    select_all(tab)
    tab.type(new)
    tab.press("Enter")


def typed_in_front(stage, undo):
    """What others typed after it stays."""
    focus(stage.a)
    stage.a.type("Hello")
    stage.agreed()
    focus(stage.b)
    stage.b.type(" you")
    stage.agrees_on("abcdefHello you")
    undo(stage.a)
    says(stage.a, "Undone: 5 characters in Notes")
    stage.agrees_on("abcdef you")
    expect(stage.a.run(f"document.activeElement === {AREA}"), True, "whether the cursor is still in the text")
    expect(stage.a.run(f"{AREA}.selectionStart"), 6, "the cursor after the undo")
    undo(stage.a, "Redo")
    says(stage.a, "Done again: 5 characters in Notes")
    stage.agrees_on("abcdefHello you")


def typed_around(stage, undo):
    """What others typed inside it stays, and what they deleted does not come back."""
    focus(stage.a, 0)
    stage.a.type("Hello")
    stage.agrees_on("Helloabcdef")
    focus(stage.b, 2)
    stage.b.type("--")
    focus(stage.b, 0)
    stage.b.press("Delete")
    stage.agrees_on("e--lloabcdef")
    undo(stage.a)
    stage.agrees_on("--abcdef")
    undo(stage.a, "Redo")
    stage.agrees_on("e--lloabcdef")


def deleted(stage, undo):
    """What was deleted comes back to its place."""
    focus(stage.a, 1, 4)
    stage.a.press("Backspace")
    stage.agrees_on("aef")
    focus(stage.b, 1)
    stage.b.type("XY")
    stage.b.press("Home")
    stage.b.press("Delete")
    stage.agrees_on("XYef")
    undo(stage.a)
    stage.agrees_on("bcdXYef")
    undo(stage.a, "Redo")
    stage.agrees_on("XYef")


def an_item_that_others_relabelled(stage, undo):
    """An added item that others relabelled stays."""
    stage.a.click(ADD)
    stage.a.type("tea\n")
    stage.agreed()
    relabels(stage.b, "tea", "green tea")
    list_is(stage, [*OPENING[1], "green tea"])
    undo(stage.a)
    says(stage.a, "Others have changed this since")
    list_is(stage, [*OPENING[1], "green tea"])


def a_label_that_others_gave(stage, undo):
    """A label and a slider that others set later stay."""
    relabels(stage.a, "bread", "rolls")
    stage.a.run(f"{RANGES}[0].focus()")
    stage.a.press("ArrowRight")
    stage.agreed()
    relabels(stage.b, "rolls", "rye")
    stage.b.run(f"{RANGES}[0].focus()")
    stage.b.press("Home")
    expect(stage.agreed()[1:4], [["rye", "milk", "eggs"], False, 0], "what others have set")
    for _ in range(2):
        undo(stage.a)
        says(stage.a, "Others have changed this since")
    expect(stage.agreed()[1:4], [["rye", "milk", "eggs"], False, 0], "what others have set, after the undo")


def settings(stage, undo):
    """A label, a toggle and a slider get back what they had."""
    relabels(stage.a, "bread", "rolls")
    stage.a.click(TOGGLE)
    stage.a.run(f"{RANGES}[0].focus()")
    stage.a.press("End")
    expect(stage.agreed()[1:4], [["rolls", "milk", "eggs"], True, 10], "what is set")
    undo(stage.a)
    says(stage.a, "Undone: Guests, now 5")
    undo(stage.a)
    says(stage.a, "Undone: Everything is paid, now off")
    undo(stage.a)
    says(stage.a, "Undone: 1 label in Who brings what")
    expect(stage.agreed(), OPENING, "the board")
    for _ in range(3):
        undo(stage.a, "Redo")
    expect(stage.agreed()[1:4], [["rolls", "milk", "eggs"], True, 10], "what is set again")


def a_slider_between(stage, undo):
    """What others set between two of one's own comes back, and nothing before it."""
    slides(stage.a, 7)
    stage.agreed()
    slides(stage.b, 3)
    stage.agreed()
    slides(stage.a, 9)
    stage.agreed()
    undo(stage.a)
    expect(stage.agreed()[3], 3, "the slider")
    undo(stage.a)
    says(stage.a, "Others have changed this since")
    expect(stage.agreed()[3], 3, "the slider")


def slides(tab, value):
    retype(tab, f"{NUMBERS}[0]", f"{value}")
    tab.press("Enter")


def a_slider_at_once(stage, undo):
    """A setting is undone before one of others is known that was first, and that stays."""
    unknown_to_b(stage, lambda: slides(stage.a, 3), lambda: (slides(stage.b, 7), undo(stage.b)))
    expect(stage.agreed()[3], 3, "the slider")


def unknown_to_b(stage, first, then):
    """A does something that the server takes first, and B something before B knows of it."""
    stage.lag.held = {"up", "down"}
    first()
    stage.a.until(f"{STATE} === 'open'")
    then()
    stage.lag.held = set()


def a_deleted_item(stage, undo):
    """An item that was deleted comes back once."""
    stage.a.click(cross("milk"))
    list_is(stage, ["bread", "eggs"])
    undo(stage.a)
    says(stage.a, "Undone: 1 item in Who brings what")
    list_is(stage, OPENING[1])
    # The server takes A's deletion first, so B's undo finds that it is none of B's.
    unknown_to_b(stage, lambda: stage.a.click(cross("milk")), lambda: (stage.b.click(cross("milk")), undo(stage.b)))
    list_is(stage, ["bread", "eggs"])
    undo(stage.a)
    list_is(stage, OPENING[1])


EACH = (typed_in_front, typed_around, deleted, an_item_that_others_relabelled, a_label_that_others_gave, settings, a_slider_between, a_slider_at_once, a_deleted_item)


def a_long_paste(stage):
    """20,000 pasted characters are undone in few edits, as fast as they came, while the page answers."""
    text = "".join(f"{it:05d} some words of a line\n" for it in range(PASTED // 27 + 1))[:PASTED]
    focus(stage.a, area=OTHER_AREA)
    stage.a.run("window.edits = 0, window.send = WebSocket.prototype.send, WebSocket.prototype.send = function (text) { edits += text.split('batch ').length - 1; return send.call(this, text); }")
    pasting = takes(stage.a, lambda: stage.a.run(pasted(text, OTHER_AREA)))
    # The last of it is drawn a moment later.
    stage.a.until(f"{OTHER_AREA}.value.length === {PASTED}", 60)
    # Others type in it, and that stays.
    focus(stage.b, 7, area=OTHER_AREA)
    stage.b.until(f"{OTHER_AREA}.value.length === {PASTED}", 120)
    stage.b.type("mine")
    stage.agreed()
    stage.a.run("edits = 0, window.told = new Set(), new MutationObserver(() => told.add(document.getElementById('state').textContent)).observe(document.getElementById('state'), { childList: true })")
    undoing = takes(stage.a, lambda: undo_and_go_on(stage.a))
    says(stage.a, "Undone: 20,000 characters in More \"notes\"")
    expect(stage.agreed()[4], "mine", "the text")
    expect(stage.a.run(f"{AREA}.value.slice(0, 3)"), "own", "what is typed in another text meanwhile")
    edits = stage.a.run("edits")
    expect_that(PASTED / 32 <= edits <= MOST_EDITS + 3, f"it is undone in at most {MOST_EDITS} edits: {edits}")
    expect_that(stage.a.run("[...told].some((it) => it.endsWith('to go'))"), "the head counts what is to go")
    print(f"page: {PASTED} characters are pasted in {pasting:.1f} s, and undone in {undoing:.1f} s and {edits} edits", flush=True)
    expect_that(undoing <= MOST_TIMES * stage.slack * pasting, f"it takes {undoing} s, and the paste {pasting} s")


def undo_and_go_on(tab):
    by_keys(tab)
    focus(tab, 0)
    tab.type("own")


def takes(tab, step):
    """How many seconds it takes until the server has what a step makes. The step begins to make it immediately."""
    begun = time.monotonic()
    step()
    tab.until(f"{STATE} === 'open'", 180)
    return time.monotonic() - begun


def a_paste_that_goes_on(stage):
    """An undo stops a paste that goes on, and takes back what came of it."""
    focus(stage.a, area=OTHER_AREA)
    stage.a.run(pasted("x" * 60_000, OTHER_AREA))
    by_keys(stage.a)
    expect(stage.agreed(), OPENING, "the board")


def steps_of_typing(stage):
    """A run of typing is a step: a pause, a line feed, another place and another text end it."""
    focus(stage.a)
    with clock_stands(stage.a):
        stage.a.type("one")
        passes(stage.a, PAUSE)
        stage.a.type("two\nthree")
        stage.a.press("ArrowLeft")
        stage.a.type("4")
        focus(stage.a, area=OTHER_AREA)
        stage.a.type("five")
        stage.a.press("Backspace")
        stage.a.press("Backspace")
    stage.agrees_on("abcdefonetwo\nthre4e")
    seen = []
    for _ in range(6):
        by_keys(stage.a)
        shown = stage.agreed()
        seen.append((shown[0], shown[4]))
    expect(seen, [
        ("abcdefonetwo\nthre4e", "five"), ("abcdefonetwo\nthre4e", ""), ("abcdefonetwo\nthree", ""), ("abcdefonetwo\n", ""), ("abcdefone", ""), ("abcdef", ""),
    ], "the two texts, undo by undo")
    expect(stage.a.run(f"{UNDO}.ariaDisabled"), "true", "whether the button has nothing to undo")


def steps_of_one_act(stage):
    """A replaced selection with what is typed on, a composed word, several lines and a drag of a slider are one step each."""
    focus(stage.a, 1, 4)
    with clock_stands(stage.a):
        stage.a.type("XY")
    stage.agrees_on("aXYef")
    by_keys(stage.a)
    stage.agrees_on("abcdef")
    for it in ("\u306b", "\u306b\u307b"):
        stage.a.call("Input.imeSetComposition", text=it, selectionStart=len(it), selectionEnd=len(it))
    by_keys(stage.a)
    time.sleep(1.5)
    put(stage.a, "\u65e5\u672c")
    expect_that("\u65e5\u672c" in stage.agreed()[0], "the word is there, and no undo ended it")
    by_keys(stage.a)
    stage.agrees_on("abcdef")
    stage.a.click(ADD)
    stage.a.run(pasted("\n".join(f"item {it}" for it in range(40)), ADD))
    expect(len(stage.agreed()[1]), 43, "how many items there are")
    by_keys(stage.a)
    expect(stage.agreed(), OPENING, "the board")
    drags(stage.a, f"{RANGES}[1]", 0.5, 0.9)
    expect_that(stage.agreed()[5] > 50, "the slider is dragged")
    by_keys(stage.a)
    expect(stage.agreed(), OPENING, "the board")


def drags(tab, element, start, end):
    """Drags within an element, from one share of its width to another."""
    x, y, width = tab.run(f"(() => {{ const it = {element}; it.scrollIntoView({{ block: 'center' }}); const b = it.getBoundingClientRect(); return [b.x, b.y + b.height / 2, b.width]; }})()")
    at = lambda share: {"x": x + share * width, "y": y, "button": "left", "buttons": 1}
    tab.call("Input.dispatchMouseEvent", type="mousePressed", clickCount=1, **at(start))
    for step in range(1, 11):
        tab.call("Input.dispatchMouseEvent", type="mouseMoved", **at(start + (end - start) * step / 10))
        time.sleep(0.03)
    tab.call("Input.dispatchMouseEvent", type="mouseReleased", clickCount=1, **at(end))


def a_label_in_a_race(stage):
    """A label is undone before one of others is known that was first: theirs stays, nobody is asked, and no further step comes of it."""
    unknown_to_b(stage, lambda: relabels(stage.a, "bread", "brown bread"), lambda: (relabels(stage.b, "bread", "bread and jam"), by_keys(stage.b)))
    for it in stage.tabs:
        leave(it)
    list_is(stage, ["brown bread", "milk", "eggs"])
    expect(stage.b.run(f"[{UNDO}.ariaDisabled, {REDO}.ariaDisabled, {button('Take theirs')} === undefined]"), ["true", "false", True], "whether B has nothing to undo, and is asked nothing")
    # A label that stands goes together with theirs, and both are one step.
    unknown_to_b(stage, lambda: (relabels(stage.a, "milk", "oat milk"), leave(stage.a)), lambda: (relabels(stage.b, "milk", "milk and honey"), leave(stage.b)))
    list_is(stage, ["brown bread", "oat milk and honey", "eggs"])
    by_keys(stage.b)
    list_is(stage, ["brown bread", "oat milk", "eggs"])


def beside_a_draft(stage):
    """With a draft in the field, an undo first takes that back."""
    relabels(stage.a, "bread", "rolls")
    list_is(stage, ["rolls", "milk", "eggs"])
    for way in (by_keys, by_a_menu, by_a_button):
        retype(stage.a, field("rolls"), "rye")
        expect(stage.a.run(STATE), "draft", "the stage")
        way(stage.a)
        expect(stage.a.run(f"[{FIELDS}[0].value, {STATE}]"), ["rolls", "open"], "the field and the stage after the draft is taken back")
    way(stage.a)
    list_is(stage, OPENING[1])
    expect(stage.a.run("document.activeElement.value"), "bread", "the field with the cursor")
    # A draft that can't be sent stays, and the row says what undo made of the item.
    by_keys(stage.a, "Redo")
    stage.b.until(f"{LABELS}[0] === 'rolls'")
    retype(stage.a, field("rolls"), UNFIT)
    leave(stage.a)
    by_keys(stage.a)
    expect(stage.a.run(f"[{FIELDS}[0].value, {COUNTED}]"), [UNFIT, "1 notice"], "the draft and the notices")
    comes(lambda: [stage.a.run(STATE), stage.b.run(LABELS)[0]], ["draft", "bread"], "the stage, and the label that others see")
    expect_that("Undo wrote \u201cbread\u201d" in stage.a.run(f"{row(UNFIT)}.textContent"), "the row says what undo made of the item")
    stage.a.click(ADD)
    stage.a.type("te")
    by_keys(stage.a)
    expect(stage.a.run(f"{ADD}.value"), "", "the field that adds")
    retype(stage.a, f"{NUMBERS}[0]", "9")
    by_keys(stage.a)
    expect(stage.a.run(f"{NUMBERS}[0].value"), "5", "the number")


def a_row_with_the_cursor(stage):
    """An undo takes away the row in which the cursor is, and puts the focus where a key does no harm."""
    stage.a.click(ADD)
    stage.a.type("tea\n")
    stage.a.click(field("tea"))
    by_keys(stage.a)
    list_is(stage, OPENING[1])
    expect(stage.a.run("[document.querySelector('li.ghost'), document.activeElement.tagName]"), [None, "LI"], "a row of a deleted item, and what has the focus")


def nothing_to_undo(stage):
    """Without a step an undo says so, and the buttons are grey."""
    expect(stage.a.run(f"[{UNDO}.ariaDisabled, {REDO}.ariaDisabled]"), ["true", "true"], "whether the buttons are grey")
    focus(stage.a)
    by_keys(stage.a)
    says(stage.a, "There is nothing to undo")
    by_keys(stage.a, "Redo")
    says(stage.a, "There is nothing to do again")
    stage.a.type("x")
    expect(stage.a.run(f"[{UNDO}.ariaDisabled, {REDO}.ariaDisabled]"), ["false", "true"], "whether the buttons are grey after a key")
    by_keys(stage.a)
    expect(stage.a.run(f"[{UNDO}.ariaDisabled, {REDO}.ariaDisabled]"), ["true", "false"], "whether the buttons are grey after the undo")
    stage.a.type("y")
    expect(stage.a.run(f"[{UNDO}.ariaDisabled, {REDO}.ariaDisabled]"), ["false", "true"], "whether the buttons are grey after a new edit")


def the_browsers_undo(stage):
    """No field changes but by the page: in an empty, another and a stale field, also if the browser has a history."""
    focus(stage.a)
    stage.a.type("Hello")
    focus(stage.b, 0)
    stage.b.type("you ")
    stage.agrees_on("you abcdefHello")
    # The editor of the browser gets the command itself, as from its menu.
    for area in (OTHER_AREA, AREA):
        focus(stage.a, area=area)
        stage.a.press("F13", 0, ["undo"])
        stage.agrees_on("you abcdef")
        by_keys(stage.a, "Redo")
        stage.agrees_on("you abcdefHello")
    focus(stage.a, area=OTHER_AREA)
    by_keys(stage.a)
    stage.agrees_on("you abcdef")
    expect(stage.agreed()[4], "", "the text with the cursor")


def in_view(stage):
    """The widget of an undo comes into view."""
    tab = stage.a
    tab.call("Emulation.setDeviceMetricsOverride", width=420, height=400, deviceScaleFactor=1, mobile=False)
    focus(tab, 0)
    tab.type("x")
    tab.run("scrollTo(0, document.documentElement.scrollHeight)")
    by_keys(tab)
    tab.until(f"{NEWS}.includes('Undone: 1 character in Notes')")
    stage.agrees_on("abcdef")
    top, bottom, head = tab.run(f"(() => {{ const b = {AREA}.getBoundingClientRect(); return [b.y, b.bottom, document.querySelector('header').offsetHeight]; }})()")
    expect_that(top >= head and bottom <= 400, f"the text is in view, from {top} to {bottom} below a head of {head}")


def after_a_loss(stage):
    """While a link of protocol 3 is lost nothing is undone, and the page says so. On a server that was started again there is nothing to undo."""
    focus(stage.a)
    stage.a.type("Hello")
    stage.agreed()
    stage.server.stop()
    stage.a.until(IS_OFFLINE)
    focus(stage.a)
    by_keys(stage.a)
    if stage.lasts:
        expect(stage.a.run(f"{AREA}.value"), "abcdef", "the text, undone without a link")
        by_keys(stage.a, "Redo")
    else:
        says(stage.a, "Undo works again once the link is back")
        expect(stage.a.run(f"{UNDO}.ariaDisabled"), "true", "whether the button is grey")
    expect(stage.a.run(f"{AREA}.value"), "abcdefHello", "the text")
    stage.server.start()
    for it in stage.tabs:
        it.until(f"{STATE} === 'open'")
    focus(stage.a)
    by_keys(stage.a)
    says(stage.a, "The server was started again, so there is nothing to undo")
    stage.agrees_on("abcdefHello")
    stage.a.type("!")
    by_keys(stage.a)
    stage.agrees_on("abcdefHello")


def a_link_of_the_same_run(stage):
    """A page that joins the same run again goes on with its steps."""
    focus(stage.b)
    stage.b.type("Hello")
    stage.agrees_on("abcdefHello")
    with stage.lag.tunnel():
        stage.b.until(IS_OFFLINE)
    stage.b.until(f"{STATE} === 'open'")
    by_keys(stage.b)
    stage.agrees_on("abcdef")


def at_random(stage):
    """At random: all of one is undone, and all of the other stays; made again it is the board before."""
    stage.a.run(f"{AT_RANDOM}(11)")
    leave(stage.a)
    after = stage.agreed()
    undo_all(stage.a)
    expect(stage.agreed(), OPENING, "the board, all undone")
    while stage.a.run(f"{REDO}.ariaDisabled === 'false'"):
        by_keys(stage.a, "Redo")
    expect(stage.agreed(), after, "the board, all done again")
    together(lambda: stage.a.run(f"{AT_RANDOM}(5)"), lambda: stage.b.run(f"{AT_RANDOM}(77)"))
    stage.agreed(lambda tab: tab.run(DECIDE))
    together(lambda: undo_all(stage.a), lambda: undo_all(stage.b))
    stage.agreed()


def undo_all(tab):
    while tab.run(f"{UNDO}.ariaDisabled === 'false'"):
        by_keys(tab)


PARTS = {
    **{name: part for it in EACH for name, part in each_way(it).items()},
    "undo of a long paste": a_long_paste,
    "undo of a paste that goes on": a_paste_that_goes_on,
    "undo of typing, step by step": steps_of_typing,
    "undo of one act": steps_of_one_act,
    "undo of a label in a race": a_label_in_a_race,
    "undo beside a draft": beside_a_draft,
    "undo of a row with the cursor": a_row_with_the_cursor,
    "nothing to undo": nothing_to_undo,
    "the undo of the browser": the_browsers_undo,
    "undo comes into view": in_view,
    "undo and a link that is lost": after_a_loss,
    "undo after joining the same run": a_link_of_the_same_run,
    "undo at random": at_random,
}
