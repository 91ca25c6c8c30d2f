"""What a person sees and takes along: bounds, notices, the first visit, print, files, and the page for those who see it large or not at all."""
import base64
import json
import os
import tempfile
import time

import pdf
from looks import CONTROLS, tree
from stage import (ADD, AREA, COUNT, COUNTED, IS_OFFLINE, NOTICES, NUMBERS, OFFERED, RANGES, SOON, STATE, TOGGLE, WORDS, button, comes, copied, expect, expect_that, focus, leave, named, put, retype, select_all)

# A window in which the board of the tests is higher than what is seen.
NARROW = {"width": 420, "height": 480, "deviceScaleFactor": 1, "mobile": False}
LINES = [f"line {it} of what is printed" for it in range(200)]
LONG_BOARD = "window 1\ntext 1 \"" + "\\u{a}".join(LINES) + "\"\nlist 2 \"buy bread\" \"call Ann\"\ntoggle 3 on\nslider 4 0 1000 777\n"
EMPTY_BOARD = ""
# Quotes, a backslash, a line feed, what is no ASCII, and an id that comes before.
ODD_BOARD = 'window 1\ntext 1 "Hi \\"you\\" \\\\ there\\u{a}\\u{e9}\\u{1f600}"\nlist 2 "buy \\"bread\\"" "C:\\\\call"\ntoggle 3 on\nslider 4 -10 10 -5\nwindow 2\ntext 1 ""\nlist 7\n'
MENU = "document.getElementById('menu')"
WELCOME = "document.getElementById('welcome')"
SPOKEN = "Anyone with this link can edit. Changes are sent as you type."


def is_in_view(element):
    return f"(() => {{ const box = {element}.getBoundingClientRect(); return box.height > 0 && box.y >= 0 && box.bottom <= innerHeight; }})()"


def menu(tab, words):
    """Chooses from the menu."""
    tab.click("document.getElementById('menu-button')")
    tab.until(f"{MENU}?.checkVisibility()", 10)
    tab.click(button(words, MENU))


def opened_again(tab):
    tab.reload()
    tab.until(f"['open', 'draft'].includes({STATE})")


# ---- Bounds ----


def bounds(stage):
    """A number out of the bounds becomes the next one within them. Nothing raises an alarm."""
    tab = stage.a
    for at, (low, high) in enumerate([(0, 10), (-100, 100)]):
        slider_is = f"Number({RANGES}[{at}].value)"
        for typed, wanted, is_out in [(str(high + 89), high, True), (str(low - 1), low, True), ("", low, False), ("1e9", high, True), ("2.5", 3, False), ("7", 7, False)]:
            number = f"{NUMBERS}[{at}]"
            tab.click(number)
            select_all(tab)
            tab.press("Backspace")
            tab.type(typed)
            tab.press("Tab")
            expect(tab.run(f"[Number({number}.value), {number}.value !== '', {slider_is}]"), [wanted, True, wanted], f"the number and the slider after {typed!r} in {low} to {high}")
            says = f"([...{number}.closest('.widget').querySelectorAll('.hint')].find((it) => it.checkVisibility())?.textContent ?? '')"
            if is_out:
                expect(tab.run(says).replace("\u2212", "-"), f"{low} to {high}", f"the hint after {typed!r}")
            expect(tab.run(f"[{NOTICES}.length, document.querySelector('[role=alert]:not([hidden])')?.textContent ?? '', {COUNTED}]"), [0, "", ""], "what raises an alarm")
            expect(stage.agreed()[3 if at == 0 else 5], wanted, "what both show")
    expect(tab.run("[...document.querySelectorAll('.widget .hint')].some((it) => it.checkVisibility())"), False, "whether a hint stays after a number within the bounds")


# ---- Notices ----


def loses(stage, text):
    """B types a text that does not reach the server before its link is lost, so it is offered. One that lasts is lost with its server."""
    stage.lag.held = {"up"}
    focus(stage.b)
    stage.b.type(text)
    stage.b.until(f"{STATE} === 'sending'")
    if stage.lasts:
        stage.server.kill()
    stage.lag.cut()
    stage.b.until(f"{STATE} !== 'sending'")
    if stage.lasts:
        stage.server.start()
    stage.b.until(f"{STATE} === 'open'")


def notices(stage):
    """The head says that there is an offer, leads to it, and it is there again after the tab was loaded again."""
    tab = stage.b
    tab.call("Emulation.setDeviceMetricsOverride", **NARROW)
    loses(stage, " and more")
    notice = "document.querySelector('.widget .notice')"
    expect_that(tab.run(f"{notice} !== null && {AREA}.closest('.widget').contains({notice})"), "the notice is at the text of which it tells")
    offered = tab.run(OFFERED)
    expect([len(offered), " and more" in "".join(offered)], [1, True], "how many texts are offered, and whether it is what was typed")
    leave(tab)
    tab.run("scrollTo(0, document.documentElement.scrollHeight)")
    expect(tab.run(f"[{COUNTED}, {is_in_view(COUNT)}, {is_in_view(notice)}]"), ["1 notice", True, False], "the head's button, whether it is in view, and whether the notice is")
    expect(tab.run("document.getElementById('state').checkVisibility()"), False, "whether the head says that all is well")
    tab.click_at(tab.run(f"(() => {{ const box = {COUNT}.getBoundingClientRect(); return [box.x + box.width / 2, box.y + box.height / 2]; }})()"))
    tab.until(is_in_view(f"{notice}.querySelector('.notice-words')"))
    expect(tab.run(f"{notice}.contains(document.activeElement)"), True, "whether the focus is at the notice")
    tab.click(button("Copy", notice))
    copied(tab, " and more")
    opened_again(tab)
    tab.until(f"{OFFERED}.length > 0")
    expect(tab.run(f"[{OFFERED}, {COUNTED}]"), [offered, "1 notice"], "what is offered after the tab was loaded again, and the head")
    tab.click(button("Dismiss", notice))
    expect(tab.run(f"[{NOTICES}.length, {COUNTED}, document.getElementById('state').checkVisibility()]"), [0, "", True], "the notices after the last was dismissed, and whether the head says that all is well")
    opened_again(tab)
    time.sleep(2)
    expect([tab.asked(), tab.run(f"{NOTICES}.length")], [0, 0], "how many times the page asked whether to leave it, and the notices")


def two_notices(stage):
    """An offer and a draft that can't be an item are two."""
    tab = stage.b
    loses(stage, " and more")
    tab.click(ADD)
    put(tab, "K\u00e4se")
    leave(tab)
    expect(tab.run(f"[{COUNTED}, {STATE}]"), ["2 notices", "draft"], "the head and the stage")
    expect(tab.run(f"[{WORDS}, document.getElementById('state').checkVisibility()]"), ["1 draft", True], "the words of the head, and whether they are shown")


# How long the page waits between two tries, in seconds, after the first. Each wait is a fifth more or less, and on a busy machine up to a second more.
WAITS = (1, 2, 4, 5)
TRIES = """window.tried = [], window.WebSocket = class extends WebSocket {
  constructor(...given) { super(...given); tried.push(performance.now() / 1000); }
}, null"""


def lost_and_tried(stage):
    """A lost link is tried again soon and then every five seconds, and immediately by a button, a key or a click."""
    tab = stage.a
    tab.run(TRIES)
    stage.server.stop()
    tab.until(IS_OFFLINE)
    expect(tab.run(WORDS), "Offline", "the words of the head")
    tab.until(f"tried.length > {len(WAITS)}", 30)
    tried = tab.run("tried")
    gaps = [after - before for before, after in zip(tried, tried[1:], strict=False)]
    most = 0.2 if stage.slack == 1 else 1
    expect_that(all(0.79 * wait < gap < 1.2 * wait + most for wait, gap in zip(WAITS, gaps, strict=False)), f"the waits are {WAITS}, a fifth more or less: {gaps}")
    for step in (lambda: tab.click(button("Try now")), lambda: tab.press("ArrowDown"), lambda: tab.click("document.querySelector('main h2')")):
        time.sleep(1.2)
        count = tab.run("tried.length")
        step()
        tab.until(f"tried.length > {count}", 2)
    stage.server.start()
    tab.until(f"{STATE} === 'open'", 8 + stage.slack)
    expect(tab.run(f"{button('Try now')} === undefined"), True, "whether there is nothing to try")


# ---- The first visit ----


def first_visit(stage):
    """One line says how it works, until it is closed."""
    tab = stage.a
    expect_that(tab.run(f"{WELCOME}?.checkVisibility()"), "the first visit is told how it works")
    expect_that(SPOKEN in tab.run(f"{WELCOME}.textContent"), "the line says how it works")
    expect(tab.run("[document.getElementById('title').textContent, document.title, document.getElementById('state').textContent]"), ["Party", "Party", "Sent"], "the title, that of the tab, and the state")
    opened_again(tab)
    expect_that(tab.run(f"{WELCOME}.checkVisibility()"), "the line stays until it is closed")
    tab.click(f"{WELCOME}.querySelector('[aria-label=Close]')")
    expect(tab.run(f"{WELCOME}?.checkVisibility() ?? false"), False, "whether the line is there after it was closed")
    opened_again(tab)
    expect(tab.run(f"{WELCOME}?.checkVisibility() ?? false"), False, "whether the line is there on the next visit")
    tab.click("document.getElementById('menu-button')")
    tab.until(f"{MENU}.checkVisibility()")
    expect_that("Gidzvruka" in tab.run(f"{MENU}.textContent"), "the menu names the program")
    for words in ("Download as text", "Download the printed board", "Download as JSON", "Print"):
        expect_that(tab.run(f"{button(words, MENU)} !== undefined"), f"the menu has {words!r}")
    tab.press("Escape")
    expect(tab.run(f"{MENU}.checkVisibility()"), False, "whether Escape closes the menu")


def an_empty_board(stage):
    """A board without windows says so, and how its operator adds widgets."""
    tab = stage.a
    said = tab.run("document.querySelector('main').textContent")
    expect_that("Nothing here yet" in said, f"the page says that nothing is there: {said!r}")
    expect_that("text 1" in said or "--board" in said, f"it says how widgets are added: {said!r}")
    expect(tab.run("[document.querySelectorAll('.widget').length, document.getElementById('title').textContent]"), [0, "Board"], "the widgets, and the title")


# ---- Print and files ----


def printed(tab):
    return pdf.text_of(base64.b64decode(tab.call("Page.printToPDF")["data"]))


def prints(stage):
    """All of a text is printed, with the captions and the items. What is there to operate is not."""
    tab = stage.a
    text = printed(tab)
    for it in ("Party", "Notes", LINES[0], LINES[99], LINES[199], "buy bread", "call Ann", "Everything is paid", "Guests", "777"):
        expect_that(it in text, f"{it!r} is printed")
    for it in ("2 connected", "Sent", "\u00d7", "add an item"):
        expect_that(it not in text, f"{it!r} is not printed")
    # Afterwards the page is as it was.
    expect(tab.run(f"[document.querySelectorAll('main pre').length, {AREA}.checkVisibility(), {AREA}.value.length]"), [0, True, len("\n".join(LINES))], "what is left of it, and the text")


def print_shows_states(stage):
    """A toggle is printed with its state."""
    tab = stage.a
    tab.call("Emulation.setEmulatedMedia", media="print")
    tab.run("dispatchEvent(new Event('beforeprint'))")
    visible = "(it) => it?.checkVisibility() ?? false"
    expect(tab.run(f"[document.querySelector('header'), {ADD}, document.querySelector('li button'), {AREA}].map({visible})"), [False] * 4, "whether the head, what adds, a button and an area are printed")
    expect(tab.run(f"[...document.querySelectorAll('main pre')].map((it) => it.textContent)"), ["\n".join(LINES)], "the texts that are printed")
    expect(tab.run(f"[{TOGGLE}, document.querySelector('li input'), document.querySelector('.caption')].map({visible})"), [True] * 3, "whether a tick, an item and a caption are printed")
    tab.run("dispatchEvent(new Event('afterprint'))")
    tab.call("Emulation.setEmulatedMedia", media="")
    expect(tab.run("document.querySelectorAll('main pre').length"), 0, "what is left of it")


def downloaded(stage, words, folder):
    """The content of the file that an item of the menu makes, and its name."""
    before = set(os.listdir(folder))
    menu(stage.a, words)
    end = time.monotonic() + SOON * stage.slack
    while time.monotonic() < end:
        new = [it for it in set(os.listdir(folder)) - before if not it.endswith(".crdownload")]
        if new:
            time.sleep(0.2)
            with open(f"{folder}/{new[0]}", encoding="utf-8", newline="") as file:
                return new[0], file.read()
        time.sleep(0.05)
    expect_that(False, f"a file comes by {words!r}")
    return None


def leaves_of(value):
    if isinstance(value, dict):
        value = list(value.values())
    return [leaf for it in value for leaf in leaves_of(it)] if isinstance(value, list) else [value]


def downloads(stage):
    """The files have what the board has. The printed board is, byte for byte, what the server keeps, so `jupboard` and `--board` take it."""
    with tempfile.TemporaryDirectory(prefix="page-") as folder:
        stage.browser.whole.call("Browser.setDownloadBehavior", behavior="allow", downloadPath=folder)
        focus(stage.b)
        stage.b.type("\u20ac")
        stage.agreed()
        name, text = downloaded(stage, "Download the printed board", folder)
        comes(stage.server.kept, text, f"what the server keeps, as the printed board in {name} has it")
        name, text = downloaded(stage, "Download as text", folder)
        for it in ("Party", "Notes", 'Hi "you" \\ there\n\u00e9\U0001f600\u20ac', "Who brings what", 'buy "bread"', "C:\\call", "Everything is paid", "on", "Guests", "-5", "Later"):
            expect_that(it in text, f"{it!r} is in {name}: {text!r}")
        name, text = downloaded(stage, "Download as JSON", folder)
        found = leaves_of(json.loads(text))
        for it in ('Hi "you" \\ there\n\u00e9\U0001f600\u20ac', 'buy "bread"', "C:\\call", True, -5, ""):
            expect_that(it in found, f"{it!r} is in {name}: {text!r}")


def copies(stage):
    """A text and a list can be copied as they are."""
    tab = stage.a
    tab.click(named("Copy Notes"))
    copied(tab, "Hi")
    tab.click(named("Copy Who brings what"))
    copied(tab, "buy bread\ncall Ann")
    expect(tab.run(f"[{named('Copy Notes')}.textContent.trim() !== '', {named('Copy Notes')}.closest('.widget').contains({AREA})]"), [True, True], "whether the button has words, and is at its text")


# ---- Large, coarse, and heard ----

# What sticks out of the page, or out of the section that it is in, with its text.
OUT = """[...document.querySelectorAll('header *, main *')].filter((it) => it.checkVisibility() && !it.closest('.unseen')).filter((it) => {
  const box = it.getBoundingClientRect();
  const edge = it.closest('main section')?.getBoundingClientRect().right ?? document.documentElement.clientWidth;
  const isClipped = getComputedStyle(it).overflowX !== 'visible' || it.children.length > 0;
  return box.x < -1 || box.right > edge + 1 || (!isClipped && box.x + it.scrollWidth > edge + 1);
}).map((it) => `${it.tagName}.${it.className || it.id || it.type}`)"""


def large(stage):
    """Texts of twice the size fit on a wide screen, and on a narrow one, as with a zoom of 400 %. Nothing sticks out, and nothing has to be scrolled to the side."""
    tab = stage.a
    tab.click(ADD)
    put(tab, "K\u00e4se and " + "x" * 40)
    leave(tab)
    for width in (1280, 320):
        tab.call("Emulation.setDeviceMetricsOverride", width=width, height=640, deviceScaleFactor=1, mobile=False)
        tab.until(f"innerWidth === {width}")
        tab.run("document.documentElement.style.fontSize = '200%'")
        expect(tab.run(f"[document.documentElement.scrollWidth <= document.documentElement.clientWidth, {OUT}]"), [True, []], f"whether {width} pixels are enough, and what sticks out")
    stage.picture(tab, "large")


def forced_colours(stage):
    """Where the system chooses the colours, each control has an edge, and words and shapes tell states."""
    tab = stage.a
    tab.call("Emulation.setEmulatedMedia", features=[{"name": "forced-colors", "value": "active"}])
    expect(tab.run("matchMedia('(forced-colors: active)').matches"), True, "whether the system chooses the colours")
    edges = "[...document.querySelectorAll('textarea, input:not([type=range]), button')].filter((it) => it.checkVisibility() && parseFloat(getComputedStyle(it).borderTopWidth) === 0).map((it) => it.outerHTML)"
    expect(tab.run(edges), [], "which controls have no edge")
    knob = f"getComputedStyle({TOGGLE}, '::after').left"
    was = tab.run(knob)
    tab.click(TOGGLE)
    tab.until(f"{knob} !== '{was}'")
    shows = f"getComputedStyle({TOGGLE}, '::after').backgroundColor !== getComputedStyle({TOGGLE}).backgroundColor"
    expect(tab.run(shows), True, "whether the knob of a switch that is on can be seen")
    tab.click(ADD)
    put(tab, "K\u00e4se")
    leave(tab)
    expect(tab.run(COUNTED), "1 notice", "the words of the head")
    comes(lambda: tab.run(STATE), "draft", "the stage")
    stage.picture(tab, "forced")
    tab.call("Emulation.setEmulatedMedia", features=[])


def coarse(stage):
    """What is pressed with a finger is as large as a finger."""
    tab = stage.a
    tab.call("Emulation.setDeviceMetricsOverride", width=390, height=800, deviceScaleFactor=2, mobile=True)
    tab.call("Emulation.setTouchEmulationEnabled", enabled=True)
    expect(tab.run("matchMedia('(pointer: coarse)').matches"), True, "whether the pointer is a finger")
    tab.click("document.getElementById('menu-button')")
    # A box that is ticked may be pressed on its label too.
    small = """[...document.querySelectorAll('textarea, input, button')].filter((it) => it.checkVisibility()).map((it) => [it, (it.type === 'checkbox' && it.role !== 'switch' ? it.labels[0] : it).getBoundingClientRect()])
      .filter(([it, box]) => box.height < 44 || (box.width < 44)).map(([it, box]) => `${it.tagName} ${it.id || it.ariaLabel || it.textContent}: ${box.width} x ${box.height}`)"""
    expect(tab.run(small), [], "what is too small for a finger")
    tab.call("Emulation.setTouchEmulationEnabled", enabled=False)


def what_is_heard(stage):
    """The one region that is read out has a sentence in five seconds at most while another types, for as many seconds as this or a few more."""
    seconds = 15
    tab = stage.a
    expect(tab.run("[...document.querySelectorAll('[aria-live], [role=status], [role=alert], [role=log]')].filter((it) => it.id !== 'news' && !it.closest('.notice, #notices, .hint')).map((it) => it.id || it.className)"), [], "what else is read out")
    tab.run("window.heard = [], new MutationObserver(() => { const said = document.getElementById('news').textContent; if (said) heard.push(said); }).observe(document.getElementById('news'), { childList: true, subtree: true, characterData: true })")
    focus(stage.b)
    begun = time.monotonic()
    while time.monotonic() < begun + seconds:
        stage.b.type("word ", 0.05)
    said = tab.run("heard")
    most = (time.monotonic() - begun) / 5 + 1
    expect_that(1 <= len(said) <= most, f"between one and {most:.1f} sentences are read out in {5 * (most - 1):.0f} seconds: {said}")
    expect_that(any("Notes" in it for it in said), f"they name what was changed: {said}")


def controls_have_names(stage):
    """Each control has a name while there are drafts, rows with a choice and notices."""
    tab = stage.b
    loses(stage, " and more")
    retype(tab, "document.querySelector('li input')", "K")
    put(tab, "\u00e4se")
    leave(tab)
    expect(tab.run(COUNTED), "2 notices", "the head")
    expect_that(all(name for role, name in tree(tab) if role in CONTROLS), "each control has a name")
    expect(tab.run("[...document.querySelectorAll('main .notice')].every((it) => it.querySelector('.notice-words').textContent.trim() !== '')"), True, "whether each notice has words")


PARTS = {
    "bounds of a slider": bounds,
    "a notice out of view": notices,
    "two notices": two_notices,
    "a lost link is tried again": lost_and_tried,
    "the first visit": first_visit,
    "a text and a list are copied": copies,
    "large print and a narrow screen": large,
    "colours of the system": forced_colours,
    "fingers": coarse,
    "what is read out": what_is_heard,
    "names of drafts and notices": controls_have_names,
}
EMPTY_PARTS = {"an empty board": an_empty_board}
PRINT_PARTS = {"print": prints, "print of ticks and captions": print_shows_states}
FILE_PARTS = {"files": downloads}
