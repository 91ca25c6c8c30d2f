"""What others do changes nothing under a person's hands: lines, carets, selections and what is in view stay where they are."""
from browser import SHIFT
from stage import ADD, AREA, AREAS, CAPTIONS, IS_OFFLINE, OTHER_AREA, SOON, STATE, expect, expect_that, focus, leave, put, row, selected

LINES = [f"line {it} of a long text" for it in range(200)]
LONG_BOARD = "window 1\ntext 1 \"" + "\\u{a}".join(LINES) + "\"\nlist 2 \"bread\" \"milk\"\ntoggle 3 off\nslider 4 0 10 5\nwindow 2\ntext 1 \"one\\u{a}two\\u{a}three\"\nslider 2 -100 100 0\n"
SHORT_BOARD = "window 1\ntext 1 \"one\\u{a}two\\u{a}three\"\nlist 2 \"bread\" \"milk\"\ntoggle 3 off\nslider 4 0 10 5\nwindow 2\ntext 1 \"four\"\nslider 2 -100 100 0\n"
# A window that shows some of the widgets, one below the other.
NARROW = {"width": 420, "height": 640, "deviceScaleFactor": 1, "mobile": False}
# The line at the upper edge of an area, and where each widget in view is.
TOP_LINE = """(() => {
  const it = %s;
  const box = it.getBoundingClientRect();
  const { offset } = document.caretPositionFromPoint(box.x + 20, box.y + 14);
  return it.value.slice(it.value.lastIndexOf('\\n', offset - 1) + 1).split('\\n')[0];
})()"""
IN_VIEW = """[...document.querySelectorAll('main .widget')].map((it) => it.getBoundingClientRect()).map((it) => [Math.round(it.y), it.bottom > 0 && it.y < innerHeight])
  .map(([y, isInView]) => (isInView ? y : null))"""
# How far a widget may be from where it was, in pixels: what a browser rounds.
ROUNDED = 1
CAPTION = f"{AREA}.closest('.widget').querySelector('.caption').textContent"


def narrow(tab):
    tab.call("Emulation.setDeviceMetricsOverride", **NARROW)
    tab.until(f"innerWidth === {NARROW['width']}")


def types_lines(stage, before, area=AREA):
    """B types twenty lines in front of the line that begins so, and A comes to show them."""
    at = stage.b.run(f"{area}.value.indexOf({before!r})")
    focus(stage.b, at, area=area)
    stage.b.type("".join(f"new {it}\n" for it in range(20)))
    stage.a.until(f"{area}.value.includes('new 19\\n')")
    # A browser may keep what is in view by an animation frame of its own.
    stage.a.run("new Promise((done) => requestAnimationFrame(() => requestAnimationFrame(done)))")


def stays(was, now, what):
    is_near = len(was) == len(now) and all((a is None) == (b is None) and (a is None or abs(a - b) <= ROUNDED) for a, b in zip(was, now, strict=True))
    expect_that(is_near, f"{what}: {was} before, and {now} now")


def lines_above(stage, has_focus):
    """The first visible line of a scrolled area stays when another types above it."""
    tab = stage.a
    at = sum(len(it) + 1 for it in LINES[:110])
    focus(tab, at, at + 4)
    tab.run(f"{AREA}.scrollTop = {AREA}.scrollHeight / 2")
    if not has_focus:
        focus(tab, 1, area=OTHER_AREA)
        tab.run("scrollTo(0, 0)")
    line, seen = tab.run(TOP_LINE % AREA), tab.run(IN_VIEW)
    types_lines(stage, "line 10 ")
    expect(tab.run(TOP_LINE % AREA), line, "the first visible line")
    stays(seen, tab.run(IN_VIEW), "where the widgets in view are")
    expect(selected(tab), "line", "what is selected in the text")
    expect(tab.run(f"document.activeElement === {AREA if has_focus else OTHER_AREA}"), True, "whether the focus is where it was")
    # What another types below, or takes away above, moves nothing either.
    types_lines(stage, "line 180 ")
    focus(stage.b, 0, sum(len(it) + 1 for it in LINES[:5]))
    stage.b.press("Delete")
    tab.until(f"{AREA}.value.startsWith('line 5 ')")
    expect(tab.run(TOP_LINE % AREA), line, "the first visible line after lines were taken away")


def nothing_moves(stage):
    """With the cursor in the text."""
    lines_above(stage, has_focus=True)


def nothing_moves_elsewhere(stage):
    """With the cursor in another text."""
    lines_above(stage, has_focus=False)


def heights_stay(stage):
    """A text in view that another types in keeps its height, so that what is below stays."""
    tab = stage.a
    narrow(tab)
    focus(tab, 2, area=OTHER_AREA)
    tab.run("scrollTo(0, 0)")
    seen, height = tab.run(IN_VIEW), tab.run(f"{AREA}.getBoundingClientRect().height")
    types_lines(stage, "two")
    stays(seen, tab.run(IN_VIEW), "where the widgets in view are")
    expect(tab.run(f"{AREA}.getBoundingClientRect().height"), height, "the height of the text")
    tab.click(AREA)
    tab.until(f"{AREA}.getBoundingClientRect().height > {height + 50}")


def what_is_out_of_view(stage):
    """A text above what is in view takes the height of its lines, and what is in view stays."""
    tab = stage.a
    narrow(tab)
    tab.run("window.scrollTo(0, document.documentElement.scrollHeight)")
    expect_that(tab.run(f"{AREA}.getBoundingClientRect().bottom < 0"), "the text is above what is in view")
    seen = tab.run(IN_VIEW)
    types_lines(stage, "two")
    tab.run("new Promise((done) => setTimeout(done, 300))")
    stays(seen, tab.run(IN_VIEW), "where the widgets in view are")


def backward(stage):
    """A selection made to the left goes on to the left."""
    focus(stage.a, 9)
    for _ in range(3):
        stage.a.press("ArrowLeft", SHIFT)
    expect(stage.a.run(f"[{AREA}.selectionStart, {AREA}.selectionEnd, {AREA}.selectionDirection]"), [6, 9, "backward"], "the selection")
    for at, typed in ((0, "> "), (11, "..")):
        focus(stage.b, at)
        stage.b.type(typed)
        stage.a.until(f"{AREA}.value.includes('{typed}')")
    stage.agreed()
    expect(stage.a.run(f"[{AREA}.selectionStart, {AREA}.selectionEnd, {AREA}.selectionDirection]"), [8, 11, "backward"], "the selection after others typed")
    stage.a.press("ArrowLeft", SHIFT)
    expect(stage.a.run(f"{AREA}.selectionEnd - {AREA}.selectionStart"), 4, "how many characters are selected")


def a_composed_word(stage):
    """While a word is composed, the caption counts what others have changed. Both are there afterwards."""
    focus(stage.a, 0)
    stage.a.call("Input.imeSetComposition", text="\u306b", selectionStart=1, selectionEnd=1)
    focus(stage.b)
    for count, words in ((1, "1 change comes after this word"), (2, "2 changes come after this word")):
        stage.b.type("x")
        stage.a.until(f"{CAPTION}.includes('{words}')")
        expect(stage.a.run(f"{AREA}.value.endsWith('x')"), False, f"whether the {count} changes wait")
    stage.a.call("Input.imeSetComposition", text="\u306b\u307b", selectionStart=2, selectionEnd=2)
    put(stage.a, "\u65e5\u672c")
    text = stage.agreed()[0]
    expect_that(text.startswith("\u65e5\u672c") and text.endswith("xx") and "\u306b" not in text, f"the word and what others typed are in {text!r}")
    expect(stage.a.run(f"{CAPTION}.includes('after this word')"), False, "whether the caption still says so")


def hands(tab):
    """What has the focus, by its value, and the selection in it."""
    return tab.run("[document.activeElement.value, document.activeElement.selectionStart, document.activeElement.selectionEnd, document.activeElement.selectionDirection]")


def the_link_comes_back(stage):
    """A cursor, a selection and a draft stay while a link is lost and when it comes back."""
    focus(stage.a, 1, 5)
    stage.b.click(f"{row('milk')}.querySelector('input')")
    stage.b.press("Home")
    stage.b.type("oat ")
    was = [hands(it) for it in stage.tabs]
    stage.server.stop()
    for it in stage.tabs:
        it.until(IS_OFFLINE)
    expect([hands(it) for it in stage.tabs], was, "the fields with the focus while the link is lost")
    stage.server.start()
    stage.a.until(f"{STATE} === 'open'")
    stage.b.until(f"{STATE} === 'draft'")
    expect([hands(it) for it in stage.tabs], was, "the fields with the focus once the link is back")
    stage.b.type("full ")
    leave(stage.b)
    expect(stage.agreed()[1], ["bread", "oat full milk"], "the list")


def other_captions(stage):
    """After a restart a page has the captions and the widgets of now. A field that is still there keeps the focus."""
    focus(stage.a, 1, 5)
    stage.b.run(f"{ADD}.focus()")
    put(stage.b, "pepp")
    was = [hands(it) for it in stage.tabs]
    stage.server.stop()
    with open(stage.server.captions, "w", encoding="utf-8") as file:
        file.write(CAPTIONS.replace('"Notes"', '"Minutes"').replace('"Party"', '"Dinner"'))
    with open(stage.server.board, "r+", encoding="utf-8") as file:
        board = file.read().replace("toggle 3 off\n", "toggle 3 off\ntoggle 9 on\n")
        file.seek(0)
        file.write(board)
    stage.server.start()
    for it in stage.tabs:
        it.until("document.querySelectorAll('[role=switch]').length === 2")
        it.until(f"document.querySelector('main h2').textContent === 'Dinner'", SOON)
        captions = it.run("[document.getElementById('title').textContent, document.title, document.querySelector('main .caption > :first-child').textContent]")
        expect(captions, ["Dinner", "Dinner", "Minutes"], "the titles and the caption")
    expect([hands(it) for it in stage.tabs], was, "the fields with the focus")
    stage.b.type("er\n")
    expect(stage.agreed()[1], ["bread", "milk", "pepper"], "the list")
    expect(stage.a.run(f"{AREAS}.length"), 2, "how many texts there are")


LONG_PARTS = {
    "nothing moves where the cursor is": nothing_moves,
    "nothing moves where the cursor is not": nothing_moves_elsewhere,
}
PARTS = {
    "nothing moves below a text that others type in": heights_stay,
    "nothing moves below a text that is out of view": what_is_out_of_view,
    "a selection made backward": backward,
    "a composed word tells what waits": a_composed_word,
    "a link that comes back": the_link_comes_back,
    "captions and widgets that are others after a restart": other_captions,
}
