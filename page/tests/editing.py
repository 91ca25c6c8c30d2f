"""Two people edit one board in two tabs, of which one is 160 ms away: every kind of edit."""
import time

from browser import CONTROL, SHIFT
from stage import (
    ADD, ADD_HINT, AREA, FIELDS, NUMBERS, RANGES, ROWS, STATE, TOGGLE, Differs, after_cursor, expect, expect_that, focus, put, select_all, selected, together,
)

# Edits at random on all widgets, by the events that a browser makes of a user's.
AT_RANDOM = """(async (seed) => {
  let state = seed;
  const random = (end) => (state = (state * 1103515245 + 12345) & 0x7fffffff, Math.floor(state / 0x80000000 * end));
  const all = (kind) => [...document.querySelectorAll('main ' + kind)];
  const write = (field, text) => { field.focus(); field.value = text; send(field, 'input'); };
  const send = (element, kind) => element.dispatchEvent(new InputEvent(kind, { bubbles: true }));
  for (let i = 0; i < 120; i++) {
    const area = all('textarea:not(.notice textarea)')[random(2)];
    const at = random(area.value.length + 1);
    area.setRangeText('ab\\u{1f600}d'.slice(0, random(5)), at, Math.min(area.value.length, at + random(4)), 'end');
    send(area, 'input');
    const rows = all('ol li:not(.ghost)');
    const row = rows[random(rows.length)];
    const kind = random(6);
    if (kind === 0) { const field = all('.row > input[id]')[0]; write(field, 'item ' + random(100)); field.parentElement.querySelector('button').click(); }
    if (kind === 1 && row) row.querySelector('[aria-label^=Delete]').click();
    if (kind === 2 && row) { write(row.querySelector('input'), 'label ' + random(100)); row.querySelector('input').blur(); }
    if (kind === 3) all('[role=switch]')[0].click();
    if (kind === 4) { const range = all('[type=range]')[random(2)]; range.value = Number(range.min) + random(range.max - range.min + 1); send(range, 'change'); }
    await new Promise((done) => setTimeout(done, random(15)));
  }
  return true;
})"""
# Decides about one row that has something to choose. Says whether there was one.
DECIDE = """(() => {
  const found = [...document.querySelectorAll('li button')].find((it) => ['Take theirs', 'Keep mine', 'Drop'].includes(it.textContent.trim()) && it.checkVisibility());
  found?.click();
  return found !== undefined;
})()"""


def opens(stage):
    headings = stage.a.run("[...document.querySelectorAll('main h2, main .caption > :first-child')].map((it) => it.textContent)")
    expect(headings, ["Party", "Notes", "Who brings what", "Everything is paid", "Guests", "Later", 'More "notes"', "Slider 2"], "captions")
    for it in stage.tabs:
        it.until("document.getElementById('who').textContent === '2 connected'")
    stage.agrees_on("Hi", ["buy bread", "call Ann"], False, 5, "", 0)


def at_two_ends(stage):
    focus(stage.a, 0)
    focus(stage.b)
    together(lambda: stage.a.type("Dear all, ", 0.01), lambda: stage.b.type(" there", 0.01))
    stage.agrees_on("Dear all, Hi there")


def at_one_place(stage):
    focus(stage.a)
    focus(stage.b)
    together(lambda: stage.a.type("A" * 20, 0.005), lambda: stage.b.type("b" * 20, 0.005))
    text = stage.agreed()[0]
    expect_that("A" * 20 in text and "b" * 20 in text, f"each run is whole in {text!r}")


def the_cursor_stays(stage):
    at = stage.b.run(f"{AREA}.value.indexOf('Hi')")
    focus(stage.b, at)
    focus(stage.a, 0)
    stage.a.type("One line before.\n")
    stage.agreed()
    expect(after_cursor(stage.b, 2), "Hi", "what is after the cursor")
    focus(stage.b, *stage.b.run(f"[{AREA}.selectionStart, {AREA}.selectionStart + 2]"))
    stage.a.type("Two.\n")
    focus(stage.a, 0)
    for _ in range(4):
        stage.a.press("Delete")
    stage.agreed()
    expect(selected(stage.b), "Hi", "what is selected")
    stage.b.type("Ho")
    expect_that("Ho there" in stage.agreed()[0], "what is selected is replaced by what is typed")


def cut_and_paste(stage):
    at = stage.a.run(f"{AREA}.value.indexOf('Ho')")
    focus(stage.a, at, at + 2)
    stage.a.press("x", CONTROL, ["cut"])
    focus(stage.a, 0)
    focus(stage.b)
    together(lambda: stage.a.press("v", CONTROL, ["paste"]), lambda: stage.b.type("!?"))
    text = stage.agreed()[0]
    expect_that(text.startswith("Ho") and text.endswith("!?") and text.count("Ho") == 1, f"the words have moved in {text!r}")


def a_long_paste(stage):
    words = "\r\n".join(f"word {it} and more" for it in range(200))
    focus(stage.a, 2)
    stage.a.run(f"new MutationObserver(() => {AREA}.readOnly || (window.cursorThen = {AREA}.selectionStart)).observe({AREA}, {{ attributeFilter: ['readonly'] }})")
    together(lambda: stage.a.run(pasted(words)), lambda: stage.b.type("meanwhile"))
    text = stage.agreed()[0]
    expect_that(words.replace("\r\n", "\n") in text and text.endswith("!?meanwhile"), "both are whole")
    after = 2 + len(words.replace("\r\n", "\n"))
    expect(stage.a.run(f"[{AREA}.selectionStart, cursorThen]"), [after, after], "the cursor after a paste, and at the moment from which on one can type")


def pasted(text, area=AREA):
    """An event of a paste, as a browser makes it, at an area that has the focus."""
    return f"""(() => {{ const data = new DataTransfer(); data.setData('text/plain', {text!r});
        {area}.dispatchEvent(new ClipboardEvent('paste', {{ clipboardData: data, bubbles: true, cancelable: true }})); }})()"""


def all_is_deleted(stage):
    focus(stage.b)
    focus(stage.a)
    stage.a.press("a", CONTROL, ["selectAll"])
    together(lambda: stage.a.press("Backspace"), lambda: stage.b.type("kept", 0.02))
    stage.agrees_on("kept")


def emoji(stage):
    focus(stage.b, 0)
    stage.b.call("Input.insertText", text="\U0001f600e\u0301\U0001f468\u200d\U0001f469\u200d\U0001f467")
    stage.agreed()
    focus(stage.a, 0)
    stage.a.type("x")
    expect(stage.agreed()[0], "x\U0001f600e\u0301\U0001f468\u200d\U0001f469\u200d\U0001f467kept", "the text")
    focus(stage.a, 3)
    stage.a.press("Backspace")
    focus(stage.b, 0)
    stage.b.press("Delete")
    expect_that(stage.agreed()[0].startswith("e\u0301"), "a character of two halves goes as one")


def composed(stage):
    focus(stage.a, 0)
    focus(stage.b, 0)
    stage.b.call("Input.imeSetComposition", text="\u306b", selectionStart=1, selectionEnd=1)
    stage.a.type("during ")
    stage.b.call("Input.imeSetComposition", text="\u306b\u307b", selectionStart=2, selectionEnd=2)
    time.sleep(0.4)
    expect_that(stage.b.run(f"{AREA}.value").startswith("\u306b\u307b"), "others do not disturb a composition")
    stage.a.until(f"{AREA}.value.includes('\u306b\u307b')")
    stage.b.call("Input.insertText", text="\u65e5\u672c")
    text = stage.agreed()[0]
    expect_that("\u65e5\u672c" in text and "\u306b" not in text and "during " in text, f"the word and what others typed are in {text!r}")


def cross(at):
    return f"{ROWS}[{at}].querySelector('[aria-label^=Delete]')"


def lists(stage):
    stage.a.click(ADD)
    stage.b.click(f"{FIELDS}[0]")
    select_all(stage.b)
    together(lambda: stage.a.type("milk\neggs\n"), lambda: stage.b.type("brown bread\n", 0.01))
    expect(stage.agreed()[1], ["brown bread", "call Ann", "milk", "eggs"], "the list")
    stage.b.click(f"{FIELDS}[2]")
    stage.b.press("End")
    together(lambda: stage.a.click(cross(1)), lambda: stage.b.type("!"))
    stage.b.until(f"{FIELDS}.length === 3")
    expect(stage.b.run("document.activeElement.value"), "milk!", "the field with the cursor")
    stage.b.press("Enter")
    expect(stage.agreed()[1], ["brown bread", "milk!", "eggs"], "the list")
    stage.a.click(f"{FIELDS}[0]")
    stage.b.click(cross(1))
    expect(stage.agreed()[1], ["brown bread", "eggs"], "the list")
    expect(stage.a.run("document.activeElement.value"), "brown bread", "the field with the cursor")


def labels(stage):
    stage.a.click(ADD)
    put(stage.a, "caf\u00e9")
    stage.a.press("Enter")
    expect(stage.a.run(f"[{ADD}.value, {ADD}.ariaInvalid, {ADD_HINT} !== '']"), ["caf\u00e9", "true", True], "a label that is none")
    stage.a.press("Backspace")
    stage.a.type("e\n")
    expect(stage.agreed()[1], ["brown bread", "eggs", "cafe"], "the list")
    expect(stage.a.run(ADD_HINT), "", "the hint")


def toggles_and_sliders(stage):
    stage.a.click(TOGGLE)
    stage.b.run(f"{RANGES}[0].focus()")
    for _ in range(3):
        stage.b.press("ArrowRight")
    expect(stage.agreed()[2:4], [True, 8], "the toggle and the slider")
    stage.a.run(f"{NUMBERS}[1].focus()")
    select_all(stage.a)
    stage.a.type("-42\n")
    expect(stage.agreed()[5], -42, "a number that is typed")
    together(lambda: stage.a.click(TOGGLE), lambda: stage.b.click(TOGGLE))
    expect(stage.agreed()[2], False, "the toggle that both set")
    dragged = f"(async () => {{ for (let i = 0; i < 40; i++) {{ {RANGES}[0].value = i * %d %% 11; {RANGES}[0].dispatchEvent(new Event('input')); await new Promise((it) => setTimeout(it, 5)); }} }})()"
    together(lambda: stage.a.run(dragged % 3), lambda: stage.b.run(dragged % 7))
    stage.agreed()


def at_random(stage):
    together(lambda: stage.a.run(f"{AT_RANDOM}(11)"), lambda: stage.b.run(f"{AT_RANDOM}(77)"))
    stage.agreed(lambda tab: tab.run(DECIDE))


def goes_to(tab, element):
    """Presses Tab until an element has the focus."""
    for _ in range(60):
        if tab.run(f"document.activeElement === {element}"):
            return
        tab.press("Tab")
    raise Differs(f"Tab does not go to {element}")


def by_keyboard(stage):
    """Everything once, by keys alone."""
    tab = stage.a
    tab.open(stage.server.url)
    tab.until(f"{STATE} === 'open'")
    goes_to(tab, AREA)
    select_all(tab)
    tab.type("typed")
    goes_to(tab, ADD)
    tab.type("by key\n")
    tab.press("ArrowUp")
    expect(tab.run("document.activeElement.value"), "by key", "the row above")
    tab.press("End")
    tab.type("s")
    tab.press("ArrowUp")
    tab.press("ArrowDown")
    tab.press("Tab", SHIFT)
    expect_that(tab.run("document.activeElement.tagName === 'BUTTON'"), "Tab goes back to the button before")
    goes_to(tab, TOGGLE)
    was = tab.run(f"{TOGGLE}.checked")
    tab.press(" ")
    goes_to(tab, f"{RANGES}[0]")
    tab.press("Home")
    shown = stage.agreed()
    expect([shown[0], shown[1][-1], shown[2], shown[3]], ["typed", "by keys", not was, 0], "what keys made")


PARTS = {
    "a page opens with captions and the number of links": opens,
    "two type at two ends of a text": at_two_ends,
    "two type at one place": at_one_place,
    "a cursor and a selection stay at their words": the_cursor_stays,
    "words are cut and pasted": cut_and_paste,
    "a long paste while another types": a_long_paste,
    "one deletes all while another types": all_is_deleted,
    "emoji and joined characters": emoji,
    "an input method composes while another types": composed,
    "items are added, changed and deleted": lists,
    "a label that is none is refused": labels,
    "toggles and sliders": toggles_and_sliders,
    "edits at random on all widgets": at_random,
    "everything by keyboard alone": by_keyboard,
}
