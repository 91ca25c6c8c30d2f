"""Items of a list are drafts while they are typed: two at one item, items that others delete meanwhile, what can't be in an item, and what a click hits."""
import time

from browser import SHIFT
from stage import (ADD, ADD_HINT, COUNTED, FIELDS, GHOST, LABELS, NOTICES, OFFERED, PLUS, ROWS, STATE, WORDS, are_kept, button, clock_stands, comes, expect, expect_that, hint, leave, passes, paste, put, retype, row, select_all, together)

ITEMS = ["bread", "milk", "eggs", "tea", "salt", "rice", "beans", "honey"]
BOARD = "window 1\ntext 1 \"Hi\"\nlist 2 " + " ".join(f'"{it}"' for it in ITEMS) + "\ntext 3 \"\"\n"
# How many seconds what a tab sends takes at most to be seen by the other, if the machine is quick. It is waited for so long that nothing comes.
SEEN = 0.5
# A press within this time after others moved the rows is ignored. It is a little less than the page has.
AT_ONCE = 0.45
# After this time it is taken again.
LATER = 0.8
GAPS = (0, 0.02, 0.15, 0.3)
# The page takes what comes, and shows it a minute later, as if it had much to draw.
DRAWS_LATE = "performance.now = () => -60000, null"
FOCUS = "document.activeElement"
HAS_FIELD_OR_BUTTON = f"['INPUT', 'TEXTAREA', 'BUTTON'].includes({FOCUS}.tagName)"


def field(label):
    return f"{row(label)}.querySelector('input')"


def cross(label):
    return f"{row(label)}.querySelector('button[aria-label^=Delete]')"


def list_is(stage, labels):
    expect(stage.agreed()[1], labels, "the list")


def others_see(tab, labels, what="the list that others see"):
    """Tests that a tab shows these labels, and still does so after a while."""
    time.sleep(SEEN)
    expect(tab.run(LABELS), labels, what)


def changed(old, new):
    """The items with one of them changed."""
    return [new if it == old else it for it in ITEMS]


# ---- Two at one item ----


def two_at_one_item(stage):
    """Both type at its two ends, and leave at the same time or one after the other. Both changes are there each time."""
    labels = list(ITEMS)
    rounds = [(first, gap) for gap in GAPS for first in (0, 1)]
    for at, (first, gap) in enumerate(rounds):
        types_at_both_ends(stage, labels[at])
        expect([it.run(STATE) for it in stage.tabs], ["draft", "draft"], "the stages of two with drafts")
        leaves(stage.tabs[first], stage.tabs[1 - first], gap)
        labels[at] = f"two loaves of {labels[at]}, the brown one"
        expect(stage.agreed()[1], labels, f"the list after both left, {gap} s apart, {'ba'[first == 0]} first")
        for it in stage.tabs:
            expect(it.run(f"[{COUNTED}, document.querySelectorAll('li .hint:not([hidden])').length]"), ["", 0], "the notices and the hints")


def types_at_both_ends(stage, label):
    for it in stage.tabs:
        it.click(field(label))
    stage.a.press("Home")
    stage.b.press("End")
    together(lambda: stage.a.type("two loaves of ", 0.01), lambda: stage.b.type(", the brown one", 0.01))


def leaves(first, second, gap):
    """One leaves by Tab, and some time later the other one by Enter."""

    def later():
        time.sleep(gap)
        second.press("Enter")

    together(lambda: first.press("Tab"), later)


def overlapping(stage):
    """Both replace the same word, so the one who sends later is asked."""
    for choice, taken in (("Keep mine", "rye"), ("Take theirs", "oat")):
        was = stage.a.run(f"{FIELDS}[0].value")
        for tab, new in zip(stage.tabs, (f"oat {choice[0]}", f"rye {choice[0]}"), strict=True):
            retype(tab, field(was), new)
        leave(stage.a)
        stage.b.until(f"{hint(f'rye {choice[0]}')}.includes('oat {choice[0]}')")
        leave(stage.b)
        stage.b.until(f"{button(choice, f'{ROWS}[0]')} !== undefined")
        expect_that(f"oat {choice[0]}" in stage.b.run(f"{ROWS}[0].querySelector('.hint:not([hidden])')?.textContent ?? ''"), "the row says what the other made of the item")
        others_see(stage.a, [f"oat {choice[0]}", *ITEMS[1:]], "the list of the one who sent first")
        expect(stage.a.run(f"{button(choice)} === undefined"), True, "whether the one who sent first is asked nothing")
        expect(stage.b.run(STATE), "draft", "the stage of the one who is asked")
        stage.b.click(button(choice, f"{ROWS}[0]"))
        list_is(stage, [f"{taken} {choice[0]}", *ITEMS[1:]])
        expect(stage.b.run(f"[{button('Keep mine')}, {button('Take theirs')}].every((it) => it === undefined)"), True, "whether nothing is asked afterwards")


def overlapping_at_once(stage):
    """Both replace the same word and leave at the same time. One of them is asked, and can take what the other wrote."""
    for tab, new in zip(stage.tabs, ("oat bread", "rye bread"), strict=True):
        retype(tab, field("bread"), new)
    together(lambda: leave(stage.a), lambda: leave(stage.b))
    are_asked = lambda: [it.run(f"{button('Take theirs')} !== undefined") for it in stage.tabs]
    comes(lambda: any(are_asked()), True, "whether one is asked")
    asked = are_asked()
    expect(asked.count(True), 1, "how many are asked")
    stage.tabs[asked.index(True)].click(button("Take theirs"))
    list_is(stage, [["rye bread", "oat bread"][asked.index(True)], *ITEMS[1:]])


def not_drawn_yet(stage):
    """The page has a label of others that it does not show yet. What one has typed goes together with it, and so does what one types then."""
    label = "milk"
    stage.a.run(DRAWS_LATE)
    for begins_late in (False, True):
        if not begins_late:
            types_in_front(stage.a, label)
        retype(stage.b, field(label), f"{label} more")
        stage.b.press("Enter")
        stage.b.until(f"{STATE} === 'open'")
        expect_that(f"{label} more" not in stage.a.run(LABELS), "the page does not show the label yet")
        if begins_late:
            types_in_front(stage.a, label)
        leave(stage.a)
        label = f"one {label} more"
        list_is(stage, changed("milk", label))


def types_in_front(tab, label):
    tab.run(f"{field(label)}.focus()")
    tab.press("Home")
    tab.type("one ")


def drafts_of_apart_items(stage):
    """Nothing of a draft is seen by others before it is left, and what they do to other items goes on."""
    stage.a.click(field("bread"))
    stage.a.press("End")
    stage.a.type(" and jam")
    retype(stage.b, field("milk"), "oat milk")
    stage.b.press("Enter")
    stage.a.until(f"{LABELS}.includes('oat milk')")
    expect(stage.b.run(LABELS)[:2], ["bread", "oat milk"], "what others see of the drafts")
    expect(stage.a.run(f"[{FOCUS}.value, {FOCUS}.selectionStart]"), ["bread and jam", 13], "the draft and its cursor")
    expect(stage.a.run(f"[{STATE}, {WORDS}]"), ["draft", "1 draft"], "the stage and its words")
    stage.a.press("Enter")
    list_is(stage, ["bread and jam", "oat milk", *ITEMS[2:]])


# ---- Items that others delete ----


def deleted_under_the_cursor(stage):
    """B deletes the item in which A types. A goes on typing, and no other item changes."""
    for choice in ("Add it again", "Drop"):
        label = stage.a.run(f"{LABELS}[1]")
        stage.a.click(field(label))
        stage.a.press("End")
        stage.a.type(" for")
        together(lambda: stage.a.type(" two people", 0.06), lambda it=label: stage.b.click(cross(it)))
        rest = ["bread", *ITEMS[2:]]
        stage.b.until(f"{LABELS}.length === {len(rest)}")
        stage.a.until(f"{GHOST} !== null")
        stage.a.type("!")
        written = f"{label} for two people!"
        others_see(stage.b, rest)
        expect(stage.a.run(LABELS), rest, "the other items")
        expect(stage.a.run(f"[{FOCUS}.value, {FOCUS}.closest('li') === {GHOST}, {STATE}]"), [written, True, "draft"], "the field with the cursor, whether it is in the row of the deleted item, and the stage")
        expect_that(stage.a.run(f"[...{GHOST}.parentElement.children].indexOf({GHOST}) === 1"), "the row of the deleted item is at its place")
        stage.a.click(button(choice, GHOST))
        list_is(stage, ["bread", written, *ITEMS[2:]] if choice == "Add it again" else rest)
        expect(stage.a.run(f"{GHOST}"), None, "the row of the deleted item")


def deleted_with_a_cursor_alone(stage):
    """A cursor without a draft keeps the row of an item that others delete, until it leaves."""
    stage.a.click(field("milk"))
    stage.b.click(cross("milk"))
    stage.b.until(f"!{LABELS}.includes('milk')")
    stage.a.until(f"{GHOST} !== null")
    expect(stage.a.run(f"{FOCUS}.closest('li') === {GHOST}"), True, "whether the cursor is where it was")
    expect(stage.a.run(STATE), "open", "the stage without a draft")
    leave(stage.a)
    stage.a.until(f"{GHOST} === null")
    list_is(stage, ["bread", *ITEMS[2:]])


def deleted_with_a_focused_button(stage):
    """A button that had the focus goes with its row, and the focus goes to no other button."""
    stage.a.run(f"{cross('milk')}.focus()")
    stage.b.click(cross("milk"))
    stage.a.until(f"!{LABELS}.includes('milk')")
    expect(stage.a.run(HAS_FIELD_OR_BUTTON), False, "whether the focus is in a field or on a button")
    for it in (" ", "Enter"):
        stage.a.press(it)
    others_see(stage.b, ["bread", *ITEMS[2:]])


# ---- What can't be in an item ----


# What is typed, what the field then shows, and what the hint names.
UNFIT = [
    ("K\u00e4se", "K\u00e4se", "\u00e4"),
    ("Ann\u2019s \u2013 2 \u20ac", "Ann's - 2 \u20ac", "\u20ac"),
    ("\u043a\u043e\u0444\u0435", "\u043a\u043e\u0444\u0435", "\u043a"),
    ("cake \U0001f600", "cake \U0001f600", "\U0001f600"),
    ("x" * 49, "x" * 49, "49 of 48 characters"),
]
TYPOGRAPHIC = ("\u201cAnn\u2019s\u201d\u00a0\u2013 a\u2026", "\"Ann's\" - a...")


def every_language(stage):
    """Nothing of a draft that can't be an item reaches the others. None of it is lost."""
    for typed, shown, said in UNFIT:
        tab = stage.a
        tab.click(field("milk"))
        select_all(tab)
        put(tab, typed)
        expect(tab.run(f"[{FOCUS}.value, {FOCUS}.ariaInvalid]"), [shown, "true"], "the draft, and whether it is marked")
        expect_that(said in tab.run(hint(shown)), f"{said!r} is named in {tab.run(hint(shown))!r}")
        leave(tab)
        others_see(stage.b, ITEMS)
        expect(tab.run(f"[{LABELS}[1], {FIELDS}[1].ariaInvalid, {STATE}, {COUNTED}]"), [shown, "true", "draft", "1 notice"], "the draft that was left, whether it is marked, the stage, and the notices")
        retype(tab, f"{FIELDS}[1]", "milk")
        tab.press("Enter")
        list_is(stage, ITEMS)
        expect(tab.run(f"[{COUNTED}, {FIELDS}[1].ariaInvalid === 'true', {hint('milk')}]"), ["", False, ""], "the notices, the mark and the hint afterwards")


def every_language_by_keys(stage):
    """Keys, of which each is a state on its way: no stump of a word is sent."""
    stage.a.click(field("milk"))
    select_all(stage.a)
    stage.a.type("K\u00e4se", 0.05)
    others_see(stage.b, ITEMS)
    stage.a.press("Escape")
    expect(stage.a.run(f"[{LABELS}, {STATE}]"), [ITEMS, "open"], "the list after Escape, and the stage")


def every_language_added(stage):
    """The same in the field that adds."""
    for typed, shown, said in UNFIT:
        tab = stage.a
        tab.click(ADD)
        put(tab, typed)
        expect(tab.run(f"[{ADD}.value, {ADD}.ariaInvalid]"), [shown, "true"], "the draft, and whether it is marked")
        expect_that(said in tab.run(ADD_HINT), f"{said!r} is named in {tab.run(ADD_HINT)!r}")
        tab.press("Enter")
        leave(tab)
        others_see(stage.b, ITEMS)
        expect(tab.run(f"[{ADD}.value, {STATE}, {COUNTED}]"), [shown, "draft", "1 notice"], "the draft that was left, the stage, and the notices")
        tab.click(ADD)
        select_all(tab)
        tab.press("Backspace")
        leave(tab)
        list_is(stage, ITEMS)
        expect(tab.run(f"[{COUNTED}, {ADD_HINT}]"), ["", ""], "the notices and the hint afterwards")


def typographic(stage):
    """Quotes, dashes, the ellipsis and the hard space become those of a keyboard as they are typed."""
    typed, shown = TYPOGRAPHIC
    for it in (field("milk"), ADD):
        stage.a.click(it)
        select_all(stage.a)
        put(stage.a, typed)
        expect(stage.a.run(f"[{FOCUS}.value, {FOCUS}.ariaInvalid === 'true']"), [shown, False], "the draft, and whether it is marked")
        stage.a.press("Enter")
    list_is(stage, [*changed("milk", shown), shown])


def lines_that_are_pasted(stage):
    """Several lines become an item each."""
    paste(stage.a, "one\ntwo\r\nthree\n", ADD)
    leave(stage.a)
    list_is(stage, [*ITEMS, "one", "two", "three"])
    expect(stage.a.run(f"{ADD}.value"), "", "the field that adds")
    paste(stage.a, "full milk\noat milk\nbutter", field("milk"))
    leave(stage.a)
    list_is(stage, ["bread", "full milk", "oat milk", "butter", *ITEMS[2:], "one", "two", "three"])


# ---- What sends a draft, and what takes it back ----


def sent_by_leaving(stage):
    """Enter, leaving the field and hiding the tab send a draft, without spaces at its ends."""
    steps = [lambda: stage.a.press("Enter"), lambda: stage.a.press("Tab"), lambda: stage.a.click("document.querySelector('textarea')"), lambda: stage.a.run(HIDDEN)]
    labels = list(ITEMS)
    for at, step in enumerate(steps):
        retype(stage.a, field(labels[at]), f"  {labels[at]} {at} ")
        others_see(stage.b, labels)
        step()
        labels[at] = f"{labels[at]} {at}"
        stage.b.until(f"{LABELS}.includes('{labels[at]}')")
        list_is(stage, labels)
        stage.a.run(SHOWN_AGAIN)


def hides(is_hidden, state):
    return f"""(() => {{ Object.defineProperty(document, 'hidden', {{ value: {is_hidden}, configurable: true }});
        Object.defineProperty(document, 'visibilityState', {{ value: '{state}', configurable: true }}); document.dispatchEvent(new Event('visibilitychange', {{ bubbles: true }})); }})()"""


HIDDEN, SHOWN_AGAIN = hides("true", "hidden"), hides("false", "visible")


def taken_back(stage):
    retype(stage.a, field("milk"), "cream")
    expect(stage.a.run(STATE), "draft", "the stage")
    stage.a.press("Escape")
    expect(stage.a.run(f"[{LABELS}, {STATE}]"), [ITEMS, "open"], "the list after Escape, and the stage")
    leave(stage.a)
    others_see(stage.b, ITEMS)
    # What others have made of it meanwhile is what is shown after Escape.
    retype(stage.a, field("milk"), "cream")
    retype(stage.b, field("milk"), "oat milk")
    stage.b.press("Enter")
    stage.a.until(f"{hint('cream')}.includes('oat milk')")
    stage.a.press("Escape")
    list_is(stage, changed("milk", "oat milk"))


def emptied(stage):
    """An item that is emptied is deleted, and can be had again at its place."""
    stage.a.click(field("milk"))
    select_all(stage.a)
    stage.a.type("   ")
    others_see(stage.b, ITEMS)
    stage.a.press("Enter")
    list_is(stage, [it for it in ITEMS if it != "milk"])
    expect(stage.a.run(COUNTED), "1 notice", "the notices in the head")
    notice = "document.querySelector('.widget .notice')"
    stage.a.click(button("Add it again", notice))
    list_is(stage, ITEMS)
    expect(stage.a.run(f"[{notice}, {COUNTED}]"), [None, ""], "the notices afterwards")


def added_by_leaving(stage):
    """A good label is added by leaving, by Enter and by +."""
    for at, step in enumerate([lambda: leave(stage.a), lambda: stage.a.press("Enter"), lambda: stage.a.click(PLUS), lambda: (stage.a.press("Tab"), stage.a.press("Tab"))]):
        stage.a.click(ADD)
        stage.a.type(f" more {at} ")
        others_see(stage.b, [*ITEMS, *(f"more {it}" for it in range(at))])
        step()
        list_is(stage, [*ITEMS, *(f"more {it}" for it in range(at + 1))])
        expect(stage.a.run(f"{ADD}.value"), "", "the field that adds")


def nothing_to_add(stage):
    """Enter and + with an empty field that adds do nothing."""
    stage.a.click(ADD)
    stage.a.press("Enter")
    stage.a.click(PLUS)
    stage.a.click(ADD)
    stage.a.type("  ")
    stage.a.press("Enter")
    others_see(stage.b, ITEMS)
    expect(stage.a.run(f"[{ADD_HINT}, {ADD}.ariaInvalid === 'true', {COUNTED}]"), ["", False, ""], "the hint, the mark and the notices")


# ---- What a click hits ----


def twice_on_plus(stage):
    """A double click on + adds one item, and deletes none."""
    for it in stage.tabs:
        it.click(ADD)
        it.type("pepper")
        it.click(PLUS, 2)
        stage.agreed()
        time.sleep(LATER)
    list_is(stage, [*ITEMS, "pepper", "pepper"])


def twice_on_a_cross(stage):
    """A double click on × deletes one item."""
    stage.a.click(cross("milk"), 2)
    stage.agreed()
    time.sleep(LATER)
    stage.b.click(cross("tea"), 2)
    list_is(stage, ["bread", "eggs", *ITEMS[4:]])
    for it in stage.tabs:
        expect(it.run(HAS_FIELD_OR_BUTTON), False, "whether the focus is in a field or on a button")


def rows_that_moved(stage):
    """What others move under the pointer is not hit. A while later it is."""
    place = stage.a.middle(cross("milk"))
    with clock_stands(stage.a):
        stage.b.click(cross("bread"))
        stage.a.until(f"!{LABELS}.includes('bread')")
        passes(stage.a, AT_ONCE)
        stage.a.click_at(place)
        list_is(stage, ITEMS[1:])
        passes(stage.a, LATER - AT_ONCE)
        stage.a.click_at(place)
        list_is(stage, ["milk", *ITEMS[3:]])


def rows_that_moved_below_plus(stage):
    """B adds an item just before A presses +. The pointer is then over the × of that item, which stays. A's label is not lost."""
    stage.a.click(ADD)
    stage.a.type("pepper")
    place = stage.a.middle(PLUS)
    with clock_stands(stage.a):
        stage.b.click(ADD)
        stage.b.type("thyme")
        stage.b.press("Enter")
        stage.a.until(f"{LABELS}.includes('thyme')")
        stage.a.click_at(place)
    leave(stage.a)
    expect(sorted(stage.agreed()[1]), sorted([*ITEMS, "thyme", "pepper"]), "the items")


def keys_after_a_deletion(stage):
    """After an item is deleted by a key, neither Space nor Enter deletes another."""
    stage.a.click(field("milk"))
    stage.a.press("Tab")
    expect(stage.a.run(f"{FOCUS} === {cross('milk')}"), True, "whether Tab goes from a field to its button")
    stage.a.press(" ")
    stage.a.until(f"!{LABELS}.includes('milk')")
    expect(stage.a.run(HAS_FIELD_OR_BUTTON), False, "whether the focus is in a field or on a button")
    expect(stage.a.run(f"[{FOCUS}.tagName, {FOCUS}.tabIndex]"), ["LI", -1], "what has the focus")
    for it in (" ", "Enter", " ", "Enter"):
        stage.a.press(it)
    list_is(stage, ["bread", *ITEMS[2:]])
    # From there Tab goes on in the list.
    stage.a.press("Tab")
    expect_that(stage.a.run(f"{FOCUS}.closest('ol') !== null"), "Tab goes to a control of the list")
    stage.a.press("Tab", SHIFT)


def left_with_a_draft(stage):
    """The browser keeps a draft, so a page with one is left without a question. What was typed is offered on the next visit."""
    tab = stage.a
    for element, typed in ((field("milk"), "cream"), (ADD, "K\u00e4se")):
        tab.click(element)
        select_all(tab)
        put(tab, typed)
        are_kept(tab, 1)
        tab.reload()
        tab.until(f"{OFFERED}.length > 0")
        expect_that(any(typed in it for it in tab.run(OFFERED)), f"what was typed is offered: {tab.run(OFFERED)}")
        tab.click(button("Dismiss", f"{NOTICES}[0]"))
        expect(tab.run(f"[{NOTICES}.length, {LABELS}]"), [0, ITEMS], "the notices, and the list")
    expect(tab.asked(), 0, "how many times the page asked")


PARTS = {
    "two at one item": two_at_one_item,
    "two at one item, whose drafts overlap": overlapping,
    "two at one item, whose drafts overlap and are sent at once": overlapping_at_once,
    "a label that is not drawn yet": not_drawn_yet,
    "drafts of two items": drafts_of_apart_items,
    "deleted under the cursor": deleted_under_the_cursor,
    "deleted under the cursor without a draft": deleted_with_a_cursor_alone,
    "deleted under a button with the focus": deleted_with_a_focused_button,
    "every language in an item": every_language,
    "every language by keys": every_language_by_keys,
    "every language in the field that adds": every_language_added,
    "typographic signs become those of a keyboard": typographic,
    "several lines become an item each": lines_that_are_pasted,
    "a draft is sent by leaving it": sent_by_leaving,
    "a draft is taken back": taken_back,
    "an emptied item is deleted": emptied,
    "a label is added by leaving": added_by_leaving,
    "nothing to add": nothing_to_add,
    "twice on +": twice_on_plus,
    "twice on ×": twice_on_a_cross,
    "rows that moved under the pointer": rows_that_moved,
    "rows that moved, and a press on +": rows_that_moved_below_plus,
    "keys after a deletion": keys_after_a_deletion,
    "a page is left with a draft": left_with_a_draft,
}
