"""Items are moved by keys and by a handle. A move that meets what another does with the item at the same time leaves it once."""
import time

from browser import SHIFT
from drafts import cross, field
from stage import ADD, LABELS, STATE, button, comes, expect, expect_that, leave, row, select_all
from undoing import NEWS, by_keys, each_way, relabels, says, unknown_to_b

ALT = 1
ITEMS = ["bread", "milk", "eggs", "tea", "salt"]
BOARD = "window 1\ntext 1 \"abcdef\"\nlist 2 " + " ".join(f'"{it}"' for it in ITEMS) + "\ntoggle 3 off\nslider 4 0 10 5\n"
FOCUS = "document.activeElement"
# The labels of the rows that show that an item would land below them, or "front".
LANDING = "[...document.querySelectorAll('.lands')].map((it) => it.querySelector(':scope > .row input')?.value ?? 'front')"
# For how many seconds a press is not taken after others moved the rows, and a little more.
LATER = 0.8


def handle(label):
    return f"{row(label)}.querySelector('button[aria-label^=Move]')"


def list_is(stage, *labels):
    expect(stage.agreed()[1], list(labels), "the list")


def types_in(tab, label, text):
    tab.run(f"{field(label)}.focus()")
    select_all(tab)
    tab.type(text)


def alt(tab, key):
    tab.press(key, ALT)


def moves(tab, label, key, times=1, stays=False):
    """Moves an item by keys, with the cursor in its field. A cursor that stays there would keep the field as it is."""
    tab.run(f"{field(label)}.focus()")
    for _ in range(times):
        alt(tab, key)
    if not stays:
        leave(tab)


def by_the_keys(stage):
    """Alt-Up and Alt-Down move the item with the cursor. The cursor stays in it, and a reader of the screen hears where it is."""
    tab = stage.a
    tab.run(f"{field('milk')}.focus(), {FOCUS}.setSelectionRange(1, 3)")
    alt(tab, "ArrowDown")
    tab.until(f"{NEWS} === 'milk, 3 of 5'")
    list_is(stage, "bread", "eggs", "milk", "tea", "salt")
    expect(tab.run(f"[{FOCUS}.value, {FOCUS}.selectionStart, {FOCUS}.selectionEnd]"), ["milk", 1, 3], "the field with the cursor, and what is selected in it")
    for _ in range(3):
        alt(tab, "ArrowUp")
    tab.until(f"{NEWS} === 'milk, 1 of 5'")
    list_is(stage, "milk", "bread", "eggs", "tea", "salt")
    expect(tab.run(f"[{FOCUS}.value, {FOCUS}.selectionStart, {FOCUS}.selectionEnd]"), ["milk", 1, 3], "the field with the cursor, and what is selected in it")
    # With Tab to the handle, the arrows do it alone.
    tab.press("Tab", SHIFT)
    expect(tab.run(f"{FOCUS}.ariaLabel"), "Move milk", "what has the focus")
    tab.press("ArrowDown")
    list_is(stage, "bread", "milk", "eggs", "tea", "salt")
    expect(tab.run(f"{FOCUS}.ariaLabel"), "Move milk", "what has the focus")
    # An arrow alone goes from row to row, as it did.
    tab.press("Tab")
    tab.press("ArrowDown")
    expect(tab.run(f"{FOCUS}.value"), "eggs", "the field with the cursor")
    for it in ("ArrowUp", "ArrowDown"):
        tab.run(f"{ADD}.focus()")
        alt(tab, it)
    list_is(stage, "bread", "milk", "eggs", "tea", "salt")


def with_a_draft(stage):
    """A moved row keeps its draft, and what is sent then is the label of the moved item."""
    types_in(stage.a, "milk", "oat milk")
    alt(stage.a, "ArrowDown")
    list_is_of(stage.b, ["bread", "eggs", "milk", "tea", "salt"])
    expect(stage.a.run(f"{FOCUS}.value"), "oat milk", "the field with the cursor")
    comes(lambda: stage.a.run(STATE), "draft", "the stage")
    stage.a.press("Enter")
    list_is(stage, "bread", "eggs", "oat milk", "tea", "salt")


def list_is_of(tab, labels):
    """Waits until a tab shows these labels."""
    comes(lambda: tab.run(LABELS), labels, "the list in one tab")


def a_draft_of_others(stage):
    """An item that others move takes a cursor and a draft with it."""
    types_in(stage.b, "milk", "oat milk")
    stage.b.run(f"{FOCUS}.setSelectionRange(2, 5)")
    moves(stage.a, "milk", "ArrowDown", 2)
    list_is_of(stage.b, ["bread", "eggs", "tea", "oat milk", "salt"])
    expect(stage.b.run(f"[{FOCUS}.value, {FOCUS}.selectionStart, {FOCUS}.selectionEnd, {STATE}]"), ["oat milk", 2, 5, "draft"], "the field with the cursor, what is selected in it, and the stage")
    leave(stage.b)
    list_is(stage, "bread", "eggs", "tea", "oat milk", "salt")
    expect(stage.b.run("document.querySelector('li.ghost')"), None, "a row of a deleted item")


def mouse(tab, kind, place):
    tab.call("Input.dispatchMouseEvent", type=kind, x=place[0], y=place[1], button="left", buttons=1, clickCount=1)


def finger(tab, kind, place):
    tab.call("Input.dispatchTouchEvent", type=kind, touchPoints=[] if kind == "touchEnd" else [{"x": place[0], "y": place[1]}])


MOUSE, FINGER = (mouse, "mousePressed", "mouseMoved", "mouseReleased"), (finger, "touchStart", "touchMove", "touchEnd")


def edge(tab, label, share):
    """A place over a row, at a share of its height."""
    return tab.run(f"(() => {{ const b = {row(label)}.getBoundingClientRect(); return [b.x + 20, b.y + {share} * b.height]; }})()")


def drags(tab, label, target, share, by=MOUSE, meanwhile=lambda: None):
    """Drags the handle of an item to the row of another, at a share of its height, and drops it there."""
    send, press, move, release = by
    start, place = tab.middle(handle(label)), edge(tab, target, share)
    send(tab, press, start)
    for share in (0.3, 0.7, 1):
        send(tab, move, [a + share * (b - a) for a, b in zip(start, place, strict=True)])
        time.sleep(0.05)
    meanwhile()
    send(tab, release, place)


def by_a_pointer(stage):
    """A handle that is dragged shows where the item would land. It lands there."""
    tab = stage.a
    lines = []
    for by in (MOUSE, FINGER):
        if by is FINGER:
            tab.call("Emulation.setTouchEmulationEnabled", enabled=True)
        look = lambda: lines.append(tab.run(LANDING))  # noqa: E731
        drags(tab, "milk", "tea", 0.8, by, look)
        list_is(stage, "bread", "eggs", "tea", "milk", "salt")
        drags(tab, "milk", "bread", 0.2, by, look)
        list_is(stage, "milk", "bread", "eggs", "tea", "salt")
        drags(tab, "milk", "bread", 0.8, by, look)
        list_is(stage, *ITEMS)
        expect(tab.run("document.querySelectorAll('.lands, .dragged').length"), 0, "what still shows a drag")
    expect(lines, [["tea"], ["front"], ["bread"]] * 2, "where the lines were")
    tab.call("Emulation.setTouchEmulationEnabled", enabled=False)
    # A press alone, a drop at its place, and Escape move nothing.
    tab.click(handle("milk"))
    drags(tab, "milk", "milk", 0.8)
    drags(tab, "milk", "salt", 0.8, meanwhile=lambda: tab.press("Escape"))
    list_is(stage, *ITEMS)
    expect(stage.a.run("document.getElementById('undo').ariaDisabled === 'false'"), True, "whether the moves can be undone")
    for _ in range(6):
        by_keys(tab)
    list_is(stage, *ITEMS)
    expect(stage.a.run("document.getElementById('undo').ariaDisabled"), "true", "whether six moves were all that there was")


def dropped_by_name(stage):
    """What others change while a handle is dragged moves the place, and not the target."""

    def changes():
        stage.b.click(cross("bread"))
        stage.b.click(ADD)
        stage.b.type("pepper\n")
        list_is_of(stage.a, ["milk", "eggs", "tea", "salt", "pepper"])

    drags(stage.a, "milk", "tea", 0.8, meanwhile=changes)
    list_is(stage, "eggs", "tea", "milk", "salt", "pepper")
    time.sleep(LATER)
    # The item that it was to come below is gone: it comes below the one before.
    drags(stage.a, "eggs", "salt", 0.8, meanwhile=lambda: (stage.b.run(f"{cross('salt')}.click()"), list_is_of(stage.a, ["eggs", "tea", "milk", "pepper"])))
    list_is(stage, "tea", "milk", "eggs", "pepper")
    # The item itself is gone: nothing comes.
    time.sleep(LATER)
    drags(stage.a, "tea", "eggs", 0.8, meanwhile=lambda: (stage.b.run(f"{cross('tea')}.click()"), list_is_of(stage.a, ["milk", "eggs", "pepper"])))
    list_is(stage, "milk", "eggs", "pepper")


def in_both_orders(stage, one, other):
    """Two do something at the same time: `one` what the server takes first, then the other way round."""
    for first, then in ((one, other), (other, one)):
        unknown_to_b(stage, lambda it=first: it(stage.a), lambda it=then: it(stage.b))
        yield stage.agreed()[1]


def both_move(stage):
    """Both move one item: it is there once, where the first moved it, with the cursors of both."""
    found = list(in_both_orders(stage, lambda tab: moves(tab, "milk", "ArrowUp", stays=True), lambda tab: moves(tab, "milk", "ArrowDown", 3, stays=True)))
    expect(found, [["milk", "bread", "eggs", "tea", "salt"], ["bread", "eggs", "tea", "milk", "salt"]], "the lists")
    expect([it.run(f"{FOCUS}.value") for it in stage.tabs], ["milk", "milk"], "the fields with the cursors")
    for it in stage.tabs:
        expect(it.run("document.querySelectorAll('li').length"), 5, "how many rows there are")


def one_relabels(stage):
    """One moves and one relabels: it is there once, moved and with the label."""
    for labels in in_both_orders(stage, lambda tab: moves(tab, "milk", "ArrowDown"), lambda tab: (relabels(tab, "milk", "oat milk"), leave(tab))):
        expect(labels, ["bread", "eggs", "oat milk", "tea", "salt"], "the list")
        relabels(stage.a, "oat milk", "milk")
        leave(stage.a)
        moves(stage.a, "milk", "ArrowUp")
        list_is(stage, *ITEMS)
    for it in stage.tabs:
        leave(it)
        expect(it.run(f"[document.querySelectorAll('li').length, {button('Take theirs')} === undefined, {STATE}]"), [5, True, "open"], "how many rows there are, whether nobody is asked, and the stage")


def one_deletes(stage):
    """One moves and one deletes: it is deleted. Who deleted it first can bring it back."""
    def deletes(tab):
        tab.run(f"{cross('milk')}.click()")

    for labels in in_both_orders(stage, lambda tab: tab.run(ALT_DOWN), deletes):
        expect(labels, ["bread", "eggs", "tea", "salt"], "the list")
        for it in stage.tabs:
            leave(it)
            expect(it.run("document.querySelectorAll('li').length"), 4, "how many rows there are")
        for it in stage.tabs:
            by_keys(it)
        stage.agreed()
        expect_that(stage.a.run(LABELS).count("milk") <= 1, "the item is there once at most")
        if "milk" not in stage.a.run(LABELS):
            stage.a.run(f"{ADD}.focus()")
            stage.a.type("milk\n")
        for _ in range(4):
            if stage.agreed()[1] != ITEMS:
                moves(stage.a, "milk", "ArrowUp" if stage.a.run(LABELS).index("milk") > 1 else "ArrowDown")
        list_is(stage, *ITEMS)


# Moves an item by the handle with a key, which leaves no cursor in its field.
ALT_DOWN = f"{handle('milk')}.dispatchEvent(new KeyboardEvent('keydown', {{ key: 'ArrowDown', bubbles: true, cancelable: true }}))"


def undone(stage, undo):
    """A move is undone and made again. An item that others moved later, or at the same time and first, stays there. One that they relabelled comes back with the label."""
    tab = stage.a
    moves(tab, "milk", "ArrowDown", 2)
    list_is(stage, "bread", "eggs", "tea", "milk", "salt")
    undo(tab)
    says(tab, "Undone: 1 move in Who brings what")
    list_is(stage, "bread", "eggs", "milk", "tea", "salt")
    undo(tab, "Redo")
    list_is(stage, "bread", "eggs", "tea", "milk", "salt")
    relabels(stage.b, "milk", "oat milk")
    leave(stage.b)
    list_is(stage, "bread", "eggs", "tea", "oat milk", "salt")
    undo(tab)
    undo(tab)
    list_is(stage, "bread", "oat milk", "eggs", "tea", "salt")
    moves(tab, "eggs", "ArrowUp")
    list_is(stage, "bread", "eggs", "oat milk", "tea", "salt")
    moves(stage.b, "eggs", "ArrowUp")
    list_is(stage, "eggs", "bread", "oat milk", "tea", "salt")
    undo(tab)
    says(tab, "Others have changed this since")
    list_is(stage, "eggs", "bread", "oat milk", "tea", "salt")
    unknown_to_b(stage, lambda: moves(tab, "tea", "ArrowUp"), lambda: moves(stage.b, "tea", "ArrowDown"))
    list_is(stage, "eggs", "bread", "tea", "oat milk", "salt")
    undo(stage.b)
    says(stage.b, "Others have changed this since")
    list_is(stage, "eggs", "bread", "tea", "oat milk", "salt")


def while_others_edit(stage):
    """A move with a label of the user's own on its way, which meets one of others: both changes are in the label."""
    tab = stage.b

    def labels_and_moves():
        tab.run(f"{field('bread')}.focus()")
        tab.press("End")
        tab.type(" and jam")
        tab.press("Enter")
        moves(tab, "bread and jam", "ArrowDown")

    def labels():
        stage.a.run(f"{field('bread')}.focus()")
        stage.a.press("Home")
        stage.a.type("brown ")
        leave(stage.a)

    unknown_to_b(stage, labels, labels_and_moves)
    list_is(stage, "milk", "brown bread and jam", "eggs", "tea", "salt")


PARTS = {
    "moving by keys": by_the_keys,
    "moving with a draft": with_a_draft,
    "moving what others have a draft of": a_draft_of_others,
    "moving by a handle": by_a_pointer,
    "moving to what others move": dropped_by_name,
    "moving what the other moves": both_move,
    "moving what the other relabels": one_relabels,
    "moving what the other deletes": one_deletes,
    **each_way(undone),
    "moving with a label on its way": while_others_edit,
}
