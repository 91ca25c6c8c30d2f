"""A link that is lost, a server that starts again, and a board that takes no more edits."""
from stage import ADD, AREA, COUNTED, IS_OFFLINE, NOTICES, OFFERED, STATE, WORDS, button, comes, copied, expect, expect_that, focus

# All that the notices at a widget say and offer, and the widgets of a text and of a list.
SAID = "[...%s.closest('.widget').querySelectorAll('.notice')].map((it) => [it.textContent, ...[...it.querySelectorAll('textarea')].map((area) => area.value)].join('\\n')).join('\\n')"
OF_TEXT, OF_LIST = SAID % AREA, SAID % ADD
# How many people a board takes.
PEOPLE = 64


def cursor(tab):
    return tab.run(f"[document.activeElement === {AREA}, {AREA}.selectionStart, {AREA}.selectionEnd]")


def a_server_that_stops(stage):
    """Both join again, with the board that the server kept, and with their cursors."""
    focus(stage.a)
    stage.a.type(" there")
    stage.agrees_on("Hi there")
    focus(stage.a, 3, 8)
    stage.server.stop()
    for it in stage.tabs:
        it.until(IS_OFFLINE)
        expect(it.run(WORDS), "Offline", "what the page says")
        expect(it.run(f"{AREA}.readOnly"), not stage.lasts, "whether a text cannot be edited")
    stage.picture(stage.a, "lost")
    expect_that('text 1 "Hi there"' in stage.server.kept(), "the board is kept")
    stage.server.start()
    for it in stage.tabs:
        it.until(f"{STATE} === 'open'")
        expect(it.run(f"[{OFFERED}, {COUNTED}]"), [[], ""], "what is offered, and the notices in the head")
    expect(cursor(stage.a), [True, 3, 8], "focus and selection")
    stage.a.type("you")
    stage.agrees_on("Hi you")


def a_killed_server(stage):
    """What was typed before the kill and did not reach the server is offered. What was confirmed is on the board."""
    comes(lambda: 'text 1 "Hi you"' in stage.server.kept(), True, "whether the board is kept")
    stage.lag.held = {"up"}
    focus(stage.b)
    stage.b.type(" and more")
    stage.b.until(f"{WORDS} === 'Sending \u2026 9 edits wait'")
    stage.server.kill()
    stage.lag.cut()
    stage.b.until(IS_OFFLINE)
    expect(stage.b.run(f"{AREA}.value"), "Hi you and more", "what is still shown")
    stage.server.start()
    stage.b.until(f"{STATE} === 'open'")
    stage.agrees_on("Hi you")
    expect(stage.b.run(f"[{OFFERED}.length, {COUNTED}]"), [1, "1 notice"], "how many texts are offered, and the notices in the head")
    expect_that(" and more" in stage.b.run(OF_TEXT), "what was not taken is offered at the text")
    stage.picture(stage.b, "offered")
    stage.b.click(button("Copy", f"{NOTICES}[0]"))
    copied(stage.b, " and more")
    stage.b.click(button("Dismiss", f"{NOTICES}[0]"))
    expect(stage.b.run(f"[{NOTICES}.length, {COUNTED}]"), [0, ""], "the notices")


def a_lost_link(stage):
    """A link is cut after the server took an edit, and before it took the next. In protocol 3 the next is offered, and no other. In protocol 4 both are on the board."""
    stage.lag.held = {"down"}
    focus(stage.b)
    stage.b.type(" taken")
    stage.a.until(f"{AREA}.value === 'Hi you taken'")
    stage.lag.held = {"up", "down"}
    stage.b.run(f"{ADD}.focus()")
    stage.b.type("late\n")
    focus(stage.b, 0)
    stage.b.type("lost ")
    stage.b.press("ArrowRight")
    with stage.lag.tunnel():
        stage.b.until(IS_OFFLINE)
    stage.b.until(f"{STATE} === 'open'")
    if stage.lasts:
        stage.agrees_on("lost Hi you taken", ["buy bread", "call Ann", "late"])
        expect([stage.b.run(COUNTED), cursor(stage.b)], ["", [True, 6, 6]], "the notices in the head, focus and cursor")
        return
    stage.agrees_on("Hi you taken", ["buy bread", "call Ann"])
    of_text, of_list = stage.b.run(OF_TEXT), stage.b.run(OF_LIST)
    expect_that("lost " in of_text and "taken" not in of_text, f"what was not taken is offered at the text, and no more: {of_text!r}")
    expect_that("late" in of_list, f"what was not taken is offered at the list: {of_list!r}")
    expect([stage.b.run(COUNTED), cursor(stage.b)], ["2 notices", [True, 1, 1]], "the notices in the head, focus and cursor")


def a_full_order(stage):
    """The order takes five edits, all from one tab. What the other typed meanwhile is offered there, and both go on as readers."""
    focus(stage.a)
    focus(stage.b)
    stage.lag.held = {"up"}
    stage.b.type(" xyz")
    stage.a.type(" 1234")
    stage.a.until(f"{STATE} === 'open'")
    # A hears of an edit of B's that is refused, and then takes none.
    stage.a.type("56")
    expect(stage.a.run(f"[{STATE}, {OFFERED}.length]"), ["full", 1], "the stage after an edit beyond the limit, and how many texts are offered")
    expect_that("5" in "".join(stage.a.run(OFFERED)), "an edit beyond the limit is offered")
    stage.lag.held = set()
    stage.b.until(f"{STATE} === 'full'")
    expect_that(" xyz" in stage.b.run(OF_TEXT), "what was refused is offered at the text")
    stage.agrees_on("Hi 1234")
    for it in stage.tabs:
        expect_that(it.run(f"{AREA}.readOnly"), "a text cannot be edited")
        expect_that("no more edits" in it.run("document.body.innerText"), "the page says why")


def a_full_text(stage):
    """A text takes 65,536 characters. What has no room is offered."""
    focus(stage.a)
    stage.a.call("Input.insertText", text="0123456789")
    expect(stage.agreed()[0][-8:], "aa012345", "the end of the text")
    offered = stage.a.run(OFFERED)
    expect([len(offered), "6789" in "".join(offered), "5" in "".join(offered)], [1, True, False], "how many texts are offered, and whether what has no room is, and nothing else")


def a_board_with_64_people(stage):
    """One more waits until one leaves, and comes in by itself."""
    stage.b.open("about:blank")
    stage.a.until("document.getElementById('who').textContent === '1 connected'")
    stage.a.run(f"""(async () => {{
      const others = Array.from({{ length: {PEOPLE - 1} }}, () => new WebSocket(new URL('ws', location.href).href.replace('http', 'ws')));
      window.others = others;
      await Promise.all(others.map((it) => new Promise((done) => {{ it.onopen = () => it.send('hello 3\\n'); it.onmessage = done; }})));
    }})()""")
    stage.b.open(stage.server.url)
    stage.b.until(f"{STATE} === 'waiting'")
    expect_that("64" in stage.b.run(WORDS), "the page says how many are there")
    expect(stage.b.run(f"{button('Try now')} !== undefined"), True, "whether it can be tried now")
    stage.picture(stage.b, "waiting")
    stage.a.run("others.pop().close()")
    stage.b.until(f"{STATE} === 'open'", 10 + stage.slack)


PARTS = {
    "a server that stops, and starts again with the board kept": a_server_that_stops,
    "a killed server: what it had not taken is offered": a_killed_server,
    "a lost link: what the server had not taken is offered": a_lost_link,
}
FULL_HOUSE_PARTS = {"a board with 64 people": a_board_with_64_people}
FULL_PARTS = {"a full order: what was refused is offered": a_full_order}
FULL_LIMIT = 5
LONG_PARTS = {"a full text: what has no room is offered": a_full_text}
LONG_BOARD = f'window 1\ntext 1 "{"a" * 65_530}"\n'
