"""Two people work on one text and one list for half a minute, one of them 160 ms away: every word that nobody deleted is there whole."""
import random
import re
import threading
import time

from stage import ADD, AREA, GHOST, LABELS, button, expect, expect_that, leave, row_with, together

SECONDS = 30
# The longest pause after a key, in seconds.
LONGEST = 0.3
# Above so many characters an item takes no more words, and how many it can have.
LONG, LONGEST_LABEL = 36, 48
TOKENS = [f"item{it}" for it in range(8)]
BOARD = 'window 1\ntext 1 "It begins so. "\nlist 2 ' + " ".join(f'"{it}"' for it in TOKENS) + "\n"
# Puts the cursor into the text in front of a word, or after its last space. The number of the place is chosen at random.
AT_A_WORD = """(() => {
  const it = %s;
  const places = [0, ...[...it.value.matchAll(/ /g)].map((found) => found.index + 1)];
  const at = places[Math.floor(%g * places.length)];
  it.focus();
  it.setSelectionRange(at, at);
})()"""
# Puts the cursor at an end of the field of a row, if that is there and takes more words. Says whether it did.
AT_AN_END = """(() => {
  const it = %s?.querySelector('input');
  if (!it || it.value.length > %d) return false;
  it.focus();
  const at = %s ? it.value.length : 0;
  it.setSelectionRange(at, at);
  return true;
})()"""


# The row in which one has to choose between two labels.
ASKED = "[...document.querySelectorAll('ol > li:not(.ghost)')].find((it) => [...it.querySelectorAll('button')].some((one) => one.textContent === 'Take theirs'))"


class Person:
    """One who types words of their own: into the text, at one end of items, and as new items. Now and then they delete an item."""

    # What more than one may change: the items that someone may have deleted, by their tokens.
    deleted, lock = set(), threading.Lock()

    def __init__(self, tab, name, seed):
        self.tab, self.name, self.random, self.count = tab, name, random.Random(seed), 0
        # The words by where they were typed: None is the text, else the token of an item.
        self.words = []
        # One types at the front of items, and the other at their end, so no two drafts overlap.
        self.is_at_end = name == "b"

    def works(self, end):
        steps, weights = (self.types_in_the_text, self.types_in_an_item, self.adds_an_item, self.deletes_an_item), (10, 12, 2, 1)
        while time.monotonic() < end:
            self.random.choices(steps, weights)[0]()

    def word(self):
        self.count += 1
        return f"{self.name}{self.count}"

    def types(self, text):
        for it in text:
            self.tab.type(it)
            time.sleep(self.random.uniform(0, LONGEST) ** 2 / LONGEST)

    def types_in_the_text(self):
        word = self.word()
        self.tab.run(AT_A_WORD % (AREA, self.random.random()))
        self.types(f"{word} ")
        self.words.append((None, word))

    def token(self):
        """The token of an item that is there."""
        labels = self.tab.run(LABELS)
        tokens = [found[0] for it in labels if (found := re.search(r"item\d+|new[ab]\d+", it))]
        return self.random.choice(tokens) if tokens else None

    def types_in_an_item(self):
        token, word = self.token(), self.word()
        if token is None or not self.tab.run(AT_AN_END % (row_with(token), LONG, "true" if self.is_at_end else "false")):
            return
        self.types(f" {word}" if self.is_at_end else f"{word} ")
        self.words.append((token, word))
        self.random.choice((lambda: self.tab.press("Enter"), lambda: self.tab.press("Tab"), lambda: leave(self.tab), lambda: None))()

    def adds_an_item(self):
        token = f"new{self.word()}"
        self.tab.run(f"{ADD}.focus()")
        self.types(token)
        self.tab.press("Enter")
        self.words.append((token, token))

    def deletes_an_item(self):
        token = self.token()
        if token is None or token not in TOKENS[:4]:
            return
        with self.lock:
            self.deleted.add(token)
        self.tab.run(f"{row_with(token)}?.querySelector('button[aria-label^=Delete]').click()")

    def decides(self):
        """Decides about one item that the other has deleted meanwhile, or has changed at the same place. Returns whether there was one."""
        if self.tab.run(f"{GHOST} !== null"):
            self.tab.click(button(self.random.choice(("Add it again", "Drop")), GHOST))
            return True
        return self.types_again()

    def types_again(self):
        """Takes the label of the other, and types the words again that it lacks."""
        mine = self.tab.run(f"(window.asked = {ASKED})?.querySelector('input').value")
        if mine is None:
            return False
        self.tab.run(f"{button('Take theirs', 'asked')}.click()")
        theirs = words_of(self.tab.run("asked.querySelector('input').value"))
        lacking = " ".join(it for it in words_of(mine) if it not in theirs)
        self.tab.run(AT_AN_END % ("asked", LONGEST_LABEL, "true" if self.is_at_end else "false"))
        self.tab.type(f" {lacking}" if self.is_at_end else f"{lacking} ")
        leave(self.tab)
        print(f"page: {self.name} was asked, and types {lacking!r} again", flush=True)
        return True


def words_of(shown):
    return re.findall(r"\w+", shown)


def half_a_minute(stage):
    Person.deleted = set()
    people = [Person(stage.a, "a", 11), Person(stage.b, "b", 77)]
    end = time.monotonic() + SECONDS
    together(*(lambda it=it: it.works(end) for it in people))
    for it in stage.tabs:
        leave(it)
    text, labels = stage.agreed(lambda tab: people[stage.tabs.index(tab)].decides())[:2]
    typed = [it for person in people for it in person.words]
    in_text, in_list = words_of(text), words_of(" ".join(labels))
    expect([word for token, word in typed if token is None and in_text.count(word) != 1], [], "the words that are not in the text as they were typed")
    lost = [(token, word) for token, word in typed if token is not None and token not in Person.deleted and in_list.count(word) != 1]
    expect(lost, [], f"the words that are not in the list as they were typed, of {len(typed)}, with {labels}")
    known = {word for _, word in typed} | {"It", "begins", "so", *TOKENS}
    expect([it for it in in_text + in_list if it not in known], [], "the words that nobody typed")
    expect_that(len(typed) > SECONDS / stage.slack, f"many words were typed: {len(typed)}")


PARTS = {"half a minute of two people": half_a_minute}
