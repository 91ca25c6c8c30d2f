// Tests of what a page keeps of its edits: `node --test page/tests/records_test.js`. A server takes edits one after the other.
import assert from "node:assert/strict";
import test from "node:test";
import { Board, Site, readLine } from "../core.js";
import { missing } from "../lost.js";
import { partOf, undoOf } from "../records.js";
import { Undo } from "../undo.js";

const TEXT = { win: 1, wid: 1 };
const LIST = { win: 1, wid: 2 };
const TOGGLE = { win: 1, wid: 3 };
const charLines = (text) => Array.from(text, (it, at) => `char 0.${at + 1} ${it.codePointAt(0)}`);
const OPENING = ["window 1", "text 1", ...charLines("abcdef"), "list 2", "item 0.7 bread", "item 0.8 milk", "item 0.9 eggs", "toggle 3 off"];

function* linesOf({ windows }) {
  for (const [win, widgets] of windows) {
    yield `window ${win}`;
    for (const [wid, { kind, items, value }] of widgets) {
      yield kind === "toggle" ? `toggle ${wid} ${value ? "on" : "off"}` : `${kind} ${wid}`;
      for (const it of items ?? []) yield `${kind === "text" ? "char" : "item"} ${it.name} ${it.value}`;
    }
  }
}

// A site that has joined with these lines, its edits, and what a user does.
class Player {
  edits = [];
  undo = new Undo();

  constructor(number, lines) {
    this.site = new Site(() => {}, (what, it) => what === "made" && (this.made = it));
    for (const line of [`welcome ${number} 1000`, ...lines, "ready"]) this.site.hear(line);
  }

  edit(...commands) {
    const ops = this.site.edit(commands);
    this.undo.note(this.made, {});
    this.edits.push({ ops, took: this.made.took });
    return this;
  }

  type(text, place) {
    return this.edit(...Array.from(text, (it, at) => ({ ...TEXT, verb: "ins", place: place + at, value: it.codePointAt(0) })));
  }

  erase(place, count = 1) {
    return this.edit(...Array.from({ length: count }, () => ({ ...TEXT, verb: "del", place })));
  }

  relabel(place, value) {
    return this.edit({ ...LIST, verb: "rel", place, value });
  }

  add(value, place = 0) {
    return this.edit({ ...LIST, verb: "ins", place, value });
  }

  remove(place) {
    return this.edit({ ...LIST, verb: "del", place });
  }

  move(place, to) {
    const { value } = this.site.board.widget(1, 2).items[place];
    return this.edit({ ...LIST, verb: "del", place }, { ...LIST, verb: "ins", place: to, value });
  }

  toggle(value) {
    return this.edit({ ...TOGGLE, verb: "set", value });
  }

  // Makes again what an undo has torn.
  mends(undo) {
    const plan = undo.mend();
    while (plan && !plan.isDone) {
      const commands = plan.next(this.site.board);
      if (commands.length === 0) break;
      this.site.edit(commands);
      this.undo.note(this.made, undo);
      plan.made(this.made);
    }
    return this.shows;
  }

  get shows() {
    const [text, list, toggle] = [TEXT, LIST, TOGGLE].map(({ win, wid }) => this.site.board.widget(win, wid));
    return [String.fromCodePoint(...text.items.map(({ value }) => value)), list.items.map(({ value }) => value).join(", "), toggle.value];
  }
}

// The record of a player from an edit on, as a browser gives it back.
const recordOf = (player, from = 0) => structuredClone(partOf(player.site, player.edits.slice(from)));

// Who joins once a server has taken so many edits of a player, and others have done something.
function joinsLater(player, taken, others = () => {}, opening = OPENING) {
  const board = new Board();
  for (const line of opening) board.readLine(readLine(line));
  for (const { ops } of player.edits.slice(0, taken)) board.applyAll(ops);
  const other = new Player(player.site.site + 1, linesOf(board));
  others(other);
  return new Player(player.site.site + 2, linesOf(other.site.board));
}

const works = () => new Player(1, OPENING).type("Hi ", 0).erase(3).relabel(0, "rolls").remove(1).add("tea", 2).toggle(true);

test("what was not taken is made again, and is undone as one step", () => {
  const player = works();
  const again = joinsLater(player, 0);
  const undo = undoOf(recordOf(player), again.site);
  assert.deepEqual(Array.from(undo.torn, ([key, { length }]) => [key, length]), [["1.1", 4], ["1.2", 3], ["1.3", 1]]);
  assert.deepEqual(again.mends(undo), ["Hi bcdef", "rolls, eggs, tea", true]);
  assert.deepEqual(again.shows, player.shows);
  assert.equal(undo.torn.size, 0);
  const plan = again.undo.undo();
  while (!plan.isDone) {
    again.site.edit(plan.next(again.site.board));
    plan.made(again.made);
  }
  assert.deepEqual(again.shows, ["abcdef", "bread, milk, eggs", false]);
});

test("what was taken is not made again, whether the record has it or not", () => {
  const player = works();
  for (let taken = 0; taken <= player.edits.length; taken++) {
    for (let from = 0; from <= taken; from++) {
      const again = joinsLater(player, taken);
      assert.deepEqual(again.mends(undoOf(recordOf(player, from), again.site)), player.shows, `${taken} taken, and kept from ${from} on`);
    }
  }
  const again = joinsLater(player, player.edits.length);
  assert.equal(undoOf(recordOf(player), again.site).torn.size, 0);
});

test("it gives way to others", () => {
  const player = new Player(1, OPENING).relabel(0, "rolls").relabel(1, "oats").remove(2).type("xy", 3).toggle(true).toggle(false);
  const again = joinsLater(player, 0, (other) => other.relabel(0, "rye").remove(1).relabel(1, "six eggs").erase(1, 4).toggle(true));
  assert.deepEqual(again.mends(undoOf(recordOf(player), again.site)), ["axyf", "rye, six eggs", true]);
});

test("a move is made once, and a character that went again is not made", () => {
  const player = new Player(1, OPENING).move(0, 2).type("no", 0).erase(0, 2).type("yes", 6);
  const again = joinsLater(player, 0);
  assert.deepEqual(again.mends(undoOf(recordOf(player), again.site)), ["abcdefyes", "milk, eggs, bread", false]);
});

test("words say what a record has", () => {
  assert.deepEqual(recordOf(works()).words, [["1.1", "Hi \n(1 character deleted)"], ["1.2", "rolls\ntea\n(1 item deleted)"], ["1.3", "on"]]);
});

test("a record of another version is not read", () => {
  const player = works();
  const again = joinsLater(player, 0);
  const { version, ...rest } = recordOf(player);
  assert.equal(undoOf({ ...rest, version: version + 1 }, again.site), null);
  assert.equal(undoOf(rest, again.site), null);
});

test("a record of another run is not made", () => {
  const record = recordOf(new Player(3, [...OPENING.slice(0, 8), "char 2.1 33", ...OPENING.slice(8)]).type("mine", 7));
  const at = (number, ...lines) => undoOf(record, new Player(number, ["window 1", "text 1", ...lines, ...OPENING.slice(8)]).site);
  const same = charLines("abcdef");
  assert.notEqual(at(4, ...same, "char 2.1 33"), null);
  assert.notEqual(at(4, "char 2.1 33", "char 3.1 109"), null);
  assert.equal(at(3, ...same, "char 2.1 33"), null, "a number that was given before");
  assert.equal(at(4, ...same), null, "nothing that others typed then");
  assert.equal(at(4, ...charLines("abcxef"), "char 2.1 33"), null, "another character of that name");
  assert.equal(at(4, ...same, "char 2.1 33", "char 3.9 33"), null, "a character of that site which is not its");
  assert.equal(undoOf(record, new Player(4, ["window 1", "list 1"]).site), null, "another widget");
  assert.equal(undoOf(record, new Player(4, ["window 2"]).site), null, "no such widget");
});

test("a long text takes little room", () => {
  const player = new Player(1, ["window 1", "text 1", ...charLines("x".repeat(20_000)), ...OPENING.slice(8)]).type("y", 9);
  const { text, ...rest } = recordOf(player).widgets[0];
  assert.equal(text.length, 20_001);
  assert.deepEqual(rest.runs, [[0, 1, 9], [1, 1, 1], [0, 10, 19_991]]);
});

// ---- At random ----

function randomOf(seed) {
  let state = seed;
  return (end) => {
    state = (Math.imul(state, 1664525) + 1013904223) >>> 0;
    return Math.floor((state / 4294967296) * end);
  };
}

function actsAtRandom(player, random, label) {
  const [text, list] = [TEXT, LIST].map(({ win, wid }) => player.site.board.widget(win, wid).items.length);
  const acts = [
    () => player.type(String.fromCodePoint(0x4e00 + random(9999)).repeat(1 + random(2)), random(text + 1)),
    () => text > 0 && player.erase(random(text)),
    () => player.add(label, random(list + 1)),
    () => list > 0 && player.relabel(random(list), label),
    () => list > 0 && player.remove(random(list)),
    () => list > 1 && player.move(random(list), random(list - 1)),
    () => player.toggle(random(2) === 1),
  ];
  acts[random(acts.length)]();
}

test("a later page makes what the page itself would have made", () => {
  let count = 0;
  for (let seed = 1; seed <= 400; seed++) {
    const random = randomOf(seed);
    const player = new Player(1, OPENING);
    for (let nth = 0; nth < 12; nth++) actsAtRandom(player, random, `mine ${nth}`);
    const again = joinsLater(player, random(player.edits.length + 1), (other) => [1, 2, 3].forEach((nth) => actsAtRandom(other, random, `theirs ${nth}`)));
    const kept = new Player(again.site.site, linesOf(again.site.board));
    const undo = undoOf(recordOf(player), kept.site);
    if (undo === null) continue;
    // Both know no more of what was taken than the board shows.
    const left = missing(player.edits.map(({ ops }) => ops), 1, again.site.board);
    player.undo.rejoin(player.site.board, again.site.board, player.edits.length - left.length);
    assert.deepEqual(kept.mends(undo), again.mends(player.undo), `seed ${seed}`);
    count += 1;
  }
  assert.ok(count > 300, `${count} of 400 records are read`);
});
