// Tests of undo and redo: `node --test page/tests/undo_test.js`. Sites of the page's core edit over a small star, with delays.
import assert from "node:assert/strict";
import test from "node:test";
import { Board, MOST_ITEMS, MOST_OPERATIONS, Site, readLine, transformEdits } from "../core.js";
import { Undo } from "../undo.js";

const TEXT = { win: 1, wid: 1 };
const LIST = { win: 1, wid: 2 };
const TOGGLE = { win: 1, wid: 3 };
const SLIDER = { win: 1, wid: 4 };
const charLines = (text) => Array.from(text, (it, at) => `char 0.${at + 1} ${it.codePointAt(0)}`);
const ITEMS = ["item 0.7 bread", "item 0.8 milk", "item 0.9 eggs"];
const OPENING = ["window 1", "text 1", ...charLines("abcdef"), "list 2", ...ITEMS, "toggle 3 off", "slider 4 0 99 50"];

function boardOf(lines) {
  const board = new Board();
  for (const line of lines) board.readLine(readLine(line));
  return board;
}

// ---- A star, and who edits over it ----

// The star of the protocol, without limits and refusals. It takes and delivers only when a test says so.
class Star {
  links = [];
  joined = 0;
  order = []; // edits as they were applied: their `site` and `ops`
  firsts = new Map(); // from each label that an item got to the one that it had first

  constructor(opening = OPENING) {
    this.opening = opening;
    this.board = boardOf(opening);
  }

  join(player) {
    this.joined += 1;
    this.links.push({ player, number: this.joined, up: [], down: [], outgoing: [], sent: 0, taken: 0, dropped: 0, coming: null });
    return this.joined;
  }

  // Takes the next edit that a site has sent.
  take(link) {
    while (link.up.length > 0) {
      const read = readLine(link.up.shift());
      if (read.word === "ack") this.#drop(link, read.number);
      if (read.word === "batch") link.coming = { ...read, ops: [] };
      if (read.word === "do" && link.coming.ops.push(read.op) === link.coming.count) return this.#edit(link, link.coming);
    }
    return undefined;
  }

  #drop(link, count) {
    link.outgoing.splice(0, count - link.dropped);
    link.dropped = count;
  }

  #edit(link, { mine, heard, ops }) {
    assert.equal(mine, link.taken);
    link.taken += 1;
    this.#drop(link, heard);
    let comes = ops;
    link.outgoing = link.outgoing.map((edit) => {
      const [own, others] = transformEdits(comes, edit);
      comes = own;
      return others;
    });
    this.board.applyAll(comes);
    this.order.push({ site: link.number, ops: comes });
    if (link.taken % 64 === 0) link.down.push([`ack ${link.taken}`]);
    for (const other of this.links) {
      if (other === link) continue;
      other.outgoing.push(comes);
      other.down.push([`batch ${other.sent} ${other.taken} ${comes.length}`, ...comes.map(lineOf)]);
      other.sent += 1;
    }
  }

  deliver(link) {
    for (const line of link.down.shift() ?? []) link.player.site.hear(line);
  }

  // Lets all that is on its way come. Then all boards have to be equal.
  settle() {
    for (;;) {
      const link = this.links.find(({ up, down }) => up.length + down.length > 0);
      if (!link) break;
      this.take(link);
      this.deliver(link);
    }
    for (const { player } of this.links) assert.deepEqual(player.board.windows, this.board.windows);
  }
}

// A board as the lines that one who joins is sent.
function linesOf({ windows }) {
  const widgetLines = ([wid, { kind, items, low, high, value }]) => {
    if (kind === "toggle") return [`toggle ${wid} ${value ? "on" : "off"}`];
    if (kind === "slider") return [`slider ${wid} ${low} ${high} ${value}`];
    return [`${kind} ${wid}`, ...items.map((it) => `${kind === "text" ? "char" : "item"} ${it.name} ${it.value}`)];
  };
  return [...windows].flatMap(([win, widgets]) => [`window ${win}`, ...[...widgets].flatMap(widgetLines)]);
}

function lineOf(op) {
  const words = ["do", op.win, op.wid, op.kind, op.verb];
  if (op.verb === "set") words.push(op.kind === "toggle" ? (op.value ? "on" : "off") : op.value);
  else if (op.verb !== "no") words.push(op.place, op.name);
  if (op.verb === "ins" || op.verb === "rel") words.push(op.value);
  return words.join(" ");
}

class Player {
  undo = new Undo();
  time = 0;
  made = null; // its last edit
  edits = 0; // that plans made
  repairs = 0;

  constructor(star) {
    this.star = star;
    const number = star.join(this);
    this.link = star.links.at(-1);
    this.site = new Site((text) => this.link.up.push(...text.trimEnd().split("\n")), (what, it) => this.told(what, it));
    for (const line of [`welcome ${number} 1000000`, ...star.opening, "ready"]) this.site.hear(line);
  }

  get board() {
    return this.site.board;
  }

  told(what, it) {
    if (what === "made") this.made = it;
    if (what !== "came") return;
    this.undo.came(it);
    this.repairs += this.play(this.undo.mend());
  }

  edit(commands, how) {
    this.site.edit(commands);
    this.undo.note(this.made, how, (this.time += 10));
  }

  // Makes all edits of a plan, and lets happen what comes between two of them.
  play(plan, between = () => {}) {
    let count = 0;
    while (plan && !plan.isDone) {
      const commands = plan.next(this.board);
      if (commands.length === 0) continue;
      assert.ok(commands.length <= MOST_OPERATIONS);
      this.site.edit(commands);
      plan.made(this.made);
      count += 1;
      between();
    }
    this.edits += count;
    return count;
  }

  // Returns what it did, or null if there was nothing to do.
  back(way, between) {
    const plan = this.undo[way]();
    this.play(plan, between);
    return plan?.finish() ?? null;
  }

  undoAll(between) {
    while (this.undo.canUndo) this.back("undo", between);
  }

  redoAll(between) {
    while (this.undo.canRedo) this.back("redo", between);
  }

  items({ win, wid }) {
    return this.board.widget(win, wid).items;
  }

  get text() {
    return String.fromCodePoint(...this.items(TEXT).map(({ value }) => value));
  }

  get list() {
    return this.items(LIST).map(({ value }) => value).join(", ");
  }

  get slider() {
    return this.board.widget(1, 4).value;
  }

  type(text, place = this.items(TEXT).length) {
    Array.from(text).forEach((it, at) => this.edit([{ ...TEXT, verb: "ins", place: place + at, value: it.codePointAt(0) }], "type"));
  }

  // Deletes characters by the key for the one before the cursor.
  erase(place, count) {
    for (let at = place + count - 1; at >= place; at--) this.edit([{ ...TEXT, verb: "del", place: at }], "delete");
  }

  // Puts in many characters in as many edits as it takes, as one step.
  paste(text, place = this.items(TEXT).length, between = () => {}) {
    const how = {};
    for (let at = 0; at < text.length; at += MOST_OPERATIONS) {
      const values = Array.from(text.slice(at, at + MOST_OPERATIONS), (it) => it.codePointAt(0));
      this.edit(values.map((value, k) => ({ ...TEXT, verb: "ins", place: place + at + k, value })), how);
      between();
    }
  }

  add(value, place = this.items(LIST).length) {
    this.edit([{ ...LIST, verb: "ins", place, value }]);
  }

  remove(place) {
    this.edit([{ ...LIST, verb: "del", place }]);
  }

  relabel(place, value) {
    const was = this.items(LIST)[place].value;
    this.star.firsts.set(value, this.star.firsts.get(was) ?? was);
    this.edit([{ ...LIST, verb: "rel", place, value }]);
  }

  // Moves an item to a place among the others.
  move(from, to) {
    const { value } = this.items(LIST)[from];
    this.edit([{ ...LIST, verb: "del", place: from }, { ...LIST, verb: "ins", place: to, value }]);
  }

  slide(value, how) {
    this.edit([{ ...SLIDER, verb: "set", value }], how);
  }
}

// Some players over one star. `all` lets all come that is on its way, and `first` has the star take the edits of a player.
function stage(count = 2, opening = OPENING) {
  const star = new Star(opening);
  const players = Array.from({ length: count }, () => new Player(star));
  const first = ({ link }) => {
    while (link.up.length > 0) star.take(link);
  };
  return { star, players, a: players[0], b: players[1], all: () => star.settle(), first };
}

// ---- What an undo leaves ----

test("what others typed behind it stays", () => {
  const { a, b, all } = stage();
  a.type("Hello");
  all();
  b.type(" you");
  all();
  a.back("undo");
  assert.equal(a.text, "abcdef you");
  a.back("redo");
  assert.equal(a.text, "abcdefHello you");
});

test("what others typed inside it stays, and what they deleted does not come back", () => {
  const { a, b, all } = stage();
  a.type("Hello");
  all();
  b.type("--", 8);
  b.erase(6, 1);
  all();
  a.back("undo");
  assert.equal(a.text, "abcdef--");
  a.back("redo");
  assert.equal(a.text, "abcdefe--llo");
});

test("a deletion comes back to its place, whatever others did around it", () => {
  const { a, b, all } = stage();
  a.erase(1, 3);
  all();
  b.type("XY", 1);
  b.erase(0, 1);
  all();
  a.back("undo");
  assert.equal(a.text, "bcdXYef");
});

test("a deletion comes back where the item to the left came back", () => {
  const { a, b, all } = stage();
  a.erase(3, 1);
  a.undo.end();
  a.erase(2, 1);
  all();
  b.erase(1, 1);
  all();
  a.undoAll();
  assert.equal(a.text, "acdef");
  b.back("undo");
  all();
  assert.equal(a.text, "abcdef");
});

test("an item that others relabelled stays", () => {
  const { a, b, all } = stage();
  a.add("tea");
  all();
  b.relabel(3, "green tea");
  all();
  const { did, skipped } = a.back("undo");
  assert.deepEqual([did, skipped], [[], 1]);
  assert.equal(a.list, "bread, milk, eggs, green tea");
});

test("a label that others gave stays", () => {
  const { a, b, all } = stage();
  a.relabel(0, "rolls");
  all();
  b.relabel(0, "brown rolls");
  all();
  a.back("undo");
  assert.equal(a.list, "brown rolls, milk, eggs");
});

test("a label is put back, and given again", () => {
  const { a } = stage();
  a.relabel(0, "rolls");
  a.back("undo");
  assert.equal(a.list, "bread, milk, eggs");
  a.back("redo");
  assert.equal(a.list, "rolls, milk, eggs");
});

test("a value that others set between two of one's own comes back", () => {
  const { a, b, all } = stage();
  a.slide(7);
  all();
  b.slide(3);
  all();
  a.slide(9);
  a.back("undo");
  assert.equal(a.slider, 3);
  assert.deepEqual(a.back("undo").did, []);
  assert.equal(a.slider, 3);
});

test("what others do with what came back stays", () => {
  const { a, b, all } = stage();
  a.erase(1, 3);
  a.back("undo");
  all();
  b.erase(2, 1);
  all();
  a.back("redo");
  assert.equal(a.text, "aef");
  a.back("undo");
  assert.equal(a.text, "abdef");
  a.type("Hello");
  a.back("undo");
  a.back("redo");
  all();
  b.erase(6, 1);
  all();
  a.back("undo");
  a.back("redo");
  assert.equal(a.text, "abdefHllo");
  a.remove(0);
  a.back("undo");
  all();
  b.relabel(0, "rolls");
  all();
  assert.equal(a.back("redo").skipped, 1);
  assert.equal(a.list, "rolls, milk, eggs");
});

test("new edits end what can be made again, and edits of others do not", () => {
  const { a, b, all } = stage();
  a.type("x");
  a.back("undo");
  b.type("y");
  all();
  assert.ok(a.undo.canRedo);
  a.type("z");
  assert.ok(!a.undo.canRedo);
  assert.equal(a.back("redo"), null);
});

// ---- Races: others were first, or this site was ----

test("both delete one word, and both undo: it is there once", () => {
  for (const isFirst of [true, false]) {
    const { a, b, all, first } = stage();
    a.erase(1, 3);
    b.erase(1, 3);
    first(isFirst ? a : b);
    all();
    b.back("undo");
    a.back("undo");
    all();
    assert.equal(a.text, "abcdef");
  }
});

test("both delete one word, and one undoes before it knows: it is there only if the deletion was first", () => {
  for (const isFirst of [true, false]) {
    const { a, b, all, first } = stage();
    a.erase(1, 3);
    b.erase(1, 3);
    a.back("undo");
    first(isFirst ? a : b);
    all();
    assert.equal(a.text, isFirst ? "abcdef" : "aef");
    b.back("undo");
    all();
    assert.equal(a.text, "abcdef");
  }
});

test("others relabelled what one deletes, at the same time", () => {
  for (const [isFirst, list] of [[true, "bread, milk, eggs"], [false, "bread, oat milk, eggs"]]) {
    const { a, b, all, first } = stage();
    b.relabel(1, "oat milk");
    a.remove(1);
    first(isFirst ? a : b);
    all();
    assert.equal(a.list, "bread, eggs");
    a.back("undo");
    assert.equal(a.list, list);
    a.back("redo");
    assert.equal(a.list, "bread, eggs");
  }
});

test("others relabelled what an undo deletes, at the same time: theirs comes back if it was first", () => {
  for (const [isFirst, list] of [[true, "bread, milk, eggs"], [false, "bread, milk, eggs, green tea"]]) {
    const { a, b, all, first } = stage();
    a.add("tea");
    all();
    b.relabel(3, "green tea");
    a.back("undo");
    first(isFirst ? a : b);
    all();
    assert.equal(b.list, list);
  }
});

test("others set a value while the undo was on its way", () => {
  for (const isFirst of [true, false]) {
    const { a, b, all, first } = stage();
    a.slide(7);
    all();
    b.slide(3);
    a.back("undo");
    first(isFirst ? a : b);
    all();
    assert.equal(a.slider, 3);
  }
});

test("others set a value before one that was undone at once", () => {
  const { a, b, all, first } = stage();
  b.slide(3);
  a.slide(7);
  a.back("undo");
  first(b);
  all();
  assert.equal(b.slider, 3);
});

test("others set a value before an own one: the own one stands, and its undo leaves theirs", () => {
  const { a, b, all, first } = stage();
  b.slide(3);
  a.slide(7);
  a.slide(9);
  first(b);
  all();
  assert.equal(a.slider, 9);
  a.back("undo");
  a.back("undo");
  all();
  assert.equal(b.slider, 3);
});

test("an undo is made of edits of one's own, and never takes back what others did", () => {
  const { a, b, all } = stage();
  b.type("other");
  b.slide(3);
  all();
  assert.ok(!a.undo.canUndo);
  a.type("!");
  a.undoAll();
  assert.equal(a.text, "abcdefother");
});

// ---- Moves ----

test("a move is undone and made again", () => {
  const { a, b, all } = stage();
  a.move(0, 2);
  all();
  assert.equal(b.list, "milk, eggs, bread");
  const { did } = a.back("undo");
  assert.deepEqual(did, [{ key: "1.2", kind: "mov", count: 1 }]);
  assert.equal(a.list, "bread, milk, eggs");
  a.back("redo");
  assert.equal(a.list, "milk, eggs, bread");
  a.back("undo");
  all();
  assert.equal(b.list, "bread, milk, eggs");
});

test("a move that others followed by a label, a deletion or a move", () => {
  let { a, b, all } = stage();
  a.move(0, 2);
  all();
  b.relabel(2, "rolls");
  all();
  a.back("undo");
  assert.equal(a.list, "rolls, milk, eggs");
  ({ a, b, all } = stage());
  a.move(0, 2);
  all();
  b.remove(2);
  all();
  a.back("undo");
  assert.equal(a.list, "milk, eggs");
  ({ a, b, all } = stage());
  a.move(0, 2);
  all();
  b.move(2, 1);
  all();
  a.back("undo");
  assert.equal(a.list, "milk, bread, eggs");
});

test("what one did with an item is undone where others moved it", () => {
  const { a, b, all } = stage();
  a.relabel(0, "rolls");
  a.add("tea");
  all();
  b.move(0, 2);
  b.move(3, 0);
  all();
  assert.equal(a.list, "tea, milk, eggs, rolls");
  a.undoAll();
  assert.equal(a.list, "milk, eggs, bread");
  a.redoAll();
  assert.equal(a.list, "tea, milk, eggs, rolls");
});

test("both move one item: it is there once, where the first moved it", () => {
  for (const [isFirst, list] of [[true, "milk, bread, eggs"], [false, "milk, eggs, bread"]]) {
    const { a, b, all, first } = stage();
    a.move(0, 1);
    b.move(0, 2);
    first(isFirst ? a : b);
    all();
    assert.equal(a.list, list);
    const [winner, loser] = isFirst ? [a, b] : [b, a];
    assert.deepEqual(loser.back("undo").did, []);
    winner.back("undo");
    all();
    assert.equal(a.list, "bread, milk, eggs");
  }
});

test("one moves, one relabels: it is there once, with the label", () => {
  for (const isFirst of [true, false]) {
    const { a, b, all, first } = stage();
    a.move(0, 2);
    b.relabel(0, "rolls");
    first(isFirst ? a : b);
    all();
    assert.equal(a.list, "milk, eggs, rolls");
    b.back("undo");
    all();
    assert.equal(a.list, "milk, eggs, bread");
    b.back("redo");
    a.back("undo");
    all();
    assert.equal(a.list, "rolls, milk, eggs");
  }
});

test("one moves, one deletes: it is deleted, and the undo brings it back once", () => {
  for (const isFirst of [true, false]) {
    const { a, b, all, first } = stage();
    a.move(0, 2);
    b.remove(0);
    first(isFirst ? a : b);
    all();
    assert.equal(a.list, "milk, eggs");
    a.back("undo");
    all();
    assert.equal(a.list, "milk, eggs");
    b.back("undo");
    all();
    assert.equal(a.list, isFirst ? "milk, eggs, bread" : "bread, milk, eggs");
  }
});

test("one moves, one deletes and undoes that before it knows: it is there once", () => {
  for (const isFirst of [true, false]) {
    const { a, b, all, first } = stage();
    a.move(0, 2);
    b.remove(0);
    b.back("undo");
    first(isFirst ? a : b);
    all();
    assert.equal(a.list, isFirst ? "milk, eggs, bread" : "bread, milk, eggs");
  }
});

test("one moves and relabels what others moved first: it is there once, with the label", () => {
  const { a, b, all, first } = stage();
  b.move(0, 2);
  a.move(0, 1);
  a.relabel(1, "rolls");
  first(b);
  all();
  assert.equal(a.list, "milk, eggs, rolls");
  a.undoAll();
  all();
  assert.equal(b.list, "milk, eggs, bread");
});

test("three move one item: it is there once", () => {
  for (const order of [[0, 1, 2], [2, 0, 1], [1, 2, 0]]) {
    const { players, all, first } = stage(3);
    players.forEach((it, at) => it.move(1, at));
    for (const at of order) first(players[at]);
    all();
    assert.equal(players[0].list.split(", ").sort().join(), "bread,eggs,milk");
    assert.equal(players[0].items(LIST)[order[0]].value, "milk");
  }
});

test("a sort of a list is one step", () => {
  const items = Array.from({ length: 40 }, (_, at) => `item 0.${at + 1} i${99 - at}`);
  const { a, b, all } = stage(2, ["window 1", "text 1", "list 2", ...items]);
  const how = {};
  const moves = items.map((_, at) => [{ ...LIST, verb: "del", place: 39 }, { ...LIST, verb: "ins", place: at, value: `i${60 + at}` }]);
  for (let at = 0; at < 40; at += 16) a.edit(moves.slice(at, at + 16).flat(), how);
  all();
  const sorted = b.list;
  assert.ok(sorted.startsWith("i60, i61, "));
  assert.deepEqual(a.back("undo").did, [{ key: "1.2", kind: "mov", count: 40 }]);
  assert.ok(a.list.startsWith("i99, i98, "));
  a.back("redo");
  assert.equal(a.list, sorted);
});

test("what was put after an item that was moved is made again after it", () => {
  const { a } = stage();
  a.move(0, 2);
  a.add("tea");
  a.remove(2);
  a.undoAll();
  assert.equal(a.list, "bread, milk, eggs");
  a.redoAll();
  assert.equal(a.list, "milk, eggs, tea");
  a.back("undo");
  assert.equal(a.list, "milk, eggs, bread, tea");
});

test("others move the item that lost a race, before it goes: it is there once", () => {
  const { star, a, b, all, first } = stage();
  b.relabel(0, "rolls");
  b.move(0, 2);
  b.relabel(2, "buns");
  a.move(0, 1);
  first(a);
  for (let count = 0; count < 2; count++) {
    star.take(b.link);
    star.deliver(a.link);
  }
  const place = a.list.split(", ").indexOf("rolls");
  assert.equal(a.items(LIST).length, 4);
  a.move(place, 0);
  all();
  assert.equal(a.list.split(", ").sort().join(), "buns,eggs,milk");
});

test("the name of an item that was moved is known", () => {
  const { a, b, all, first } = stage();
  b.move(0, 2);
  all();
  assert.equal(a.undo.nameOf(LIST, "0.7"), "2.1");
  assert.equal(a.undo.nameOf(LIST, "0.8"), "0.8");
  a.move(0, 1);
  b.move(0, 2);
  first(b);
  all();
  // That of the item that lost leads to the one that is there.
  assert.equal(a.undo.nameOf(LIST, "1.1"), "2.2");
});

// ---- Steps, plans and limits ----

test("typing is one step, until it stops, moves, or ends a line", () => {
  const { a } = stage();
  const steps = () => {
    let count = 0;
    for (; a.back("undo"); count++);
    return count;
  };
  a.type("Hello");
  assert.equal(steps(), 1);
  a.type("one\n");
  a.type("two");
  assert.equal(steps(), 2);
  a.type("one");
  a.time += 2000;
  a.type("two");
  assert.equal(steps(), 2);
  a.type("one");
  a.type("two", 0);
  assert.equal(steps(), 2);
  a.type("one");
  a.undo.end();
  a.type("two");
  assert.equal(steps(), 2);
  a.type("x".repeat(150));
  assert.equal(steps(), 2);
  a.type("one");
  a.erase(6, 3);
  a.type("two");
  assert.equal(steps(), 3);
  // By the key for the character on the right of the cursor.
  for (let at = 0; at < 3; at++) a.edit([{ ...TEXT, verb: "del", place: 1 }], "delete");
  assert.equal(a.text, "aef");
  assert.equal(steps(), 1);
  assert.equal(a.text, "abcdef");
});

test("a drag is one step, unless others set the value in between", () => {
  const { a, b, all } = stage();
  let how = {};
  for (const value of [51, 52, 53]) a.slide(value, how);
  assert.deepEqual(a.back("undo").did, [{ key: "1.4", kind: "set", count: 1 }]);
  assert.equal(a.slider, 50);
  how = {};
  a.slide(60, how);
  all();
  b.slide(3);
  all();
  a.slide(61, how);
  a.back("undo");
  assert.equal(a.slider, 3);
  assert.ok(!a.undo.canUndo);
});

test("a job is one step, whatever is typed meanwhile", () => {
  const { a } = stage();
  a.paste("0123456789".repeat(10), 3, () => a.type("x", 0));
  assert.equal(a.text.length, 6 + 100 + 4);
  while (a.back("undo").did[0].count < 100);
  assert.ok(!a.text.includes("9"));
});

test("an undo says what it did, and where", () => {
  const { a, b, all } = stage();
  a.type("Hello", 2);
  all();
  b.erase(3, 1);
  all();
  const place = { key: "1.1", after: "0.2" };
  assert.deepEqual(a.back("undo"), { did: [{ key: "1.1", kind: "ins", count: 4 }], skipped: 1, isFull: false, place });
  a.erase(0, 2);
  a.back("undo");
  a.edit([{ ...TEXT, verb: "del", place: 0 }, { ...SLIDER, verb: "set", value: 1 }]);
  assert.deepEqual(a.back("undo").did, [{ key: "1.4", kind: "set", count: 1 }, { key: "1.1", kind: "del", count: 1 }]);
});

test("what is taken back next is known, by how it was noted and by its widget", () => {
  const { a } = stage();
  const how = {};
  assert.equal(a.undo.how, null);
  a.add("tea");
  assert.equal(a.undo.how, null);
  a.edit([{ ...SLIDER, verb: "set", value: 1 }], how);
  assert.equal(a.undo.how, how);
  for (const key of ["1.4", "1.2"]) {
    const plan = a.undo.undo();
    assert.equal(plan.key, key);
    a.play(plan);
    assert.equal(plan.key, key);
    plan.finish();
  }
});

test("20,000 pasted characters are undone in few edits, as fast as they came", () => {
  const { star, a, b, all } = stage();
  const long = "abcdefghij".repeat(2000);
  // Time of this process: a busy machine makes it no longer.
  const now = () => process.cpuUsage().user / 1000;
  let begun = now();
  a.paste(long, 3, () => star.take(a.link));
  all();
  const pasted = now() - begun;
  // Others type and delete in the middle of it.
  b.type("--", 10000);
  b.erase(500, 3);
  all();
  begun = now();
  const plan = a.undo.undo();
  assert.equal(plan.left, 20000);
  a.play(plan, () => star.take(a.link));
  assert.deepEqual(plan.finish().did, [{ key: "1.1", kind: "ins", count: 19997 }]);
  all();
  const undone = now() - begun;
  const [before, after] = [pasted, undone].map(Math.round);
  console.log(`20,000 characters, with a star and another site: pasted in ${before} ms, undone in ${after} ms and ${a.edits} edits`);
  assert.equal(b.text, "abc--def");
  assert.ok(a.edits <= 700, `${a.edits} edits`);
  assert.ok(undone <= 2 * pasted, `${undone} ms, and ${pasted} ms for the paste`);
  a.back("redo");
  all();
  assert.equal(b.text.length, 6 + 2 + 19997);
});

test("a plan hands out some commands at a time, says how many are left, and goes on while others edit", () => {
  const { a, b, all } = stage();
  a.paste("0123456789".repeat(10), 3);
  all();
  const plan = a.undo.undo();
  const lefts = [];
  while (!plan.isDone) {
    a.site.edit(plan.next(a.board));
    plan.made(a.made);
    lefts.push(plan.left);
    b.type("-", 0);
    all();
  }
  assert.deepEqual(lefts, [68, 36, 4, 0]);
  assert.equal(a.text, "----abcdef");
});

test("a plan that is refused can go on later, and one that is ended leaves the rest", () => {
  const { a } = stage();
  a.paste("0123456789".repeat(10), 6);
  const plan = a.undo.undo();
  plan.next(a.board);
  // It was not made.
  a.site.edit(plan.next(a.board));
  plan.made(a.made);
  plan.finish();
  assert.equal(a.text.length, 6 + 68);
  assert.ok(a.undo.canUndo && a.undo.canRedo);
  a.back("undo");
  assert.equal(a.text, "abcdef");
  a.redoAll();
  assert.equal(a.text, `abcdef${"0123456789".repeat(10)}`);
});

test("a text that is full stops a plan, and what had no room can be undone later", () => {
  const { a, b, all } = stage(2, ["window 1", "text 1", ...charLines("a".repeat(MOST_ITEMS))]);
  a.erase(100, 50);
  all();
  for (let at = 0; at < 40; at++) b.type("b", 0);
  all();
  const { did, isFull } = a.back("undo");
  assert.deepEqual([did, isFull], [[{ key: "1.1", kind: "del", count: 10 }], true]);
  assert.equal(a.items(TEXT).length, MOST_ITEMS);
  assert.deepEqual(a.back("undo").did, []);
  b.erase(0, 40);
  all();
  assert.equal(a.back("undo").did[0].count, 40);
  assert.equal(a.text, "a".repeat(MOST_ITEMS));
});

test("the oldest steps are dropped, and the newest is kept whatever its length", () => {
  const { a } = stage();
  for (let at = 0; at < 1100; at++) {
    a.slide(at % 100);
    a.link.up = [];
    if (at % 64 === 63) a.site.hear(`ack ${at + 1}`);
  }
  let count = 0;
  while (a.back("undo")) {
    count += 1;
    if (a.site.backlog > 1000) a.site.hear(`ack ${a.site.made}`);
  }
  assert.equal(count, 1000);
});

test("names that no step can lead to are forgotten, and all others are kept", () => {
  const { a, b, all } = stage();
  a.erase(1, 3);
  a.undo.end();
  a.erase(1, 1);
  a.move(0, 2);
  all();
  // The item that was left of all that A deleted goes, and what B typed there after it.
  b.erase(0, 1);
  b.move(0, 1);
  for (let count = 0; count < 6400; count += 32) {
    b.edit(Array.from({ length: 32 }, () => ({ ...TEXT, verb: "ins", place: 0, value: 98 })));
    b.edit(Array.from({ length: 32 }, () => ({ ...TEXT, verb: "del", place: 0 })));
    b.move(0, 1);
    if (count % 640 === 0) all();
  }
  all();
  const moved = b.items(LIST).map(({ name }) => name);
  assert.ok(moved.includes(a.undo.nameOf(LIST, b.undo.nameOf(LIST, "0.8"))));
  assert.equal(a.undo.nameOf(LIST, "2.1"), "2.1");
  a.type("!", 0);
  a.undoAll();
  all();
  assert.equal(b.text, "bcdef");
  assert.equal(b.list.split(", ").sort().join(), "bread,eggs,milk");
});

test("a new site of the same run goes on with the steps", () => {
  const { star, a, b, all } = stage();
  a.type("Hello");
  a.erase(4, 2);
  a.relabel(0, "rolls");
  a.slide(7);
  a.remove(2);
  all();
  // Its link is lost, and what it made last is not taken.
  const { board: old } = a.site;
  a.type("lost");
  a.move(0, 1);
  b.erase(3, 1);
  b.slide(9);
  star.take(b.link);
  star.take(b.link);
  star.links.shift();
  star.opening = linesOf(star.board);
  const again = new Player(star);
  again.undo = a.undo;
  again.undo.rejoin(old, again.board);
  assert.equal(again.text, "abcHello");
  again.relabel(0, "buns");
  again.undoAll();
  star.settle();
  assert.equal(b.text, "abcef");
  assert.equal(b.list, "bread, milk, eggs");
  assert.equal(b.slider, 9);
});

// The link of a player ends when the star has taken so many of its edits. It joins again as another site, and makes the others again.
function joinsAgain(star, player, taken) {
  while (player.link.taken < taken) star.take(player.link);
  star.links.splice(star.links.indexOf(player.link), 1);
  star.opening = linesOf(star.board);
  const again = new Player(star);
  again.undo = player.undo;
  again.undo.rejoin(player.board, again.board, taken);
  again.play(again.undo.mend());
  return again;
}

test("what was not taken is made again, and is undone as one's own", () => {
  const { star, a, b, all } = stage();
  a.type("Hi ");
  all();
  a.type("there", 4);
  a.erase(0, 1);
  a.relabel(0, "rolls");
  a.relabel(1, "oats");
  a.move(2, 0);
  a.add("tea");
  a.slide(7);
  b.type("XY", 9);
  b.relabel(1, "cheese");
  b.slide(9);
  while (b.link.up.length > 0) star.take(b.link);
  const again = joinsAgain(star, a, 3 + 2);
  star.settle();
  assert.deepEqual([again.text, again.list, again.slider], ["bcdthereefHi XY", "eggs, rolls, cheese, tea", 9]);
  assert.deepEqual([b.text, b.list, b.slider], [again.text, again.list, again.slider]);
  again.undoAll();
  star.settle();
  assert.deepEqual([b.text, b.list, b.slider], ["abcdefXY", "bread, cheese, eggs", 9]);
});

test("a deletion gives way to a label of others, and a label to a deletion", () => {
  const { star, a, b } = stage();
  a.remove(0);
  a.relabel(0, "oats");
  b.relabel(0, "brown bread");
  b.remove(1);
  while (b.link.up.length > 0) star.take(b.link);
  const again = joinsAgain(star, a, 0);
  assert.equal(again.list, "brown bread, eggs");
});

test("a second loss loses nothing of what was to be made again", () => {
  const { star, a } = stage();
  a.type("one");
  a.slide(7);
  a.move(0, 2);
  const again = joinsAgain(star, a, 1);
  const third = joinsAgain(star, again, 0);
  star.settle();
  assert.deepEqual([third.text, third.list, third.slider], ["abcdefone", "milk, eggs, bread", 7]);
  third.undoAll();
  assert.deepEqual([third.text, third.list, third.slider], ["abcdef", "bread, milk, eggs", 50]);
});

// ---- At random ----

function randomOf(seed) {
  let state = seed;
  return (end) => {
    state = (Math.imul(state, 1664525) + 1013904223) >>> 0;
    return Math.floor((state / 4294967296) * end);
  };
}

const FIRST_LETTER = 0x10000;
let letters = 0;
// No character and no label is given twice in a run, so each item is known by what it shows. A label begins with the number of who gave it.
const newLetters = (count) => String.fromCodePoint(...Array.from({ length: count }, () => FIRST_LETTER + letters++));
const newLabel = ({ site }) => `${site.site} gave ${letters++}`;

// Some edit of a user: on any widget, of one operation or of several.
function acts(player, random) {
  const [text, list] = [TEXT, LIST].map((at) => player.items(at).length);
  const kind = random(11);
  if (kind < 2) player.type(newLetters(1 + random(3)), random(text + 1));
  else if (kind < 4 && text > 0) {
    const place = random(text);
    player.erase(place, 1 + random(Math.min(3, text - place)));
  } else if (kind === 4) player.add(newLabel(player), random(list + 1));
  else if (kind === 5 && list > 0) player.remove(random(list));
  else if (kind === 6 && list > 0) player.relabel(random(list), newLabel(player));
  else if (kind < 9 && list > 1) player.move(random(list), random(list));
  else if (kind === 9) player.slide(random(100));
  else if (text > 1) {
    const place = random(text - 1);
    player.edit([
      { ...TEXT, verb: "del", place },
      { ...TEXT, verb: "ins", place, value: newLetters(1).codePointAt(0) },
      { ...TOGGLE, verb: "set", value: random(2) === 0 },
      { ...LIST, verb: "ins", place: 0, value: newLabel(player) },
    ]);
  }
}

// What comes next at random: something of a link, or nothing.
function passes(star, random) {
  const link = star.links[random(star.links.length)];
  if (random(2) === 0) star.take(link);
  else star.deliver(link);
}

const shownBy = ({ items, value }) => items?.map((it) => it.value) ?? value;
const shown = ({ windows }) => JSON.stringify([...windows.get(1).values()].map(shownBy));

test("at random, others silent: undone is the board before, and made again the board after", () => {
  for (let seed = 1; seed <= 150; seed++) {
    const random = randomOf(seed);
    const { star, a, all } = stage();
    const before = shown(a.board);
    for (let i = 0; i < 40; i++) {
      acts(a, random);
      if (random(3) === 0) passes(star, random);
    }
    const after = shown(a.board);
    for (const between of [undefined, () => passes(star, random)]) {
      a.undoAll(between);
      assert.equal(shown(a.board), before, `seed ${seed}`);
      a.redoAll(between);
      assert.equal(shown(a.board), after, `seed ${seed}`);
    }
    for (let i = 0; i < 10; i++) a.back("undo");
    for (let i = 0; i < 10; i++) a.back("redo");
    assert.equal(shown(a.board), after, `seed ${seed}`);
    all();
  }
});

// What the order leaves without all that the first site did: the last values that the other site set, and the items by what they show.
// Of each item it has the site that made it, whether the other site deleted it, and the last label that the other gave it.
class Theirs {
  set = new Map();
  things = new Map(); // by the value that they had first
  names = new Map();

  constructor(star) {
    this.firsts = star.firsts;
    for (const [wid, { items }] of boardOf(OPENING).windows.get(1)) {
      for (const { name, value } of items ?? []) this.#begin(wid, name, value, 0);
    }
    for (const { site, ops } of star.order) ops.forEach((op, at) => this.#take(site, op, ops[at - 1]));
  }

  thingOf(value) {
    return this.things.get(this.firsts.get(value) ?? value);
  }

  #begin(wid, name, value, site) {
    const thing = { wid, site, value, names: new Set(), isGone: false, isGiven: false, isRaced: false };
    this.things.set(value, thing);
    this.#lies(thing, name);
  }

  #lies(thing, name) {
    thing.names.add(name);
    this.names.set(`${thing.wid} ${name}`, thing);
  }

  #take(site, { verb, wid, name, value }, before) {
    const thing = this.names.get(`${wid} ${name}`);
    if (verb === "set" && site === 2) this.set.set(wid, value);
    if (verb === "ins") this.#comes(site, wid, name, value, before);
    if (verb === "rel" && site === 2) this.#relabels(thing, value);
    if (verb !== "del") return;
    thing.names.delete(name);
    if (site === 2 && thing.names.size === 0) thing.isGone = true;
  }

  // An item comes back or is moved. A move whose deletion had no effect lost a race, and is taken back.
  #comes(site, wid, name, value, before) {
    const thing = this.thingOf(value);
    if (!thing) return this.#begin(wid, name, value, site);
    thing.isRaced ||= thing.names.size > 0 || (site === 2 ? before?.verb !== "del" : thing.isGone);
    if (site === 2) thing.isGone = false;
    return this.#lies(thing, name);
  }

  // One who moves an item also gives it the label that another gave it at the same time.
  #relabels(thing, value) {
    if (value.startsWith("2 ")) Object.assign(thing, { value, isGiven: true });
    else thing.isRaced = true;
  }

  // The values of the items of a widget, and the items that one moved at the same time as the other did something with them.
  of(wid) {
    const all = [...this.things.values()].filter((it) => it.wid === wid);
    const kept = all.filter(({ isRaced, isGone, site, isGiven }) => !isRaced && !isGone && (site !== 1 || isGiven));
    return { kept: kept.map(({ value }) => value), raced: all.filter(({ isRaced }) => isRaced), all };
  }
}

// How many items are there twice. Who deletes one of two items before the page that lost the race does, and undoes that, has it twice.
function doublesOf(star, theirs, said) {
  const things = [TEXT, LIST].flatMap((at) => star.board.widget(at.win, at.wid).items.map(({ value }) => theirs.thingOf(value)));
  const doubles = things.filter((it, place) => things.indexOf(it) < place);
  assert.ok(doubles.every(({ isRaced }) => isRaced), said);
  return doubles.length;
}

test("at random, two: all of one undone leaves the opening and what the other did", () => {
  let [count, races, repairs, doubles] = [0, 0, 0, 0];
  for (let seed = 1; seed <= 500; seed++) {
    const random = randomOf(seed);
    const { star, a, b, all } = stage();
    for (let i = 0; i < 60; i++) {
      if (random(2) === 0) acts(b, random);
      const kind = random(6);
      if (kind < 3) acts(a, random);
      else if (kind < 5) a.back(kind === 3 ? "undo" : "redo", () => passes(star, random));
      for (let k = random(6); k > 0; k--) passes(star, random);
    }
    a.undoAll(() => {
      if (random(4) === 0) acts(b, random);
      passes(star, random);
    });
    all();
    const theirs = new Theirs(star);
    assert.equal(a.slider, theirs.set.get(4) ?? 50, `seed ${seed}`);
    assert.equal(a.board.widget(1, 3).value, theirs.set.get(3) ?? false, `seed ${seed}`);
    for (const at of [TEXT, LIST]) {
      const { kept, raced, all: things } = theirs.of(at.wid);
      const found = a.items(at).map(({ value }) => value);
      const isRaced = (value) => raced.includes(theirs.thingOf(value));
      assert.deepEqual(found.filter((it) => !isRaced(it)).sort(), kept.sort(), `seed ${seed}`);
      count += things.length;
      races += raced.length;
    }
    repairs += a.repairs + b.repairs;
    doubles += doublesOf(star, theirs, `seed ${seed}`);
  }
  console.log(`${count} items, ${races} of them in races of moves, ${doubles} there twice, ${repairs} repairs`);
  assert.ok(repairs > 500 && races * 10 < count && doubles < 10);
});

test("at random, three who all undo: copies agree, each item is there once, and nothing is thrown", () => {
  let doubles = 0;
  for (let seed = 1; seed <= 500; seed++) {
    const random = randomOf(seed * 7919);
    const { star, players, all } = stage(3);
    for (let i = 0; i < 120; i++) {
      const player = players[random(3)];
      const kind = random(4);
      if (kind < 2) acts(player, random);
      else player.back(kind === 2 ? "undo" : "redo", () => passes(star, random));
      for (let k = random(4); k > 0; k--) passes(star, random);
    }
    all();
    doubles += doublesOf(star, new Theirs(star), `seed ${seed}`);
  }
  console.log(`${doubles} items are there twice`);
  assert.ok(doubles < 10);
});

test("what was not taken is made again, whatever it was, where others are silent", () => {
  for (let seed = 1; seed <= 150; seed++) {
    const random = randomOf(seed);
    const { star, a } = stage();
    const opening = [a.text, a.list, a.slider];
    for (let count = 3 + random(12); count > 0; count--) acts(a, random);
    const now = [a.text, a.list, a.slider];
    const again = joinsAgain(star, a, random(a.site.made + 1));
    star.settle();
    assert.deepEqual([again.text, again.list, again.slider], now, `seed ${seed}`);
    again.undoAll();
    assert.deepEqual([again.text, again.list, again.slider], opening, `seed ${seed}, undone`);
    again.redoAll();
    assert.deepEqual([again.text, again.list, again.slider], now, `seed ${seed}, done again`);
  }
});

test("what was not taken is made again beside others, and copies agree", () => {
  for (let seed = 1; seed <= 150; seed++) {
    const random = randomOf(seed);
    const { star, a, b } = stage();
    for (let count = 2 + random(6); count > 0; count--) acts(a, random);
    star.settle();
    const typed = newLetters(3);
    a.type(typed, random(a.items(TEXT).length + 1));
    const taken = a.site.made - random(4);
    for (let count = random(6); count > 0; count--) acts(b, random);
    while (b.link.up.length > 0) star.take(b.link);
    const again = joinsAgain(star, a, taken);
    for (let count = random(6); count > 0; count--) acts(b, random);
    star.settle();
    assert.deepEqual([again.text, again.list, again.slider], [b.text, b.list, b.slider], `seed ${seed}`);
    for (const it of typed) assert.ok(again.text.split(it).length <= 2, `seed ${seed}: a character is there twice`);
    again.undoAll();
    star.settle();
    assert.deepEqual([again.text, again.list, again.slider], [b.text, b.list, b.slider], `seed ${seed}, undone`);
  }
});
