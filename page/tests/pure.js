// Tests of what needs no page: `node --test page/tests/pure.js`.
import assert from "node:assert/strict";
import test from "node:test";
import { Board, MOST_ITEMS, Site, readLine } from "../core.js";
import { asJson, asPrinted, asText, copyOf } from "../files.js";
import { Job } from "../jobs.js";
import { Relabels, faultOf, linesOf, merged, plain } from "../labels.js";
import { isSameRun, maybeMissing, missing, wordsOf } from "../lost.js";
import { counted, difference, placeOf, readCaptions, scalarsOf, textOf } from "../texts.js";

const itemsOf = (text, site = 0) => Array.from(text, (it, at) => ({ name: `${site}.${at + 1}`, value: it.codePointAt(0) }));

// A board of lines as a server sends them.
function boardOf(...lines) {
  const board = new Board();
  for (const line of lines) board.readLine(readLine(line));
  return board;
}

// A site that has joined with a board. What it sends goes to `sent`.
function joined(number, ...lines) {
  const sent = [];
  const site = new Site((text) => sent.push(text));
  for (const line of [`welcome ${number} 1000`, ...lines, "ready"]) site.hear(line);
  return { site, sent };
}

test("a difference is what a user did", () => {
  assert.deepEqual(difference("abc", "abxc"), { head: 2, tail: 1 });
  assert.deepEqual(difference("abc", "ac", 1), { head: 1, tail: 1 });
  // Of two equal characters, the one before the cursor is new.
  assert.deepEqual(difference("aa", "aaa", 1), { head: 0, tail: 2 });
  assert.deepEqual(difference("aa", "aaa", 3), { head: 2, tail: 0 });
  assert.deepEqual(difference("", ""), { head: 0, tail: 0 });
  // Two characters whose first halves are equal differ as a whole, and so do two whose second halves are equal.
  assert.deepEqual(difference("\u{1f600}", "\u{1f601}"), { head: 0, tail: 0 });
  assert.deepEqual(difference("\u{1f600}", "\u{1fa00}"), { head: 0, tail: 0 });
});

test("a text has the characters that an area can show", () => {
  assert.equal(textOf(itemsOf("a\r\n\0\u{1f600}")), "a\u240d\n\u2400\u{1f600}");
  assert.deepEqual(scalarsOf("a\u{1f600}\ud800b"), [97, 0x1f600, 0xfffd, 98]);
});

test("an item is found from wherever the search begins", () => {
  const items = itemsOf("abcd");
  for (const near of [0, 1, 3, 4, 9]) assert.equal(placeOf(items, "0.3", near), 2);
  assert.equal(placeOf(items, "7.7", 1), -1);
  assert.equal(placeOf([], "0.1", 0), -1);
});

test("captions are read, and lines that are none are passed over", () => {
  const captions = readCaptions('1 "Shopping"\nnonsense\n1.2 "Who \\"brings\\" \\u{e9}"\n2 "\\\\"\n');
  assert.deepEqual([...captions], [["1", "Shopping"], ["1.2", 'Who "brings" \u00e9'], ["2", "\\"]]);
});

test("counts are words", () => {
  assert.deepEqual([counted(1, "edit"), counted(2000, "edit")], ["1 edit", "2,000 edits"]);
});

const textView = (site) => ({ win: 1, wid: 1, widget: site.board.widget(1, 1), nameOf: (name) => name });
const insertions = (text) => Array.from(text, (it) => ({ value: it.codePointAt(0) }));

function shownAfter(site, job) {
  while (!job.isDone) job.made(site.edit(job.next()));
  return textOf(site.board.widget(1, 1).items);
}

test("a job replaces items by a text of more than one edit", () => {
  const { site, sent } = joined(2, "window 1", "text 1", "char 0.1 97", "char 0.2 98", "char 0.3 99");
  const long = "0123456789".repeat(7);
  const job = new Job(textView(site), 1, "0.1", [{ name: "0.2" }, ...insertions(long)]);
  assert.equal(shownAfter(site, job), `a${long}c`);
  assert.equal(sent.length, 3);
});

test("a job goes on where others have moved and deleted its items", () => {
  const { site } = joined(2, "window 1", "text 1", "char 0.1 97", "char 0.2 98", "char 0.3 99");
  const job = new Job(textView(site), 1, "0.1", [{ name: "0.2" }, { name: "0.3" }, ...insertions("x")]);
  for (const line of ["batch 0 0 2", "do 1 1 text ins 0 3.1 62", "do 1 1 text del 2 0.2"]) site.hear(line);
  assert.equal(shownAfter(site, job), ">ax");
});

test("a job inserts where the item was that others have deleted", () => {
  const { site } = joined(2, "window 1", "text 1", "char 0.1 97", "char 0.2 98", "char 0.3 99");
  const job = new Job(textView(site), 2, "0.2", [{ name: "0.3" }, ...insertions("xy")]);
  for (const line of ["batch 0 0 1", "do 1 1 text del 1 0.2"]) site.hear(line);
  assert.equal(shownAfter(site, job), "axy");
});

test("a job deletes items in any order", () => {
  const { site, sent } = joined(2, "window 1", "text 1", "char 0.1 97", "char 0.2 98", "char 0.3 99", "char 0.4 100");
  const job = new Job(textView(site), 0, null, [{ name: "0.2" }, { name: "0.4" }, { name: "0.1" }, ...insertions("x")]);
  assert.equal(shownAfter(site, job), "xc");
  assert.deepEqual(sent, ["batch 0 0 4\ndo 1 1 text del 1 0.2\ndo 1 1 text del 2 0.4\ndo 1 1 text del 0 0.1\ndo 1 1 text ins 0 2.1 120\n"]);
});

test("a job fills a text, and leaves what has no room", () => {
  const lines = Array.from({ length: MOST_ITEMS - 3 }, (_, at) => `char 0.${at + 1} 97`);
  const { site } = joined(2, "window 1", "text 1", ...lines);
  const job = new Job(textView(site), MOST_ITEMS - 3, `0.${MOST_ITEMS - 3}`, insertions("12345"));
  job.made(site.edit(job.next()));
  assert.throws(() => site.edit(job.next()), { number: 6 });
  assert.equal(textOf(site.board.widget(1, 1).items.slice(-4)), "a123");
  assert.deepEqual(job.rest, [52, 53]);
});

test("a job makes again what the server has not taken", () => {
  const { site } = joined(2, "window 1", "text 1", "char 0.1 97", "char 0.2 98");
  const job = new Job(textView(site), 1, "0.1", [{ name: "0.2" }, ...insertions("0123456789".repeat(7))]);
  const { after } = job;
  const ops = site.edit(job.next());
  job.made(ops);
  const { after: second } = job;
  const more = site.edit(job.next());
  job.made(more);
  // A new site joins with the board that has the first edit alone.
  const { site: later } = joined(3, "window 1", "text 1", "char 0.1 97", ...ops.slice(1).map(({ name, value }) => `char ${name} ${value}`));
  job.view = textView(later);
  job.takeBack([{ ops: more, after: second }]);
  assert.equal(shownAfter(later, job), `a${"0123456789".repeat(7)}`);
  assert.equal(after, "0.1");
});

test("what a job has left is counted", () => {
  const { site } = joined(2, "window 1", "text 1", "char 0.1 97", "char 0.2 98");
  const job = new Job(textView(site), 1, "0.1", [{ name: "0.1" }, { name: "0.2" }, ...insertions("xyz")]);
  assert.deepEqual([job.deletions, job.rest], [2, [120, 121, 122]]);
});

test("a label has the signs of a keyboard", () => {
  assert.equal(plain("\u2018Ann\u2019s\u2019 \u201cbig\u201d \u2013 \u2014 wait\u2026\u00a0now"), "'Ann's' \"big\" - - wait... now");
  assert.equal(plain("K\u00e4se \u20ac"), "K\u00e4se \u20ac");
});

test("what can't be in a label is named", () => {
  assert.equal(faultOf("two loaves, 1.20 (brown) ~"), "");
  assert.equal(faultOf(""), "");
  assert.match(faultOf("K\u00e4se"), /\u201c\u00e4\u201d/);
  // A letter and its accent are one, and so is a family.
  assert.match(faultOf("e\u0301"), /\u201ce\u0301\u201d/);
  assert.match(faultOf("\u{1f468}\u200d\u{1f469}\u200d\u{1f467}"), /\u201c\u{1f468}\u200d\u{1f469}\u200d\u{1f467}\u201d/u);
  assert.equal(faultOf("x".repeat(48)), "");
  assert.equal(faultOf("x".repeat(49)), "49 of 48 characters");
});

test("lines become items", () => {
  assert.deepEqual(linesOf("  milk \r\n\r\n\u201ceggs\u201d\n \ntea"), ["milk", '"eggs"', "tea"]);
});

test("two changes of one label", () => {
  assert.equal(merged("bread", "bread, the brown one", "two loaves of bread"), "two loaves of bread, the brown one");
  assert.equal(merged("bread", "two loaves of bread", "bread, the brown one"), "two loaves of bread, the brown one");
  assert.equal(merged("bread", "rolls", "bread"), "rolls");
  assert.equal(merged("bread", "bread", "rolls"), "rolls");
  assert.equal(merged("bread", "rolls", "rolls"), "rolls");
  // Both at one place, one within the other, and one that takes all away.
  assert.equal(merged("bread", "breads", "bread!"), null);
  assert.equal(merged("bread", "rolls", "brown bread"), null);
  assert.equal(merged("bread", "", "bread!"), null);
  assert.equal(merged("ab", "a", "b"), null);
  assert.equal(merged("ab", "", "ab"), "");
  // Two that touch, and take away something each.
  assert.equal(merged("milk 1 l", "milk 2 l", "oat milk 1 l"), "oat milk 2 l");
  assert.equal(merged("abcd", "Xcd", "abY"), "XY");
});

test("two changes of one label at random: both orders give one label, and all that both typed is in it", () => {
  let state = 7;
  const random = (end) => (state = (Math.imul(state, 1664525) + 1013904223) >>> 0, Math.floor((state / 4294967296) * end));
  const count = (text, letter) => text.split(letter).length;
  let both = 0;
  for (let i = 0; i < 20000; i++) {
    const base = Array.from({ length: 2 + random(10) }, () => "ab "[random(3)]).join("");
    const change = (letter) => {
      const start = random(base.length + 1);
      return base.slice(0, start) + letter.repeat(random(4)) + base.slice(start + random(base.length - start + 1));
    };
    const [mine, theirs] = [change("X"), change("Y")];
    const label = merged(base, mine, theirs);
    assert.equal(label, merged(base, theirs, mine));
    if (label === null) continue;
    both += 1;
    assert.equal(count(label, "X"), count(mine, "X"));
    assert.equal(count(label, "Y"), count(theirs, "Y"));
  }
  assert.ok(both > 5000);
});

test("a label of others that this site's own replaces is told once, with what both changed and the step", () => {
  const relabels = new Relabels();
  const [one, other] = [{}, {}];
  relabels.made("0.1", 0, "bread", one);
  relabels.made("0.1", 3, "rolls", other);
  const tells = (race, base, step) => assert.ok(race?.base === base && race.step === step, JSON.stringify(race));
  // The server had none of this site's edits, and then the first three.
  tells(relabels.came("0.1", "brown bread", 0), "bread", one);
  tells(relabels.came("0.1", "white bread", 0), "brown bread", one);
  tells(relabels.came("0.1", "rye", 3), "rolls", other);
  assert.equal(relabels.came("0.1", "oats", 4), null);
  assert.equal(relabels.came("0.2", "milk", 0), null);
});

test("a label goes with an item that is moved, and is forgotten once an undo has taken it back", () => {
  const relabels = new Relabels();
  relabels.made("0.1", 0, "bread", {});
  relabels.rename("0.1", "1.5");
  assert.equal(relabels.isOpen("0.1", 0), false);
  assert.equal(relabels.came("1.5", "brown bread", 0)?.base, "bread");
  relabels.forget("1.5");
  assert.equal(relabels.came("1.5", "white bread", 0), null);
});

test("labels that the server has taken are forgotten", () => {
  const relabels = new Relabels();
  relabels.made("0.1", 0, "bread");
  relabels.made("0.2", 1, "milk");
  relabels.confirmed(1);
  assert.deepEqual([relabels.isOpen("0.1", 0), relabels.isOpen("0.2", 0), relabels.isOpen("0.2", 2)], [false, true, false]);
});

const WHOLE = ["window 1", "text 1", "char 0.1 72", "char 0.2 10", "char 0.3 233", "char 0.4 34", "list 2", 'item 0.5 "x" \\ y', "item 0.6 tea", "toggle 3 on", "slider 4 -5 10 7", "window 9", "text 1"];

test("a board is a file", () => {
  const board = boardOf(...WHOLE);
  const captionOf = (key, kind) => ({ 1: "Party", "1.1": "Notes" })[key] ?? `${kind ?? "Window"} ${key}`;
  assert.equal(asText(board, captionOf), 'Party\n=====\n\nNotes:\nH\n\u00e9"\n\nlist 1.2:\n- "x" \\ y\n- tea\n\ntoggle 1.3: on\n\nslider 1.4: 7\n\nWindow 9\n========\n\ntext 9.1:\n\n');
  assert.equal(asPrinted(board), 'window 1\ntext 1 "H\\u{a}\\u{e9}\\""\nlist 2 "\\"x\\" \\\\ y" "tea"\ntoggle 3 on\nslider 4 -5 10 7\nwindow 9\ntext 1 ""\n');
  const { windows } = JSON.parse(asJson(board, captionOf));
  assert.deepEqual(windows.map(({ id, caption }) => [id, caption]), [[1, "Party"], [9, "Window 9"]]);
  assert.deepEqual(windows[0].widgets, [
    { id: 1, kind: "text", caption: "Notes", value: 'H\n\u00e9"' },
    { id: 2, kind: "list", caption: "list 1.2", items: ['"x" \\ y', "tea"] },
    { id: 3, kind: "toggle", caption: "toggle 1.3", value: true },
    { id: 4, kind: "slider", caption: "slider 1.4", low: -5, high: 10, value: 7 },
  ]);
});

test("a text and a list are copied as they are", () => {
  const board = boardOf(...WHOLE);
  assert.deepEqual([copyOf(board.widget(1, 1)), copyOf(board.widget(1, 2))], ['H\n\u00e9"', '"x" \\ y\ntea']);
});

test("a board of the same run has items of the sites that were", () => {
  const old = { site: 3, board: boardOf("window 1", "text 1", "char 0.1 97", "char 2.1 98") };
  assert.ok(isSameRun(old, { site: 4, board: old.board }));
  // The numbers of sites have begun again.
  assert.ok(!isSameRun(old, { site: 3, board: old.board }));
  // They have not, but the items have new names.
  assert.ok(!isSameRun(old, { site: 9, board: boardOf("window 1", "text 1", "char 0.1 97", "char 0.2 98") }));
});

test("edits before one that the board shows were taken", () => {
  const typed = (number) => [{ win: 1, wid: 1, kind: "text", verb: "ins", place: 0, name: `3.${number}`, value: 97 + number }];
  const edits = [typed(1), typed(2), typed(3)];
  assert.deepEqual(missing(edits, 3, boardOf("window 1", "text 1", "char 3.2 99")), [edits[2]]);
  assert.deepEqual(missing(edits, 3, boardOf("window 1", "text 1")), edits);
  // Another site had this number, and typed something else.
  assert.deepEqual(missing(edits, 3, boardOf("window 1", "text 1", "char 3.2 120")), edits);
});

test("after another run a widget that shows the same lacks nothing", () => {
  const old = boardOf("window 1", "text 1", "char 3.1 97", "toggle 2 on");
  const edits = [[{ win: 1, wid: 1, verb: "ins", name: "3.1" }, { win: 1, wid: 2, verb: "set", value: true }]];
  assert.deepEqual(maybeMissing(edits, old, boardOf("window 1", "text 1", "char 0.1 97", "toggle 2 off")), [[edits[0][1]]]);
  assert.deepEqual(maybeMissing(edits, old, boardOf("window 2")), edits);
});

test("after another run a text lacks only what it does not show", () => {
  const old = boardOf("window 1", "text 1", "char 0.1 97", "char 3.1 98", "char 3.2 99", "char 0.2 100");
  const typed = (number) => ({ win: 1, wid: 1, kind: "text", verb: "ins", name: `3.${number}` });
  // The new text is "abd": it has the "b" already.
  const now = boardOf("window 1", "text 1", "char 0.1 97", "char 0.2 98", "char 0.3 100");
  assert.deepEqual(maybeMissing([[typed(1)], [typed(2)]], old, now), [[], [typed(2)]]);
});

test("after another run a list lacks only labels that it does not have", () => {
  const old = boardOf("window 1", "list 1", "item 3.1 milk", "item 3.2 tea");
  const added = (number) => ({ win: 1, wid: 1, kind: "list", verb: "ins", name: `3.${number}` });
  assert.deepEqual(maybeMissing([[added(1), added(2)]], old, boardOf("window 1", "list 1", "item 0.1 milk")), [[added(2)]]);
});

test("what is missing is offered in words", () => {
  const { site } = joined(3, "window 1", "text 1", "char 0.1 97", "char 0.2 98", "list 2", "item 0.3 milk", "item 0.4 eggs", "toggle 3 off", "slider 4 0 10 5");
  const at = (wid, command) => ({ win: 1, wid, ...command });
  const edits = [
    [at(1, { verb: "ins", place: 0, value: 120 }), at(1, { verb: "ins", place: 3, value: 121 }), at(1, { verb: "del", place: 1 })],
    // What it inserted and deleted again counts for nothing.
    [at(1, { verb: "ins", place: 0, value: 122 }), at(1, { verb: "del", place: 0 })],
    [at(2, { verb: "rel", place: 0, value: "oat milk" }), at(2, { verb: "rel", place: 1, value: "egg" }), at(2, { verb: "del", place: 1 }), at(2, { verb: "ins", place: 1, value: "tea" })],
    [at(3, { verb: "set", value: true }), at(4, { verb: "set", value: 7 })],
  ].map((commands) => site.edit(commands));
  const words = wordsOf(edits, site.board, new Map([["1.1", { rest: [33], deletions: 2 }]]));
  assert.deepEqual(Object.fromEntries(words), { "1.1": "x\ny!\n(3 characters deleted)", "1.2": "oat milk\ntea\n(1 item deleted)", "1.3": "on", "1.4": "7" });
});
