// What a server may not have taken, found again as text to copy.
import { counted, difference, grouped, keyOf, shownAs, textOf } from "./texts.js";

export const isOf = (site, name) => name.startsWith(`${site}.`);

// The items of a board by their widgets and names.
export function* itemsOf(board) {
  for (const [win, widgets] of board.windows) {
    for (const [wid, { items }] of widgets) for (const item of items ?? []) yield [`${win}.${wid} ${item.name}`, item];
  }
}

// Whether a board that came later is of the same run of the server. A server that starts again gives the numbers of sites from 1 on,
// and its board has no item of a site.
export function isSameRun(old, now) {
  if (now.site <= old.site) return false;
  const names = new Set();
  for (const [at, { name }] of itemsOf(old.board)) if (!isOf(0, name)) names.add(at);
  if (names.size === 0) return true;
  for (const [at] of itemsOf(now.board)) if (names.has(at)) return true;
  return false;
}

// The edits that a later board of the same run does not show to be taken. A server takes the edits of a site in order.
export function missing(edits, site, board) {
  const values = new Map();
  for (const [at, { name, value }] of itemsOf(board)) if (isOf(site, name)) values.set(at, value);
  const isThere = (op) => op.verb === "ins" && values.get(`${keyOf(op)} ${op.name}`) === op.value;
  return edits.slice(1 + edits.findLastIndex((ops) => ops.some(isThere)));
}

// The edits of a killed server's site that a board of its next run may lack. A widget that shows the same as before lacks nothing, and one
// that shows less lacks only what it does not show.
export function maybeMissing(edits, old, now) {
  const tests = new Map();
  const isLacking = (op) => {
    if (!tests.has(keyOf(op))) tests.set(keyOf(op), lackOf(old.widget(op.win, op.wid), now.widget(op.win, op.wid)));
    return tests.get(keyOf(op))(op);
  };
  return edits.map((ops) => ops.filter(isLacking));
}

// Tests whether an operation on a widget may be lacking in what the widget is now.
function lackOf(was, is) {
  if (was.kind !== is?.kind) return () => true;
  if (was.kind === "text") return lackOfText(was, is);
  if (was.kind !== "list") return () => was.value !== is.value;
  const [before, labels] = [was.items.map(({ value }) => value), is.items.map(({ value }) => value)];
  if (JSON.stringify(before) === JSON.stringify(labels)) return () => false;
  const lacking = new Set(was.items.filter(({ value }) => !labels.includes(value)).map(({ name }) => name));
  return ({ verb, name }) => verb === "del" || lacking.has(name);
}

function lackOfText(was, is) {
  const [before, shown] = [textOf(was.items), textOf(is.items)];
  if (before === shown) return () => false;
  const { head, tail } = difference(before, shown);
  const names = new Set();
  let offset = 0;
  for (const { name, value } of was.items) {
    if (offset >= head && offset < before.length - tail) names.add(name);
    offset += shownAs(value).length;
  }
  return ({ verb, name }) => verb === "del" || names.has(name);
}

// What the edits did, in words, by the keys of the widgets. `board` is the one that they were made on, and `rests` maps the key of a text
// to a job on it that has steps to go.
export function wordsOf(edits, board, rests = new Map()) {
  const touched = new Map([...Array.from(rests.keys(), (it) => [it, []]), ...grouped(edits.flat(), keyOf)]);
  const words = new Map();
  for (const [it, ops] of touched) {
    const found = widgetWords(board.widget(...it.split(".").map(Number)), ops, rests.get(it));
    if (found !== "") words.set(it, found);
  }
  return words;
}

function widgetWords(widget, ops, job) {
  if (widget.kind === "toggle") return ops.at(-1).value ? "on" : "off";
  if (widget.kind === "slider") return String(ops.at(-1).value);
  const namesOf = (...verbs) => new Set(ops.filter((op) => verbs.includes(op.verb)).map((op) => op.name));
  const made = namesOf("ins", "rel");
  const own = namesOf("ins");
  const gone = [...namesOf("del")].filter((name) => !own.has(name)).length + (job?.deletions ?? 0);
  const lines = widget.kind === "list" ? widget.items.filter((it) => made.has(it.name)).map((it) => it.value) : runsOf(widget.items, made);
  if (job?.rest.length > 0) lines.push((lines.pop() ?? "") + job.rest.map(shownAs).join(""));
  if (gone > 0) lines.push(`(${counted(gone, widget.kind === "list" ? "item" : "character")} deleted)`);
  return lines.join("\n");
}

// The characters of these names, each run of neighbours as one text.
function runsOf(items, names) {
  const runs = [];
  items.forEach((item, at) => {
    if (!names.has(item.name)) return;
    if (at > 0 && names.has(items[at - 1].name)) runs.at(-1).push(item);
    else runs.push([item]);
  });
  return runs.map(textOf);
}
