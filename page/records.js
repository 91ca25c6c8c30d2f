// What a page keeps of its edits that the server may not have taken, so that a later page can make them. Nothing here needs a page.
import { Board } from "./core.js";
import { copyOf } from "./files.js";
import { isOf, itemsOf, missing, wordsOf } from "./lost.js";
import { keyOf } from "./texts.js";
import { Undo } from "./undo.js";

// The edits of another version are not read.
export const VERSION = 1;

// The part of a record that has edits of a site. Each edit has its `ops`, and its `took` as `applyAll` of a board returned it. `words` is
// for people, and for pages of another version.
export function partOf(site, edits) {
  const all = edits.map(({ ops }) => ops);
  return {
    version: VERSION,
    site: site.site,
    edits: `[${edits.map((it) => (it.row ??= rowOf(it.took)))}]`,
    widgets: Array.from(new Set(all.flat().map(keyOf)), (key) => widgetOf(site.board, ...key.split(".").map(Number))),
    words: [...wordsOf(all, site.board)],
  };
}

const rowOf = (took) => JSON.stringify(took.map(({ op: { win, wid, verb, name, value }, value: before, left }) => [win, wid, verb, name, value, before, left]));

function readRow(row, board) {
  return row.map(([win, wid, verb, name, value, before, left]) => ({ op: { win, wid, kind: board.widget(win, wid).kind, verb, name: name ?? undefined, value }, value: before, left }));
}

function widgetOf(board, win, wid) {
  const widget = board.widget(win, wid);
  return { win, wid, kind: widget.kind, runs: widget.items && runsOfNames(widget.items), text: widget.kind === "text" ? copyOf(widget) : "" };
}

// The names of items, as runs: a site, the number of the first name, and how many there are.
function runsOfNames(items) {
  const runs = [];
  for (const { name } of items) {
    const [site, number] = name.split(".").map(Number);
    const last = runs.at(-1);
    if (last?.[0] === site && last[1] + last[2] === number) last[2] += 1;
    else runs.push([site, number, 1]);
  }
  return runs;
}

// The widgets as they were. Items of a list have no labels.
function boardOf(widgets) {
  const board = new Board();
  for (const { win, wid, kind, runs, text } of widgets) {
    const values = Array.from(text, (it) => it.codePointAt(0));
    const names = runs?.flatMap(([site, first, count]) => Array.from({ length: count }, (_, at) => `${site}.${first + at}`));
    if (!board.windows.has(win)) board.windows.set(win, new Map());
    board.windows.get(win).set(wid, { kind, items: names?.map((name, at) => ({ name, value: values[at] })) });
  }
  return board;
}

// What a record has that the board of a site lacks, as an undo that is torn: it makes that again. It is null if the record is of another
// version, or the board of another run of the server.
export function undoOf(record, site) {
  if (record.version !== VERSION) return null;
  const old = boardOf(record.widgets);
  const edits = JSON.parse(record.edits).map((row) => readRow(row, old));
  const all = edits.map((took) => took.map(({ op }) => op));
  if (!isOfRun(record, old, all.flat(), site)) return null;
  const undo = new Undo();
  edits.forEach((took, nth) => undo.note({ took, nth }, record));
  undo.rejoin(old, site.board, all.length - missing(all, record.site, site.board).length);
  return undo;
}

// Whether a board is of the run in which a record was made. Another run gives the numbers of sites again, and so the names of items. Then a
// character of that name differs, or an item has the record's site in its name and is not of it.
function isOfRun(record, old, ops, { site, board }) {
  const isThere = ({ win, wid, kind }) => board.widget(win, wid)?.kind === kind;
  if (site <= record.site || !record.widgets.every(isThere)) return false;
  const keys = new Set(record.widgets.map(keyOf));
  const made = new Set(ops.map((op) => `${keyOf(op)} ${op.name}`));
  const [was, is] = [old, board].map((it) => new Map(itemsOf(it)));
  const isUnknown = (at, name) => isOf(record.site, name) && !made.has(at) && keys.has(at.split(" ")[0]);
  const isStrange = ([at, { name, value }]) => (was.has(at) ? (was.get(at).value ?? value) !== value : isUnknown(at, name));
  const others = [...was.keys()].filter((at) => !made.has(at) && !at.includes(" 0."));
  return (others.length === 0 || others.some((at) => is.has(at))) && ![...is].some(isStrange);
}
