// Labels of lists: what can be one, and what becomes of one that two people change. Nothing here needs a page.
import { MOST_LETTERS, isLabel } from "./core.js";
import { difference } from "./texts.js";

// What keyboards make of plain characters, and the plain ones.
const PLAIN = [
  [/[\u2018-\u201b\u2032]/g, "'"],
  [/[\u201c-\u201f\u2033]/g, '"'],
  [/[\u2010-\u2015\u2212]/g, "-"],
  [/\u2026/g, "..."],
  [/[\t\u00a0\u2007-\u200a\u202f]/g, " "],
];

// A text with plain quotes, dashes, dots and spaces in place of typographic ones.
export const plain = (text) => PLAIN.reduce((it, [shape, by]) => it.replace(shape, by), text);

// What keeps a text from being a label, in words. Of an empty text, and of a label, it is "".
export function faultOf(text) {
  const letters = Array.from(new Intl.Segmenter().segment(text), ({ segment }) => segment);
  const other = letters.find((it) => !isLabel(it));
  if (other !== undefined) return `An item can\u2019t have \u201c${other}\u201d. It takes letters without accents, digits, spaces and the signs of a keyboard.`;
  return text.length > MOST_LETTERS ? `${text.length} of ${MOST_LETTERS} characters` : "";
}

// The lines of a text that several items can be made of, each without spaces at its ends.
export const linesOf = (text) => plain(text).split(/[\r\n]+/).map((it) => it.trim()).filter((it) => it !== "");

// The label that has the changes of both, or null if they changed one place, or took all away together. Both began with `base`.
export function merged(base, mine, theirs) {
  if (mine === theirs || theirs === base) return mine;
  if (mine === base) return theirs;
  const [first, second] = [changeOf(base, mine), changeOf(base, theirs)].sort((one, other) => one.start - other.start || one.end - other.end);
  return isBefore(first, second) ? put(put(base, second), first) || null : null;
}

function changeOf(base, now) {
  const { head, tail } = difference(base, now);
  return { start: head, end: base.length - tail, text: now.slice(head, now.length - tail) };
}

// Two changes that touch are apart only if both take something away. Else nobody can tell whose text comes first.
function isBefore(one, other) {
  return one.end < other.start || (one.end === other.start && one.end > one.start && other.end > other.start);
}

const put = (text, { start, end, text: it }) => text.slice(0, start) + it + text.slice(end);

// Relabels of this site that the server may not have taken. If others relabel such an item meanwhile, the server lets this site's label
// stand. So this site alone can tell that theirs is lost.
export class Relabels {
  #open = new Map(); // by the name of an item: the edits' numbers, from 0 on, and the label `before` each

  // `step` is what an undo knows the relabel by.
  made(name, number, before, step) {
    this.#open.set(name, [...(this.#open.get(name) ?? []), { number, before, step }]);
  }

  // The item has another name now.
  rename(old, name) {
    if (this.#open.has(old)) this.#open.set(name, this.#open.get(old));
    this.#open.delete(old);
  }

  // What was sent of an item is not the user's label any more.
  forget(name) {
    this.#open.delete(name);
  }

  // The server has taken so many edits for certain.
  confirmed(count) {
    for (const name of this.#open.keys()) this.#later(name, count);
  }

  // Others relabelled an item before the server had more than `heard` edits of this site. Returns the label that both sides changed
  // (`base`) and the step, or null if this site has not. From then on it is theirs that this site's label stands on.
  came(name, theirs, heard) {
    const [first] = this.#later(name, heard);
    if (!first) return null;
    const { before: base, step } = first;
    first.before = theirs;
    return { base, step };
  }

  isOpen(name, heard) {
    return this.#later(name, heard).length > 0;
  }

  #later(name, count) {
    const open = (this.#open.get(name) ?? []).filter(({ number }) => number >= count);
    if (open.length > 0) this.#open.set(name, open);
    else this.#open.delete(name);
    return open;
  }
}
