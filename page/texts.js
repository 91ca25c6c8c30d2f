// Texts: as a text area shows them, what has changed in one, and what the page says. Nothing here needs a page.
import { FAULT, isScalar } from "./core.js";

// The key of the widget that something is about.
export const keyOf = ({ win, wid }) => `${win}.${wid}`;

// Things by their keys.
export function grouped(things, keyOf) {
  const groups = new Map();
  for (const it of things) {
    const key = keyOf(it);
    if (!groups.has(key)) groups.set(key, []);
    groups.get(key).push(it);
  }
  return groups;
}

// What a text area shows for a character. It would make a line feed of a carriage return, so that is shown by its picture.
export const shownAs = (value) => (value === 13 ? "\u240d" : value === 0 ? "\u2400" : String.fromCodePoint(value));

export function textOf(items) {
  let text = "";
  for (const { value } of items) text += shownAs(value);
  return text;
}

// The characters of a text as scalars of Unicode. Half a character, which JavaScript can hold, becomes U+FFFD.
export const scalarsOf = (text) => Array.from(text, (it) => (isScalar(it.codePointAt(0)) ? it.codePointAt(0) : 0xfffd));

const isFirstHalf = (code) => code >= 0xd800 && code < 0xdc00;
const isSecondHalf = (code) => code >= 0xdc00 && code < 0xe000;

// How much two texts share in front (`head`) and at the end (`tail`). Of equal characters, those before the cursor count as the new ones.
export function difference(was, is, cursor = is.length) {
  const shortest = Math.min(was.length, is.length);
  const atEnd = (most, from) => {
    let count = from;
    while (count < most && was.charCodeAt(was.length - 1 - count) === is.charCodeAt(is.length - 1 - count)) count += 1;
    return count;
  };
  let tail = atEnd(Math.min(shortest, is.length - cursor), 0);
  let head = 0;
  while (head < shortest - tail && was.charCodeAt(head) === is.charCodeAt(head)) head += 1;
  tail = atEnd(shortest - head, tail);
  if (head > 0 && isFirstHalf(was.charCodeAt(head - 1))) head -= 1;
  if (tail > 0 && isSecondHalf(was.charCodeAt(was.length - tail))) tail -= 1;
  return { head, tail };
}

// The place of an item by its name, or -1. The search begins at a place near which the item probably is.
export function placeOf(items, name, near) {
  const from = Math.min(near, items.length);
  for (let away = 0; away <= items.length; away++) {
    if (items[from + away]?.name === name) return from + away;
    if (items[from - away]?.name === name) return from - away;
  }
  return -1;
}

// The captions of windows and widgets, by "1" or "1.2", from lines like `1.2 "Who brings what"`.
export function readCaptions(text) {
  const captions = new Map();
  for (const [, key, quoted] of text.matchAll(/^(\d+(?:\.\d+)?) "(.*)"$/gm)) {
    captions.set(key, quoted.replace(/\\u\{(\w{1,6})\}|\\(.)/g, (_, hex, plain) => plain ?? shownAs(Number.parseInt(hex, 16))));
  }
  return captions;
}

export const counted = (count, thing) => `${count.toLocaleString("en")} ${thing}${count === 1 ? "" : "s"}`;

export const UNSENT = "You typed this here, and it was not sent.";

const REASONS = {
  [FAULT.LongText]: "A text or a list has at most 65,536 items.",
  [FAULT.Backlog]: "Too much waits for the server. Try again in a moment.",
  [FAULT.NoMemory]: "The server is out of memory.",
  [FAULT.Spent]: "The board takes no more edits. You can still read it.",
  [FAULT.Full]: "64 others are connected, and no more can be. This page joins when one has left.",
  [FAULT.SitesSpent]: "The server has no number left for a new connection. It has to be started again.",
  [FAULT.LogFull]: "The board takes no more edits. You can still read it.",
};

// What a fault means to the person before the page.
export const reasonOf = (number) => REASONS[number] ?? `The server and this page did not understand each other (fault ${number}).`;
