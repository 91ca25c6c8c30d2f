// The view of a list.
import { MOST_OPERATIONS } from "./core.js";
import { Relabels, faultOf, linesOf } from "./labels.js";
import { Foot } from "./list_foot.js";
import { Row } from "./list_row.js";
import { counted, placeOf } from "./texts.js";
import { View, arrange, flash, make } from "./view.js";

// For how many milliseconds a press may be meant for what was there before others moved it.
const MOVED = 500;
const ARROWS = { ArrowUp: -1, ArrowDown: 1 };

export class ListView extends View {
  #rows = new Map(); // by the names of their items
  #shown = []; // all rows in their order, also those of items that others have deleted
  #relabels = new Relabels();
  #isOpen = true;
  #count = 0; // how many rows were made
  #isVoid = false; // whether the press that goes on does nothing

  constructor(...given) {
    super(...given);
    this.name.id = `${this.id}-caption`;
    this.list = make("ol", { role: "list", tabIndex: -1, "aria-labelledby": this.name.id });
    this.foot = new Foot(this, this.id);
    this.element = make("div", { className: "widget", role: "group", "aria-labelledby": this.name.id, keydown: (event) => event.isComposing || this.#key(event) },
      this.head(this.name, this.copy), this.list, this.foot.element);
    for (const kind of ["mousedown", "click"]) this.element.addEventListener(kind, (event) => this.#guard(event), true);
    this.named();
    this.draw();
  }

  named() {
    super.named();
    this.foot.named(this.name.textContent);
  }

  setOpen(isOpen) {
    this.#isOpen = isOpen;
    for (const it of [...this.#shown, this.foot]) it.setOpen(isOpen);
  }

  // ---- What others do ----

  // Edits are counted from the first again.
  rebind(widget, isSame) {
    this.#relabels = new Relabels();
    super.rebind(widget, isSame);
  }

  // Each row goes to the item at its place. A draft stays, and goes only to an item with the label that it began with.
  forgetNames() {
    const { items } = this.widget;
    this.#rows = new Map();
    this.#shown.filter((row) => !row.isGhost).forEach((row, at) => {
      const item = items[at];
      if (item && (!row.isDraft || item.value === row.label)) this.#rows.set(item.name, Object.assign(row, { name: item.name }));
      else this.#lose(row);
    });
  }

  // An edit of others came with this operation, when the server had `heard` edits of this page.
  came({ verb, name, value }, heard) {
    const now = this.nameOf(name);
    const row = this.#rows.get(name) ?? this.#rows.get(now);
    if (!row) return;
    if (verb === "del") this.#follows(row, now);
    if (verb === "del" && row.name === name && this.#relabels.isOpen(name, heard)) row.loses();
    const race = verb === "rel" ? this.#relabels.came(row.name, value, heard) : null;
    if (race !== null) row.races(race.base, value, race.step);
  }

  // Rows go with their items to the names that these have now.
  follow() {
    for (const row of [...this.#rows.values()]) if (!this.widget.names.has(row.name)) this.#follows(row, this.nameOf(row.name));
  }

  #follows(row, name) {
    const { names } = this.widget;
    if (!names.has(row.name) && names.has(name)) this.#rename(row, name);
  }

  // Of two rows of one item, one with the cursor or a draft stays.
  #rename(row, name) {
    const other = this.#rows.get(name);
    this.#relabels.rename(row.name, name);
    if (other?.isKept && !row.isKept) return this.#lose(row);
    if (other) this.#lose(other);
    this.#rows.delete(row.name);
    this.#rows.set(name, Object.assign(row, { name }));
  }

  tookBack(ops) {
    super.tookBack();
    this.follow();
    for (const { verb, name, value } of ops) {
      this.#relabels.forget(name);
      if (verb === "rel") this.#rows.get(name)?.putBack(value);
      if (verb === "del") this.#rows.get(name)?.isTakenAway();
    }
  }

  reveal(name) {
    this.update();
    const element = this.#rows.get(name)?.element ?? this.element;
    element.scrollIntoView({ block: "nearest" });
    flash(element);
  }

  drops(field) {
    const it = [...this.#shown, this.foot].find((draft) => draft.field === field && draft.isDraft);
    it?.takeBack();
    return it !== undefined;
  }

  confirmed(count) {
    this.#relabels.confirmed(count);
  }

  draw() {
    const { items, names } = this.widget;
    const [before, height] = [this.#shown, this.isChanged ? this.list.offsetHeight : 0];
    for (const row of before) if (!row.isGhost && !names.has(row.name)) this.#lose(row);
    for (const item of items) (this.#rows.get(item.name) ?? this.#make(item)).show(item.value);
    this.#shown = this.#order(items);
    this.#keepFocus(before);
    arrange(this.list, this.#shown.map(({ element }) => element));
    if (this.isChanged) this.#moved(before, height);
  }

  #make(item) {
    this.#count += 1;
    const row = new Row(this, `${this.id}-hint-${this.#count}`, item);
    row.setOpen(this.#isOpen);
    this.#rows.set(item.name, row);
    return row;
  }

  // The item of a row is gone.
  #lose(row) {
    this.#rows.delete(row.name);
    if (row.isKept) row.outlive();
    else row.forget();
  }

  // The rows of the items, in order. A row without an item stays after the one that it was after.
  #order(items) {
    const behind = new Map([[null, []]]);
    let last = null;
    for (const row of this.#shown) {
      if (row.isGhost) behind.get(last).push(row);
      else if (this.#rows.get(row.name) === row) behind.set((last = row), []);
    }
    return [...behind.get(null), ...items.map(({ name }) => this.#rows.get(name)).flatMap((row) => [row, ...(behind.get(row) ?? [])])];
  }

  // The focus goes from a row that is taken away to the row after it, but into no field and onto no button.
  #keepFocus(before) {
    const at = before.findIndex(({ element }) => element.contains(document.activeElement));
    if (at < 0 || this.#shown.includes(before[at])) return;
    const next = [...before.slice(at + 1), ...before.slice(0, at).reverse()].find((row) => this.#shown.includes(row));
    (next?.element ?? this.list).focus();
  }

  #moved(before, height) {
    const first = this.#shown.findIndex((row, at) => row !== before[at]);
    const isSame = first < 0 && this.#shown.length === before.length;
    if (isSame && this.list.offsetHeight === height) return;
    const moved = isSame || first >= 0 ? this.#shown.slice(Math.max(first, 0)) : [];
    for (const it of [...moved, this.foot]) it.movedAt = performance.now();
  }

  // A press hits what was there when others moved it, or nothing, and so does the second of a double click on a button. A key hits what
  // has the focus.
  #guard(event) {
    if (event.detail === 0) return;
    const hit = [...this.#shown, this.foot].find(({ element }) => element.contains(event.target));
    const isSecond = event.detail > 1 && event.target.closest("button") !== null;
    if (event.type === "mousedown") this.#isVoid = isSecond || (hit !== undefined && this.hasJustMoved(hit));
    if (!this.#isVoid) return;
    event.preventDefault();
    event.stopPropagation();
    if (!isSecond) flash(hit.element);
  }

  // Whether others moved a row a moment ago.
  hasJustMoved(row) {
    return performance.now() - row.movedAt < MOVED;
  }

  // ---- What the user does ----

  // The label of a row's item, if that is there.
  labelOf({ name }) {
    const { items } = this.widget;
    return items[placeOf(items, name, 0)]?.value;
  }

  // A label that a race made of the user's belongs to the same `step`.
  relabel(row, label, step = {}) {
    const place = placeOf(this.widget.items, row.name, 0);
    const before = this.widget.items[place]?.value;
    if (place < 0 || !this.edit([{ verb: "rel", place, value: label }], step)) return false;
    this.#relabels.made(row.name, this.page.editCount - 1, before, step);
    row.show(label);
    return true;
  }

  // Moves an item up (-1) or down (1) by one.
  #moveBy(row, way) {
    const place = placeOf(this.widget.items, row.name, 0);
    if (place >= 0) this.#move(row, place, place + way);
  }

  // Moves an item to below the last of these rows whose item is still there, or to the front.
  moveBelow(row, rows) {
    const { items, names } = this.widget;
    const last = rows.findLast((it) => it !== row && names.has(it.name));
    const place = placeOf(items, row.name, 0);
    const at = last ? placeOf(items, last.name, 0) : -1;
    if (place >= 0) this.#move(row, place, at < place ? at + 1 : at);
  }

  // Moves an item from one place to another, which is counted without it.
  #move(row, place, to) {
    const { items } = this.widget;
    const { value } = items[place];
    const ops = place !== to && items[to] ? this.edit([{ verb: "del", place }, { verb: "ins", place: to, value }]) : null;
    if (ops !== null) this.#rename(row, ops[1].name);
    this.draw();
    row.element.scrollIntoView({ block: "nearest" });
    this.page.say("move", `${value}, ${placeOf(items, row.name, to) + 1} of ${items.length}`);
  }

  // The rows above a height of the window.
  rowsAbove(height) {
    const middle = ({ element }) => element.getBoundingClientRect().top + element.offsetHeight / 2;
    return this.#shown.slice(0, 1 + this.#shown.findLastIndex((row) => middle(row) < height));
  }

  // Shows that a row would land below the last of these, or in front if there are none.
  markLanding(rows) {
    for (const row of this.#shown) row.element.classList.toggle("lands", row === rows?.at(-1));
    this.list.classList.toggle("lands", rows?.length === 0);
  }

  // Deletes an item. Returns where it was, or -1 if it is still there.
  remove(row) {
    const place = placeOf(this.widget.items, row.name, 0);
    if (place < 0 || !this.edit([{ verb: "del", place }])) return -1;
    row.forget();
    this.draw();
    return place;
  }

  // Deletes an item whose label the user has taken away.
  removeEmptied(row) {
    const { label } = row;
    const place = this.remove(row);
    if (place >= 0) this.page.notices.add({ view: this, words: `\u201c${label}\u201d is deleted, since you emptied it.`, choices: { "Add it again": () => this.#insert(place, [label]) } });
  }

  // Takes away a row whose item is gone.
  drop(row) {
    row.forget();
    this.draw();
  }

  // Makes an item of a row whose item is gone.
  addAgain(row, label) {
    const before = this.#shown.slice(0, this.#shown.indexOf(row)).findLast((it) => !it.isGhost);
    const ops = this.edit([{ verb: "ins", place: before ? placeOf(this.widget.items, before.name, 0) + 1 : 0, value: label }]);
    if (!ops) return false;
    Object.assign(row, { name: ops[0].name, label, isGhost: false });
    this.#rows.set(row.name, row);
    this.draw();
    return true;
  }

  // Several lines that are pasted become an item each. The first stays in the field of a row.
  pasted(event, field, row) {
    const text = event.clipboardData.getData("text/plain");
    const lines = linesOf(field.value.slice(0, field.selectionStart) + text + field.value.slice(field.selectionEnd));
    if (lines.length < 2 || field.readOnly) return;
    event.preventDefault();
    field.value = row ? lines.shift() : "";
    field.dispatchEvent(new InputEvent("input"));
    this.#insert(row && !row.isGhost ? placeOf(this.widget.items, row.name, 0) + 1 : this.widget.items.length, lines);
  }

  // Inserts labels. Those that can't be items, or are refused, are offered.
  #insert(place, labels) {
    const left = labels.filter((it) => faultOf(it) === "");
    const bad = labels.filter((it) => faultOf(it) !== "");
    const step = {};
    for (let at = Math.min(place, this.widget.items.length); left.length > 0; ) {
      const commands = left.slice(0, MOST_OPERATIONS).map((value, more) => ({ verb: "ins", place: at + more, value }));
      if (!this.edit(commands, step)) break;
      at += commands.length;
      left.splice(0, commands.length);
    }
    this.draw();
    const rest = [...left, ...bad];
    if (rest.length > 0) this.page.notices.add({ view: this, words: `${counted(rest.length, "line")} could not be added.`, text: rest.join("\n") });
  }

  append(label) {
    const isMade = this.edit([{ verb: "ins", place: this.widget.items.length, value: label }]) !== null;
    if (isMade) this.draw();
    return isMade;
  }

  // What was left while the page brought in what it did.
  goOn() {
    this.sendDrafts();
  }

  hide() {
    for (const row of [...this.#shown]) row.send();
  }

  sendDrafts() {
    for (const row of this.#shown.filter(({ hasFocus }) => !hasFocus)) row.send();
    if (!this.foot.hasFocus) this.foot.add();
  }

  get drafts() {
    return [...this.#shown, this.foot].filter((it) => it.isDraft).map(({ field }) => field.value);
  }

  close() {
    for (const row of this.#shown) row.forget();
    this.foot.takeBack();
  }

  #key(event) {
    const row = this.#shown.find(({ element }) => element.contains(event.target));
    if (event.key in ARROWS && row && (event.altKey || event.target === row.handle.element)) {
      event.preventDefault();
      return this.#moveBy(row, ARROWS[event.key]);
    }
    if (event.target !== this.foot.field) return this.#walk(event);
    if (event.key === "Enter") return this.foot.add();
    return event.key === "Escape" ? this.foot.takeBack() : this.#walk(event);
  }

  // The arrow keys and Enter go from row to row. From a row that has the focus itself they go to its field.
  #walk(event) {
    const way = { ...ARROWS, Enter: 1 }[event.key];
    const row = this.#shown.find(({ element, field }) => event.target === element || event.target === field);
    if (!way || !(row || event.target === this.foot.field)) return;
    const fields = [...this.#shown, this.foot].map(({ field }) => field);
    const next = event.target === row?.element ? row.field : fields[fields.indexOf(event.target) + way];
    event.preventDefault();
    if (event.key === "Enter" && row && !row.isGood) return;
    next?.focus();
  }
}
