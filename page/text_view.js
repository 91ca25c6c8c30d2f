// The view of a text.
import { Job } from "./jobs.js";
import { UNSENT, counted, difference, placeOf, scalarsOf, shownAs, textOf } from "./texts.js";
import { View, make } from "./view.js";

// A paste of more characters is made by the page, since a browser can take seconds to put it into an area.
const LONG_PASTE = 512;
// After how many milliseconds without a key others see what is being composed. On a phone every word is composed.
const COMPOSED = 1000;
// What goes on in the last step of an undo, by the kind of the event.
const HOW = { insertText: "type", insertLineBreak: "type", deleteContentBackward: "delete", deleteContentForward: "delete" };
const DRAGS = ["deleteByDrag", "insertFromDrop"];

// The area shows `shown`, which is the text of `items`. Within a composition it can show more, and is not drawn.
export class TextView extends View {
  caret = null; // where a job of this view has come to
  #word = {}; // the step of the word that is composed
  #later = 0; // how many changes of others come after the word that is composed
  #height = ""; // the height that the area keeps while others type

  constructor(...given) {
    super(...given);
    this.area = make("textarea", {
      id: this.id, rows: 3, dir: "auto",
      input: (event) => (event.isComposing ? this.#composes() : this.#typed(this.#howOf(event))),
      focus: () => this.#sizeAgain(),
      paste: (event) => this.#pasted(event),
      compositionstart: () => this.#beginsWord(),
      compositionend: () => this.#composed(),
    });
    this.element = make("div", { className: "widget" }, this.head(this.label(), this.copy), this.area);
    new IntersectionObserver(([{ isIntersecting }]) => isIntersecting || this.#sizeAgain()).observe(this.area);
    this.named();
    this.#reset(0);
  }

  setOpen(isOpen) {
    this.area.readOnly = !isOpen || this.page.isBusyWith(this);
  }

  forgetNames() {
    for (const text of this.drafts) this.page.notices.add({ view: this, words: UNSENT, text });
    this.items = null;
  }

  // What is typed while the page joins, or within a word, is in no edit yet.
  get drafts() {
    const { value } = this.area;
    if (value === this.shown) return [];
    const { head, tail } = difference(this.shown, value);
    return [value.slice(head, value.length - tail)].filter((it) => it !== "");
  }

  #keep(items, shown) {
    this.items = items;
    this.shown = shown;
  }

  // Shows what the board has, with the cursor at an offset.
  #reset(cursor) {
    this.#keep([...this.widget.items], textOf(this.widget.items));
    this.area.value = this.shown;
    this.area.setSelectionRange(cursor, cursor);
  }

  #beginsWord() {
    this.isHeld = true;
    this.#word = {};
  }

  #composes() {
    clearTimeout(this.pause);
    this.pause = setTimeout(() => this.items !== null && this.#typed(this.#word), COMPOSED);
  }

  changed() {
    super.changed();
    if (!this.isHeld) return;
    this.#later += 1;
    this.after.textContent = `${counted(this.#later, "change")} ${this.#later === 1 ? "comes" : "come"} after this word`;
  }

  #composed() {
    clearTimeout(this.pause);
    this.isHeld = false;
    this.#later = 0;
    this.after.textContent = "";
    if (this.items !== null) this.#typed(this.#word);
    this.page.drawSoon();
  }

  // A drag takes a text away and puts it elsewhere, which is one step.
  #howOf({ inputType }) {
    return DRAGS.includes(inputType) ? this.page.takingBack.drag : HOW[inputType];
  }

  goOn() {
    if (!this.isHeld) this.#typed();
  }

  // The user changed the area as a browser does it. What is typed while the page joins is made an edit after it.
  #typed(how) {
    this.#sizeAgain();
    if (this.page.isJoining) return;
    const { value, selectionEnd } = this.area;
    const { head, tail } = difference(this.shown, value, selectionEnd);
    if (value !== this.shown) this.#replace(head, this.shown.length - tail, value.slice(head, value.length - tail), how);
  }

  #pasted(event) {
    const text = event.clipboardData.getData("text/plain").replace(/\r\n?/g, "\n");
    if (text.length <= LONG_PASTE || this.area.readOnly || this.page.isJoining) return;
    event.preventDefault();
    this.#replace(this.area.selectionStart, this.area.selectionEnd, text);
  }

  // The user replaced a part of what was shown by a text.
  #replace(start, end, text, how) {
    const [from, to] = [this.#place(start), this.#place(end)];
    const values = scalarsOf(text);
    // The last item goes first, since that is fastest in a long text.
    const gone = this.items.slice(from, to).reverse();
    const steps = [...gone.map(({ name }) => ({ name })), ...values.map((value) => ({ value }))];
    const job = new Job(this, from, this.items[from - 1]?.name ?? null, steps, how);
    if (!this.page.isShort(job)) {
      // What is made of it is shown as it is made.
      this.#reset(start);
      this.page.begin(job);
      return;
    }
    const ops = this.page.run(job);
    if (ops === null) {
      this.#reset(start);
      return;
    }
    const come = ops.filter((op) => op.verb === "ins").map(({ name, value }) => ({ name, value }));
    this.#keep([...this.items.slice(0, from), ...come, ...this.items.slice(to)], this.area.value);
    if (values.map(shownAs).join("") !== text) this.#show();
  }

  // The place among the items of an offset in what is shown, and the other way round.
  #place(offset) {
    return this.shown.length === this.items.length ? offset : Array.from(this.shown.slice(0, offset)).length;
  }

  #offset(place) {
    return this.shown.length === this.items.length ? place : textOf(this.items.slice(0, place)).length;
  }

  draw() {
    if (this.items === null) this.#showAgain();
    else this.#show();
  }

  // The cursor goes there, if it is in this text.
  reveal(name) {
    const place = name ? placeOf(this.widget.items, name, 0) + 1 : 0;
    if (name !== undefined) Object.assign(this, { caret: place, isStale: true });
    this.update();
    super.reveal();
  }

  // Shows the widget's text. The cursor stays after the item that was before it, and a selection stays on its items.
  #show() {
    const { selectionStart, selectionEnd, selectionDirection } = this.area;
    const end = this.caret ?? this.#after(this.#place(selectionEnd));
    const start = this.caret !== null || selectionStart === selectionEnd ? end : Math.min(this.#before(this.#place(selectionStart)), end);
    this.caret = null;
    this.#put();
    this.#select(this.#offset(start), this.#offset(end), selectionDirection);
  }

  // The same if all items have other names: the cursor stays at the characters that it was at.
  #showAgain() {
    const { selectionStart, selectionEnd, selectionDirection, value } = this.area;
    this.#keep([...this.widget.items], textOf(this.widget.items));
    const { head, tail } = difference(value, this.shown);
    this.#change(0, value, this.shown);
    const moved = (offset) => (offset <= head ? offset : offset >= value.length - tail ? offset + this.shown.length - value.length : head);
    this.#select(moved(selectionStart), moved(selectionEnd), selectionDirection);
  }

  // Puts the widget's text into the area. While others type, the area keeps its height and its first visible line.
  #put() {
    const { area } = this;
    const was = area.value;
    const [before, now] = this.isChanged ? this.#anchor(this.#place(this.#topOffset())) : [0, 0];
    const top = this.#offset(before);
    this.#keep([...this.widget.items], textOf(this.widget.items));
    if (was === this.shown) return;
    const { scrollHeight } = area;
    if (this.isChanged) this.#keepHeight();
    const isInFront = this.#change(0, was.slice(0, top), this.shown.slice(0, this.#offset(now)));
    if (isInFront) area.scrollTop += area.scrollHeight - scrollHeight;
    this.#change(this.#offset(now), was.slice(top), this.shown.slice(this.#offset(now)));
  }

  // Makes one text of another that begins at an offset of the area. Returns whether they differ.
  #change(offset, was, is) {
    if (was === is) return false;
    const { head, tail } = difference(was, is);
    this.area.setRangeText(is.slice(head, is.length - tail), offset + head, offset + was.length - tail, "preserve");
    return true;
  }

  #keepHeight() {
    const { area } = this;
    const { top, bottom, height } = area.getBoundingClientRect();
    if (this.#height !== "" || area.style.height !== "" || bottom < 0 || top > innerHeight) return;
    this.#height = `${height}px`;
    area.style.height = this.#height;
  }

  // The area takes the height of its text again, unless its user has given it another.
  #sizeAgain() {
    if (this.#height !== "" && this.area.style.height === this.#height) this.area.style.height = "";
    this.#height = "";
  }

  // The offset of the first character of the area in view. A browser that can't tell is taken to show the text from its begin.
  #topOffset() {
    const { area } = this;
    const { left, top } = area.getBoundingClientRect();
    const edge = Math.max(top, document.querySelector("header").offsetHeight);
    if (area.scrollTop === 0 && edge === top) return 0;
    const { paddingLeft, lineHeight } = getComputedStyle(area);
    const found = document.caretPositionFromPoint?.(left + area.clientLeft + Number.parseFloat(paddingLeft) + 1, edge + area.clientTop + Number.parseFloat(lineHeight) / 2);
    return found?.offsetNode === area ? found.offset : 0;
  }

  #select(start, end, direction) {
    const { area } = this;
    const isSame = start === area.selectionStart && end === area.selectionEnd && (start === end || direction === area.selectionDirection);
    if (document.activeElement === area && !isSame) area.setSelectionRange(start, end, direction);
  }

  // The place after the last item in front of a place that the widget still has.
  #after(place) {
    const { items, names } = this.widget;
    for (let at = place - 1; at >= 0; at--) {
      const name = this.nameOf(this.items[at].name);
      if (names.has(name)) return placeOf(items, name, at) + 1;
    }
    return 0;
  }

  // The place of the first item from a place on that the widget still has.
  #before(place) {
    return this.#anchor(place)[1];
  }

  // The same item: where it was, and where it is.
  #anchor(place) {
    const { items, names } = this.widget;
    for (let at = place; at < this.items.length; at++) {
      const name = this.nameOf(this.items[at].name);
      if (names.has(name)) return [at, placeOf(items, name, at)];
    }
    return [this.items.length, items.length];
  }
}
