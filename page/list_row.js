// A row of a list: the field of an item, and what its user has typed there and not sent.
import { faultOf, merged, plain } from "./labels.js";
import { Handle } from "./list_handle.js";
import { isLeft, make } from "./view.js";

// Makes the plain characters of typographic ones as they are typed.
export function putPlain(field) {
  const typed = field.value;
  const cursor = plain(typed.slice(0, field.selectionEnd)).length;
  if (plain(typed) === typed) return;
  field.value = plain(typed);
  field.setSelectionRange(cursor, cursor);
}

// The hints below a field, each of its words and of choices. A choice is a button, which leaves the cursor where it is.
export class Hints {
  element = make("div");
  #field;
  #id;
  #shown = "";

  constructor(field, id) {
    this.#field = field;
    this.#id = id;
  }

  // Shows hints, unless these are shown already: a new button would not have the focus.
  show(hints) {
    const shown = JSON.stringify(hints.map(({ words, choices }) => [words, Object.keys(choices)]));
    if (shown === this.#shown) return;
    this.#shown = shown;
    this.element.replaceChildren(...hints.map((it) => hintOf(this.#id, it)));
    if (hints.length > 0) this.#field.setAttribute("aria-describedby", this.#id);
    else this.#field.removeAttribute("aria-describedby");
  }
}

function hintOf(id, { words, choices }) {
  const buttons = Object.entries(choices).map(([name, click]) => make("button", { type: "button", textContent: name, mousedown: (event) => event.preventDefault(), click }));
  return make("div", { className: "row wraps" }, make("p", { id, className: "hint", textContent: words }), ...buttons);
}

// A draft is sent when the cursor leaves the row. Until then nothing that others do changes the field.
export class Row {
  isGhost = false; // whether others have deleted the item
  movedAt = -Infinity; // when others last moved the row
  #list;
  #base = null; // the label that the draft began with, or null if the cursor is elsewhere and nothing is typed
  #isLost = false; // whether others deleted the item when a label of this page was on its way to it
  #isAsked = false; // whether the user has to choose between the draft and the label of others
  #offers = []; // labels of others that the server took before this page's own
  #labelledBy = "Others"; // who changed the label last: others, or an undo of this page
  #deletedBy = "others";
  #hints;

  constructor(list, id, { name, value }) {
    this.#list = list;
    Object.assign(this, { name, label: value });
    this.field = make("input", {
      type: "text", value, autocomplete: "off", dir: "auto", ariaLabel: `Item of ${list.name.textContent}`,
      focus: () => (this.#renew(), (this.#base ??= this.label)),
      input: (event) => event.isComposing || this.#typed(),
      compositionend: () => this.#typed(),
      paste: (event) => list.pasted(event, this.field, this),
      keydown: (event) => event.key === "Escape" && !event.isComposing && this.takeBack(),
    });
    this.handle = new Handle(list, this);
    this.remove = make("button", { type: "button", textContent: "\u00d7", click: () => list.remove(this) });
    this.#hints = new Hints(this.field, id);
    this.element = make("li", { tabIndex: -1, focusout: (event) => isLeft([this.field, this.#hints.element], event) && this.#leave() },
      make("div", { className: "row" }, this.handle.element, this.field, this.remove), this.#hints.element);
    this.#name();
  }

  #name() {
    this.handle.label = this.label;
    this.remove.ariaLabel = `Delete ${this.label}`;
  }

  get hasFocus() {
    return document.activeElement === this.field;
  }

  // Whether something is typed that is not sent.
  get isDraft() {
    return this.#base !== null && (this.field.value !== this.#base || (this.isGhost && this.#isLost));
  }

  // Whether the row stays if its item is gone.
  get isKept() {
    return this.#base !== null;
  }

  get #fault() {
    return this.isDraft ? faultOf(this.#mine) : "";
  }

  get #mine() {
    return plain(this.field.value).trim();
  }

  // Whether Enter leaves the row.
  get isGood() {
    return this.#fault === "";
  }

  setOpen(isOpen) {
    this.field.readOnly = !isOpen;
    for (const it of [this.handle.element, this.remove]) it.ariaDisabled = String(!isOpen);
  }

  // The list has this label for the item.
  show(label, by = "Others") {
    if (label === this.label && !this.isGhost) return;
    Object.assign(this, { label, isGhost: false });
    this.#labelledBy = by;
    this.#deletedBy = "others";
    if (this.#base === null) this.field.value = label;
    this.#name();
    this.tell();
  }

  // The list can have a newer label than was drawn. While the page brings in what it did, it has an older one.
  #renew() {
    const label = this.#list.labelOf(this);
    if (label !== undefined && !this.#list.page.isJoining) this.show(label);
  }

  // An undo or a redo gave the item this label. A cursor alone does not keep the field from showing it.
  putBack(label) {
    const hasCursor = this.#base !== null && !this.isDraft;
    if (hasCursor) this.#base = null;
    this.show(label, "Undo");
    if (hasCursor) this.#end();
  }

  // An undo or a redo deletes the item. What is typed stays.
  isTakenAway() {
    this.#deletedBy = "undo";
    if (!this.isDraft) this.#base = null;
  }

  // The item is deleted, and not by the user's own key or pointer. What is typed stays.
  outlive() {
    this.isGhost = true;
    this.#isAsked = false;
    this.tell();
  }

  // The row goes, and what is typed in it.
  forget() {
    this.#base = null;
    this.#offers = [];
    this.isGhost = false;
    this.tell();
  }

  // Others deleted the item before the server had this page's label of it.
  loses() {
    this.#isLost = true;
    this.#base ??= this.label;
  }

  // The server took a label of others before this page's own, which has replaced it. `base` is what both changed.
  races(base, theirs, step) {
    const label = merged(base, this.label, theirs);
    if (label === this.label) return;
    if (label === null || faultOf(label) !== "" || !this.#list.relabel(this, label, step)) this.#offers.push(theirs);
    this.tell();
  }

  // Sends a draft that can be a label. If others have changed the same place, the user is asked.
  send() {
    if (!this.isDraft || this.isGhost || !this.isGood || this.#list.page.isJoining) return;
    this.#renew();
    const label = merged(this.#base, this.#mine, this.label);
    this.#isAsked = label === null || faultOf(label) !== "";
    if (!this.#isAsked) this.#put(label);
    this.tell();
  }

  #put(label) {
    if (label === "") this.#list.removeEmptied(this);
    else if (label === this.label || this.#list.relabel(this, label)) this.#end();
  }

  #typed() {
    putPlain(this.field);
    this.#isAsked = false;
    this.tell();
  }

  // The cursor has left the field, and is at no choice below it. A ghost in which nothing is typed goes.
  #leave() {
    this.send();
    if (this.isDraft) this.tell();
    else if (this.isGhost) this.#list.drop(this);
    else this.#end();
  }

  // The field shows the label of the list again.
  #end() {
    this.#base = this.hasFocus ? this.label : null;
    this.#isAsked = false;
    this.field.value = this.label;
    this.tell();
  }

  // Takes the draft back.
  takeBack() {
    if (this.isGhost) this.#list.drop(this);
    else this.#end();
  }

  #keepMine() {
    this.#base = this.label;
    this.send();
  }

  #addAgain() {
    const label = this.#mine === "" ? this.label : this.#mine;
    if (faultOf(label) !== "" || !this.#list.addAgain(this, label)) return;
    this.#isLost = false;
    this.#end();
  }

  #choose(offer, isTaken) {
    if (isTaken && !this.#list.relabel(this, offer)) return;
    this.#offers.splice(this.#offers.indexOf(offer), 1);
    this.tell();
  }

  // Says below the field what is wrong with it, and what can be chosen.
  tell() {
    const isWrong = this.#fault !== "" || this.#isAsked;
    this.element.classList.toggle("ghost", this.isGhost);
    this.field.ariaInvalid = String(isWrong);
    for (const it of [this.handle.element, this.remove]) it.hidden = this.isGhost;
    this.#hints.show([...this.#hintsNow()]);
    this.#list.page.notices.hold(this.element, this.#offers.length > 0 || ((isWrong || (this.isGhost && this.isDraft)) && !this.hasFocus));
    this.#list.page.drafts.hold(this, this.isDraft);
  }

  *#hintsNow() {
    const theirs = `${this.#labelledBy} wrote \u201c${this.label}\u201d`;
    const choices = (keep, take) => ({ "Keep mine": keep, "Take theirs": take });
    if (this.#fault !== "") yield { words: this.#fault, choices: this.hasFocus || this.isGhost ? {} : { Drop: () => this.takeBack() } };
    if (this.isGhost) yield { words: `Deleted by ${this.#deletedBy}`, choices: { "Add it again": () => this.#addAgain(), Drop: () => this.takeBack() } };
    else if (this.#isAsked) yield { words: theirs, choices: choices(() => this.#keepMine(), () => this.takeBack()) };
    else if (this.#base !== null && this.label !== this.#base) yield { words: theirs, choices: {} };
    for (const it of this.#offers) yield { words: `Others wrote \u201c${it}\u201d at the same time`, choices: choices(() => this.#choose(it, false), () => this.#choose(it, true)) };
  }
}
