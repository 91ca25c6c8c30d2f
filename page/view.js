// What all views of widgets share. What the user does in a view becomes edits, and what others do is drawn.
//
// A view draws only when the page says so, so between two draws it may show an older state than its widget has.
import { copyOf } from "./files.js";

// For how many milliseconds the mark of a change fades, and what is meant by a press flashes.
const GLOW = 1500;
const FLASH = 600;
// For how many a remark is shown, and after how many the widget says that an edit is not confirmed.
const REMARK = 6000;
const LATE = 500;
const prefersCalm = matchMedia("(prefers-reduced-motion: reduce)");

export const found = (id) => document.getElementById(id);

// An element with its attributes and children. A function is a listener of the event that it is named for.
export function make(tag, attributes = {}, ...children) {
  const element = document.createElement(tag);
  for (const [name, value] of Object.entries(attributes)) {
    if (typeof value === "function") element.addEventListener(name, value);
    else if (name in element) element[name] = value;
    else element.setAttribute(name, value);
  }
  element.append(...children);
  return element;
}

// Gives an element these children in this order. The one with the focus is not moved, since it would lose it: others go around it.
export function arrange(parent, children) {
  const kept = new Set(children);
  for (const it of [...parent.children]) if (!kept.has(it)) it.remove();
  const fixed = children.find((element) => element.parentElement === parent && element.contains(document.activeElement));
  let next = parent.firstChild;
  for (const it of children) {
    while (it === fixed && it !== next) {
      const after = next.nextSibling;
      parent.append(next);
      next = after;
    }
    if (it === next) next = next.nextSibling;
    else parent.insertBefore(it, next);
  }
}

// Whether the focus goes by an event to something that is in none of these elements. If the whole window loses it, it goes nowhere.
export const isLeft = (elements, { relatedTarget }) => !elements.some((it) => it.contains(relatedTarget) || it.contains(document.activeElement));

// A browser gives the clipboard only to pages that came by TLS or from this machine. Elsewhere it copies what is selected.
export async function copy(text, button) {
  try {
    await navigator.clipboard.writeText(text);
  } catch {
    const area = make("textarea", { value: text, className: "unseen" });
    button.after(area);
    area.select();
    document.execCommand("copy");
    area.remove();
    button.focus();
  }
  button.textContent = "Copied";
  setTimeout(() => (button.textContent = "Copy"), GLOW);
}

export function flash(element) {
  if (!prefersCalm.matches) element.animate([{ outline: "3px solid" }, { outline: "3px solid transparent" }], FLASH);
}

export class View {
  isStale = false; // whether others have changed the widget since the last draw
  #unconfirmed = 0;
  #marker = null; // the timer after which the widget says that an edit is not confirmed

  constructor(page, win, wid, widget) {
    Object.assign(this, { page, win, wid, widget, key: `${win}.${wid}`, id: `widget-${win}-${wid}` });
    this.mark = make("span", { className: "mark", ariaHidden: "true" });
    this.waits = make("span", { className: "waits", ariaHidden: "true", textContent: "not confirmed", hidden: true });
    this.name = make("span", { dir: "auto" });
    this.after = make("span", { className: "after" });
    this.copy = make("button", { type: "button", className: "quiet", textContent: "Copy", click: () => copy(copyOf(this.widget), this.copy) });
  }

  // The caption, in front of the marks that others have changed the widget and that an edit is not confirmed, and of remarks.
  head(caption, ...more) {
    return make("div", { className: "caption" }, caption, this.mark, this.waits, this.after, ...more);
  }

  // Says something beside the caption for a while.
  remark(words) {
    this.after.textContent = words;
    setTimeout(() => this.after.textContent === words && (this.after.textContent = ""), REMARK);
  }

  label() {
    return make("label", { htmlFor: this.id }, this.name);
  }

  // The widget has its caption, perhaps a new one.
  named() {
    const caption = this.page.captionOf(this.key, this.widget.kind);
    this.name.textContent = caption;
    this.copy.ariaLabel = `Copy ${caption}`;
  }

  // The same widget on the board that the server has after the link was lost. `isSame` is whether items have the names that they had.
  rebind(widget, isSame) {
    this.widget = widget;
    this.isStale = true;
    if (!isSame) this.forgetNames();
    this.named();
  }

  forgetNames() {}

  // The name that an item has now: the page may have made it again.
  nameOf(name) {
    return this.page.nameOf(this, name);
  }

  // The page brings nothing in any more.
  goOn() {}

  // An edit of others came with an operation, as the server sent it, when it had `heard` edits of this page.
  came() {}

  // Items may have other names: others moved them, or a repair did.
  follow() {}

  // An undo or a redo did this.
  tookBack() {
    this.isStale = true;
  }

  // Takes back what is typed in a field and not sent. Returns whether there was something.
  drops() {
    return false;
  }

  // Shows where an undo came to: at the item with a name, or in front of all if that is null.
  reveal() {
    this.update();
    this.element.scrollIntoView({ block: "nearest" });
  }

  // The server has taken so many edits of this page for certain.
  confirmed() {}

  // The tab is hidden: what is typed goes to the server, as far as it can.
  hide() {}

  // The link is there again: what was left without it goes to the server.
  sendDrafts() {}

  // What is typed and not sent.
  get drafts() {
    return [];
  }

  // The board has the widget no more.
  close() {}

  // `how` is as `note` of an undo takes it.
  edit(commands, how = null) {
    return this.page.edit(this, commands.map((command) => ({ ...command, win: this.win, wid: this.wid })), how);
  }

  // More of its edits wait to be confirmed, or fewer. The mark of that does not flicker.
  awaits(more) {
    this.#unconfirmed += more;
    if (this.#unconfirmed > 0) this.#marker ??= setTimeout(() => (this.waits.hidden = false), LATE);
    else {
      clearTimeout(this.#marker);
      this.#marker = null;
      this.waits.hidden = true;
    }
  }

  changed() {
    this.isStale = true;
    this.isChanged = true;
  }

  update() {
    if (!this.isStale || this.isHeld || this.page.isJoining) return;
    this.isStale = false;
    this.draw();
    if (this.isChanged && !prefersCalm.matches) this.mark.animate([{ opacity: 1 }, { opacity: 0 }], GLOW);
    this.isChanged = false;
  }
}
