// What waits for the user: drafts that are not sent, and notices. A notice is in the widget that it concerns, or above the board.
import { copy, found, make } from "./view.js";

// What is held for now. `told` is called when there is more or less of it.
export class Held {
  #held = new Set();
  #told;

  constructor(told) {
    this.#told = told;
  }

  get count() {
    return this.#held.size;
  }

  [Symbol.iterator]() {
    return this.#held.values();
  }

  hold(it, isHeld) {
    if (this.#held.has(it) === isHeld) return;
    if (isHeld) this.#held.add(it);
    else this.#held.delete(it);
    this.#told();
  }
}

// The elements of notices: those that it makes, and rows in which something has to be chosen.
export class Notices extends Held {
  #place = found("notices");
  #offers = new Map(); // by the elements of notices with a text: the key of the widget, the words and the text

  // Whether the user would lose something with the page.
  get isOffering() {
    return this.#offers.size > 0 || [...this].some((it) => !it.matches(".notice"));
  }

  // A notice has words, and maybe a text to copy and choices: what is done on a click, by the name of its button. A choice and "Dismiss"
  // end the notice. A text that is kept elsewhere is folded, and the choices say what becomes of it. Returns its element.
  add({ view = null, words, text = "", choices = {}, isFolded = false }) {
    const element = make("article", { className: "notice", tabIndex: -1 }, make("p", { className: "notice-words", role: "alert", textContent: words }));
    const buttons = Object.entries(isFolded ? choices : { ...choices, Dismiss: () => {} }).map(([name, click]) => make("button", { type: "button", textContent: name, click: () => (this.end(element), click()) }));
    if (text !== "") {
      const copies = make("button", { type: "button", textContent: "Copy", click: () => copy(text, copies) });
      const area = make("textarea", { rows: 3, readOnly: true, value: text, ariaLabel: words });
      element.append(isFolded ? make("details", {}, make("summary", { textContent: "Show" }), area) : area);
      buttons.splice(-1, 0, copies);
      if (!isFolded) this.#offers.set(element, { key: view?.key ?? "", words, text });
    }
    element.append(make("p", { className: "row wraps" }, ...buttons));
    (view?.element ?? this.#place).append(element);
    this.hold(element, true);
    return element;
  }

  // The widget of these notices goes.
  adopt(element) {
    this.#place.append(...element.querySelectorAll(".notice"));
  }

  // The first notice of the page gets the focus.
  show() {
    const [first] = [...this].sort((one, other) => (one.compareDocumentPosition(other) & Node.DOCUMENT_POSITION_FOLLOWING ? -1 : 1));
    first?.scrollIntoView({ block: "center" });
    first?.focus();
  }

  // The texts that are offered.
  get offers() {
    return [...this.#offers.values()];
  }

  // Ends a notice. The focus goes from it to the title of the page, where a key does no harm.
  end(element) {
    if (element.contains(document.activeElement)) found("title").focus();
    element.remove();
    this.#offers.delete(element);
    this.hold(element, false);
  }
}
