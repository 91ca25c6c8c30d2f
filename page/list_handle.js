// The handle of a row, by which its item is moved: by a pointer, and by the arrow keys. What it meets on dropping is found by its name.
import { make } from "./view.js";

// So near to an edge of the window, in pixels, the page scrolls while a row is dragged, and so far at a time.
const EDGE = 80;
const SCROLL = 12;

export class Handle {
  #list;
  #row;
  #end = null; // ends the drag that goes on
  #above = null; // the rows below which it would land, once it was dragged

  constructor(list, row) {
    this.#list = list;
    this.#row = row;
    this.element = make("button", {
      type: "button", className: "handle", textContent: "\u2195", title: "Drag, or press an arrow key",
      // The cursor stays where it is, and no text is selected.
      mousedown: (event) => event.preventDefault(),
      pointerdown: (event) => event.button === 0 && this.#grasp(event.pointerId),
    });
  }

  set label(label) {
    this.element.ariaLabel = `Move ${label}`;
  }

  // Others may move the row in the document, so the window is what listens.
  #grasp(pointer) {
    if (this.#end || this.element.ariaDisabled === "true" || this.#list.hasJustMoved(this.#row)) return;
    const ending = new AbortController();
    const listen = (kind, step) => addEventListener(kind, step, { signal: ending.signal, capture: true });
    const ifMine = (step) => (event) => event.pointerId === pointer && step(event);
    this.#end = () => ending.abort();
    this.#row.element.classList.add("dragged");
    listen("pointermove", ifMine(({ clientY }) => this.#move(clientY)));
    listen("pointerup", ifMine(() => this.#release(true)));
    listen("pointercancel", ifMine(() => this.#release(false)));
    listen("keydown", (event) => event.key === "Escape" && this.#release(false));
  }

  #move(height) {
    if (height < EDGE) scrollBy(0, -SCROLL);
    if (height > innerHeight - EDGE) scrollBy(0, SCROLL);
    this.#above = this.#list.rowsAbove(height);
    this.#list.markLanding(this.#above);
  }

  #release(isDropped) {
    const above = this.#above;
    this.#end();
    this.#end = null;
    this.#above = null;
    this.#row.element.classList.remove("dragged");
    this.#list.markLanding(null);
    if (isDropped && above !== null) this.#list.moveBelow(this.#row, above);
  }
}
