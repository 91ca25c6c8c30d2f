// The views of toggles and sliders.
import { View, make } from "./view.js";

export class ToggleView extends View {
  constructor(...given) {
    super(...given);
    this.box = make("input", { type: "checkbox", role: "switch", id: this.id, change: () => this.edit([{ verb: "set", value: this.box.checked }]) || this.draw() });
    this.element = make("div", { className: "widget across" }, this.head(this.label()), this.box);
    this.named();
    this.draw();
  }

  setOpen(isOpen) {
    this.box.ariaDisabled = String(!isOpen);
  }

  draw() {
    this.box.checked = this.widget.value;
  }
}

export class SliderView extends View {
  #drag = null; // the step of the drag that goes on

  constructor(...given) {
    super(...given);
    const { low: min, high: max } = this.widget;
    this.range = make("input", { type: "range", id: this.id, min, max, step: 1, pointerdown: () => (this.#drag = {}), input: () => this.#dragged(), change: () => this.#dropped() });
    this.number = make("input", { type: "number", min, max, step: "any", change: () => this.#typed(), input: () => (this.hint.hidden = true) });
    this.hint = make("p", { className: "hint", textContent: `${min} to ${max}`, hidden: true });
    this.element = make("div", { className: "widget" }, this.head(this.label()),
      make("div", { className: "row wraps" }, bound(min), this.range, bound(max), this.number), this.hint);
    this.named();
    this.draw();
  }

  named() {
    super.named();
    this.number.ariaLabel = `${this.name.textContent}, as a number`;
  }

  setOpen(isOpen) {
    this.range.ariaDisabled = String(!isOpen);
    this.number.readOnly = !isOpen;
  }

  // However fast it is dragged, it makes an edit a frame at most.
  #dragged() {
    this.number.value = this.range.value;
    this.frame ??= requestAnimationFrame(() => this.#set(Number(this.range.value)));
  }

  #dropped() {
    this.#set(Number(this.range.value));
    this.#drag = null;
  }

  // A number that is typed becomes the nearest that the slider has. What is no number changes nothing.
  #typed() {
    const { low, high, value } = this.widget;
    const typed = this.number.valueAsNumber;
    const nearest = Number.isNaN(typed) ? value : Math.min(high, Math.max(low, Math.round(typed)));
    this.hint.hidden = Number.isNaN(typed) || nearest === Math.round(typed);
    if (!this.hint.hidden) this.page.say("bounds", this.hint.textContent);
    this.number.value = nearest;
    this.#set(nearest);
  }

  #set(value) {
    cancelAnimationFrame(this.frame);
    this.frame = null;
    if (value !== this.widget.value) this.edit([{ verb: "set", value }], this.#drag);
    this.draw();
  }

  get #isTyped() {
    return document.activeElement === this.number && this.number.value !== this.shown;
  }

  drops(field) {
    if (field !== this.number || !this.#isTyped) return false;
    this.number.value = this.shown;
    return true;
  }

  // A number that is being typed stays.
  draw() {
    const isTyped = this.#isTyped;
    this.range.value = this.widget.value;
    if (!isTyped) this.number.value = this.widget.value;
    this.shown = this.range.value;
  }
}

const bound = (value) => make("span", { className: "bound", textContent: value, ariaHidden: "true" });
