// The foot of a list: the field of a new item. What is typed there is a draft until Enter, + or leaving it.
import { faultOf, plain } from "./labels.js";
import { Hints, putPlain } from "./list_row.js";
import { isLeft, make } from "./view.js";

export class Foot {
  movedAt = -Infinity; // when others last moved it
  #list;
  #plus;
  #hints;

  constructor(list, id) {
    this.#list = list;
    this.field = make("input", {
      type: "text", id, placeholder: "add an item", autocomplete: "off", dir: "auto", enterKeyHint: "done",
      input: (event) => event.isComposing || this.#typed(),
      compositionend: () => this.#typed(),
      paste: (event) => list.pasted(event, this.field),
    });
    this.#plus = make("button", { type: "button", textContent: "+", click: () => this.add() });
    this.#hints = new Hints(this.field, `${id}-hint`);
    this.element = make("div", { className: "foot", focusout: (event) => isLeft([this.element], event) && this.add() },
      make("div", { className: "row" }, this.field, this.#plus), this.#hints.element);
  }

  named(caption) {
    this.field.ariaLabel = `Add to ${caption}`;
    this.#plus.ariaLabel = `Add the item to ${caption}`;
  }

  setOpen(isOpen) {
    this.field.readOnly = !isOpen;
    this.#plus.ariaDisabled = String(!isOpen);
  }

  get hasFocus() {
    return document.activeElement === this.field;
  }

  get isDraft() {
    return this.#label !== "";
  }

  get #label() {
    return plain(this.field.value).trim();
  }

  // Adds the item, if it can be one.
  add() {
    if (this.isDraft && faultOf(this.#label) === "" && this.#list.append(this.#label)) this.field.value = "";
    this.#tell();
  }

  // Takes the draft back.
  takeBack() {
    this.field.value = "";
    this.#tell();
  }

  #typed() {
    putPlain(this.field);
    this.#tell();
  }

  #tell() {
    const { notices, drafts } = this.#list.page;
    const fault = faultOf(this.#label);
    this.field.ariaInvalid = String(fault !== "");
    this.#hints.show(fault === "" ? [] : [{ words: fault, choices: {} }]);
    notices.hold(this.element, fault !== "" && !this.hasFocus);
    drafts.hold(this, this.isDraft);
  }
}
