// What a user did to a text, made in as many edits as it takes.
import { MOST_ITEMS, MOST_OPERATIONS } from "./core.js";
import { placeOf } from "./texts.js";

// A step deletes an item by its `name`, or inserts a `value`. Steps name items, so others may change the text between two edits.
export class Job {
  #taken = 0; // how many steps the next edit has
  #near = 0; // where the last item was that it deleted

  // All insertions come after the item named `after`, or in front of all items if that is null. `place` is where they come. All of it is
  // one step of an undo. If it is one edit, `how` can be as `note` of an undo takes it.
  constructor(view, place, after, steps, how = null) {
    Object.assign(this, { view, place, after, steps });
    this.how = typeof how === "string" && steps.length > MOST_OPERATIONS ? this : (how ?? this);
    this.#near = place;
  }

  get isDone() {
    return this.steps.length === 0;
  }

  // How many characters it has to go.
  get left() {
    return this.steps.length;
  }

  // The characters that are still to be inserted.
  get rest() {
    return this.steps.filter(({ value }) => value !== undefined).map(({ value }) => value);
  }

  // How many characters are still to be deleted.
  get deletions() {
    return this.steps.length - this.rest.length;
  }

  // The server has not taken these edits, the last of the job: their operations, and `after`, what the first of them came after. They are
  // made again.
  takeBack(edits) {
    if (edits.length === 0) return;
    const steps = edits.flatMap(({ ops }) => ops).map(({ verb, name, value }) => (verb === "ins" ? { value } : { name }));
    this.steps.unshift(...steps);
    this.after = edits[0].after;
  }

  // The commands of the next edit. Items that others have deleted are passed over. What a full text has no room for comes last.
  next() {
    const { win, wid, widget } = this.view;
    const commands = [];
    let room = MOST_ITEMS - widget.items.length;
    const start = this.#placeOfInsertion(widget.items);
    const gone = []; // the places of the items that are deleted
    const goneBefore = (place) => gone.filter((it) => it < place).length;
    let inserted = 0;
    this.place = start;
    this.#taken = 0;
    for (const { name, value } of this.steps.slice(0, MOST_OPERATIONS)) {
      const isInsertion = name === undefined;
      if (isInsertion && room-- <= 0 && commands.length > 0) break;
      this.#taken += 1;
      if (isInsertion) commands.push({ verb: "ins", win, wid, place: start - goneBefore(start) + inserted++, value });
      else {
        const found = placeOf(widget.items, this.view.nameOf(name), this.#near);
        if (found < 0) continue;
        commands.push({ verb: "del", win, wid, place: found - goneBefore(found) });
        gone.push(found);
        this.#near = found;
        room += 1;
      }
    }
    return commands;
  }

  // The operations of the next edit are made.
  made(ops) {
    this.steps.splice(0, this.#taken);
    const last = ops.findLast((op) => op.verb === "ins");
    if (last) Object.assign(this, { after: last.name, place: last.place + 1 });
  }

  // Its view shows what is made so far.
  show() {
    Object.assign(this.view, { isStale: true, caret: this.place });
  }

  // It is done, or refused.
  end() {}

  #placeOfInsertion(items) {
    if (this.after === null) return 0;
    const found = placeOf(items, this.view.nameOf(this.after), this.place - 1);
    return found >= 0 ? found + 1 : Math.min(this.place, items.length);
  }
}
