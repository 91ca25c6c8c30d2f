// Undo and redo of what this site did, whatever others did meanwhile. Nothing here needs a page.
//
// A step is what one undo takes back: records of operations. A record is about a *thing*: an item, or the setting of a widget. Undoing it
// makes a command by where the thing is by then. An item that comes back or is moved has a new name, and stays one thing.
//
// Each change of a value makes a new version of it, and so does each move of a place. A record is undone only if the present version is the
// one that it made. Else others have changed the thing since, and theirs stays.
//
// The server may have taken an edit of others before one that this site had already made. Then theirs has no effect here, and the thing is
// *torn*: the board may not show what it has to. `mend` puts that right.
//
// `took` is what `applyAll` of a board returns: operations as they were applied, and what each of them found.
import { MOST_ITEMS, MOST_OPERATIONS, MOST_WAITING } from "./core.js";
import { grouped, keyOf, placeOf } from "./texts.js";

const MOST_STEPS = 1000;
const MOST_RECORDS = 131072;
// How many milliseconds without a key end a step of typing, and how many records it has at most.
const PAUSE = 1000;
const LONGEST_RUN = 100;
const LINE_FEED = 10;
// Names are forgotten once so many are known, or twice as many as the last time left.
const FEWEST_NAMES = 4096;
// One who moves an item may not know its newest labels. So many count, and the present one.
const MOST_LABELS = 8;

const idOf = (at, name = at.name) => (name === undefined ? keyOf(at) : `${keyOf(at)} ${name}`);
// What a record of a value or of a place leads from, and to.
const sidesOf = ({ before, after }, way) => (way === "undo" ? [after, before] : [before, after]);
// Whether two operations of one edit move an item of a list that has, or had, one of these labels.
const isMove = (op, next, labels) =>
  op.kind === "list" && op.verb === "del" && next?.verb === "ins" && keyOf(op) === keyOf(next) && labels.includes(next.value);
// How many items more a widget has after a command.
const GROWTH = { ins: 1, del: -1 };
const NONE = [];

class Thing {
  // The version of its place.
  where = 0;
  // Whether it has to be off the board.
  isAway = false;
  // Whether others have deleted it, so that it does not come back.
  isLost = false;
  // The record by which this site took it away, and whether a user, an undo or a redo did.
  by = null;
  // Changes of its value that the server may not have taken, in order.
  open = NONE;
  // The last edit of this site about it, and the one in which its item got its name, if it was one of this site.
  nth = -1;
  born = -1;
  // The name under which it has to come to another place, if that is to be done again.
  goal = null;
  // What it is now, if it is another of an item that others moved.
  heir = this;
  // Those that an item of a list had lately.
  labels = NONE;

  // `name` is the one that it has, or had last. `now` is its value and the version of that.
  constructor({ win, wid, kind }, name, value) {
    Object.assign(this, { win, wid, kind, name, now: { value, version: 0 } });
    this.become(this.now);
  }

  become(now) {
    this.now = now;
    if (this.kind === "list") this.labels = [...this.labels.slice(-MOST_LABELS), now.value];
  }
}

export class Undo {
  #done = [];
  #undone = [];
  // Steps that a plan is about.
  #playing = new Set();
  // By each name that they had.
  #things = new Map();
  // From an item that is not there to the one that is at its place now, or else to the one that was left of it.
  #gone = new Map();
  #torn = new Set();
  // How many are in all steps.
  #records = 0;
  #versions = 0;
  // The last edit of this site.
  #nth = -1;
  // Whether typing may go on in the last step.
  #isTyping = false;
  #mostNames = FEWEST_NAMES;

  get canUndo() {
    return this.#done.length > 0;
  }

  get canRedo() {
    return this.#undone.length > 0;
  }

  // The `how` of the step that `undo` takes back.
  get how() {
    return this.#done.at(-1)?.how ?? null;
  }

  // The name that an item has now, if this site or others moved it or this site brought it back.
  nameOf(at, name) {
    return this.#things.get(idOf(at, name))?.heir.name ?? name;
  }

  // ---- What this site did ----

  // The user made an edit, at a time in milliseconds. With "type" or "delete" as `how` it goes on with the last step, if that is the same
  // at the same place, at most a second ago. All edits with one object as `how` are one step: that of a job, or of a drag.
  note({ took, nth }, how = null, time = 0) {
    const step = this.#stepOf(took, how, time);
    step.time = time;
    this.#nth = nth;
    this.#isTyping = true;
    for (const it of this.#undone.splice(0)) this.#records -= it.records.length;
    for (let at = 0; at < took.length; at++) {
      if (!isMove(took[at].op, took[at + 1]?.op, [took[at].value])) this.#record(step, took[at], nth);
      else this.#recordMove(step, took[at], took[++at], nth);
    }
    while (this.#done.length > MOST_STEPS || (this.#records > MOST_RECORDS && this.#done.length > 1)) {
      this.#records -= this.#done.shift().records.length;
    }
    this.#forget();
  }

  // Ends a step of typing, as when the cursor is set elsewhere.
  end() {
    this.#isTyping = false;
  }

  #stepOf(took, how, time) {
    const last = this.#done.at(-1);
    const step = typeof how === "string" ? this.#goesOn(last, took, how, time) && last : how && this.#done.findLast((it) => it.how === how);
    if (!step) this.#done.push({ records: [], how, time });
    return step || this.#done.at(-1);
  }

  // Typing goes on if it is of the same kind in the same text, soon, and next to the last character.
  #goesOn(last, took, how, time) {
    if (last?.how !== how || !this.#isTyping || time - last.time > PAUSE || last.records.length + took.length > LONGEST_RUN) return false;
    const { kind, thing } = last.records.at(-1);
    const [{ op, left }] = took;
    if (keyOf(op) !== keyOf(thing) || took.some((it) => it.op.verb !== kind)) return false;
    if (kind === "ins") return left === thing.name && thing.now.value !== LINE_FEED;
    const gap = this.#gone.get(idOf(thing));
    return left === gap || op.name === gap;
  }

  #record(step, it, nth) {
    const { op, value } = it;
    const thing = this.#thingOf(op, op.verb === "ins" ? op.value : value);
    thing.nth = nth;
    if (op.verb === "ins") thing.born = nth;
    if (op.verb === "rel" || op.verb === "set") return this.#recordValue(step, thing, it, nth);
    const record = this.#add(step, { kind: op.verb, thing, version: thing.now.version });
    if (op.verb === "del") this.#takeAway(thing, it, { record, way: "user" });
    return record;
  }

  // However often a setting changes in one step, it is one record, unless others set it in between.
  #recordValue(step, thing, { op }, nth) {
    const before = thing.now;
    thing.become({ value: op.value, version: this.#newVersion() });
    const last = step.records.at(-1);
    const goesOn = op.verb === "set" && last?.thing === thing && last.after.version === before.version;
    const record = goesOn ? last : this.#add(step, { kind: op.verb, thing, before });
    record.after = thing.now;
    return this.#await(thing, { nth, record, way: "user" });
  }

  #recordMove(step, { op, value, left }, to, nth) {
    const thing = this.#thingOf(op, value);
    const before = { name: op.name, version: thing.where };
    this.#gone.set(idOf(op), left);
    this.#rename(thing, to.op.name);
    Object.assign(thing, { where: this.#newVersion(), nth, born: nth });
    this.#add(step, { kind: "mov", thing, before, after: { name: thing.name, version: thing.where } });
  }

  #add(step, what) {
    const record = { ...what, isUndone: false };
    step.records.push(record);
    this.#records += 1;
    return record;
  }

  #newVersion() {
    return ++this.#versions;
  }

  #thingOf(op, value) {
    const id = idOf(op);
    if (!this.#things.has(id)) this.#things.set(id, new Thing(op, op.name, value));
    return this.#things.get(id);
  }

  #rename(thing, name) {
    thing.name = name;
    this.#things.set(idOf(thing, name), thing);
  }

  #takeAway(thing, { left }, by) {
    this.#gone.set(idOf(thing), left);
    Object.assign(thing, { isAway: true, by });
  }

  #bringBack(thing, { op }) {
    this.#gone.set(idOf(thing), op.name);
    this.#rename(thing, op.name);
    Object.assign(thing, { isAway: false, born: thing.nth });
  }

  // The server may not have taken a change of a value. That can be so of MOST_WAITING edits.
  #await(thing, change) {
    thing.open = [...thing.open.filter(({ nth }) => nth > change.nth - MOST_WAITING), change];
  }

  // ---- What others did ----

  // An edit of others came. `raw` is as the server sent it, and `heard` how many of this site's edits the server had then received.
  came({ raw, took, heard }) {
    raw.forEach((op, at) => {
      if (op.verb === "no" || op.verb === "ins") return;
      const { op: applied, value, left } = took[at];
      const isVoid = applied.verb === "no";
      const thing = this.#things.get(idOf(op));
      if (op.verb === "del" && !isVoid) this.#gone.set(idOf(op), left);
      if (isMove(op, raw[at + 1], thing?.labels ?? [value])) this.#theyMove(this.#thingOf(op, value), raw[at + 1].name, isVoid, heard);
      else if (op.verb === "del") this.#theyDelete(thing, op.name);
      else if (thing) this.#theyChange(thing, op.value, isVoid, heard);
    });
    this.#forget();
  }

  // If this site had deleted it too, the deletion is theirs: what it brought back or moved has to go.
  #theyDelete(thing, name) {
    if (!thing) return;
    Object.assign(thing, { isAway: true, isLost: true });
    if (thing.name !== name) this.#torn.add(thing);
  }

  // If this site had moved it too, or brought it back, its own item has to go. If this site had deleted or relabelled it, it does so again.
  // If the label was there before the move, the page of the one who moved it gives it again.
  #theyMove(thing, name, isVoid, heard) {
    if (isVoid && !thing.isAway) this.#giveUp(thing);
    this.#rename(thing, name);
    thing.where = this.#newVersion();
    if (isVoid || thing.open.some(({ nth }) => nth >= heard)) this.#torn.add(thing);
  }

  // The item that a thing has here is another of what others have, and has to go.
  #giveUp(thing) {
    const { name, now, nth, labels } = thing;
    const copy = Object.assign(new Thing(thing, name, now.value), { isAway: true, isLost: true, nth, labels, heir: thing });
    this.#things.set(idOf(copy), copy);
    this.#torn.add(copy);
  }

  // One who moved an item gives it the label that it had got before: that is no change.
  #theyChange(thing, value, isVoid, heard) {
    const theirs = { value, version: this.#newVersion() };
    if (thing.kind === "list" && value === thing.now.value) this.#torn.add(thing);
    else if (isVoid) this.#slip(thing, theirs, heard);
    else thing.become(theirs);
  }

  // Theirs comes before changes or a deletion of this site in the order, so these are played again after it. An undo and a redo count only
  // if they still find what they were made for.
  #slip(thing, theirs, heard) {
    thing.open = thing.open.filter(({ nth }) => nth >= heard);
    let now = theirs;
    for (const { record, way } of thing.open) {
      const [from, to] = sidesOf(record, way);
      if (way === "user" && now.version !== to.version) record.before = now;
      if (way === "user" || now.version === from.version) now = to;
    }
    const isOther = now.version !== thing.now.version;
    thing.become(theirs);
    thing.become(now);
    this.#torn.add(thing);
    if (thing.isAway && thing.by) this.#slipUnder(thing, thing.by, isOther);
  }

  // A user's deletion stands. One by an undo or a redo does not, if others have changed the item.
  #slipUnder(thing, { record, way }, isOther) {
    if (way === "user") record.version = thing.now.version;
    else if (isOther && !thing.isLost) {
      thing.isAway = false;
      record.isUndone = !record.isUndone;
    }
  }

  // The page has joined the same run as a new site, and the server had `taken` so many edits of the old one. What happened meanwhile shows
  // only in the two boards. What was not taken is torn, unless others have changed the same: `mend` makes it again.
  rejoin(old, now, taken = Infinity) {
    this.#torn.clear();
    this.end();
    this.#nth = -1;
    for (const [win, widgets] of old.windows) {
      for (const [wid, { items }] of widgets) {
        const { names } = now.widget(win, wid);
        items?.forEach(({ name }, at) => names.has(name) || this.#gone.set(idOf({ win, wid, name }), items[at - 1]?.name ?? null));
      }
    }
    // An item has the name that it had before a move that was not taken.
    for (const [id, thing] of this.#things) {
      const { names } = now.widget(thing.win, thing.wid);
      const [, name] = id.split(" ");
      if (names?.has(thing.name) || !names?.has(name)) continue;
      if (thing.nth >= taken && thing.kind === "list" && !thing.isAway) thing.goal ??= thing.name;
      thing.name = name;
    }
    const draft = new Draft(now, 0);
    for (const thing of new Set(this.#things.values())) this.#rejoinThing(thing, draft.valueOf(thing), taken);
  }

  // Until what is torn is made again, it counts as not taken.
  #rejoinThing(thing, found, taken) {
    const change = thing.open.find(({ nth }) => nth >= taken);
    const isHere = found !== undefined;
    const isSame = found === thing.now.value;
    const isAsBefore = change ? found === sidesOf(change.record, change.way)[0].value : isSame;
    const comes = !isHere && !thing.isAway && thing.born >= taken;
    const goes = isHere && thing.isAway && thing.nth >= taken && isAsBefore;
    const changes = isHere && !thing.isAway && !isSame && isAsBefore;
    const isTorn = comes || goes || changes || thing.goal !== null;
    const isAway = goes || !(isHere || comes);
    if (isHere && !(isSame || goes || changes)) thing.become({ value: found, version: this.#newVersion() });
    Object.assign(thing, { isLost: isAway && !goes && (thing.isLost || !thing.isAway), isAway, by: null });
    Object.assign(thing, { open: isTorn && change ? [{ ...change, nth: Infinity }] : NONE, nth: isTorn ? Infinity : -1, born: comes ? Infinity : -1 });
    if (isTorn) this.#torn.add(thing);
  }

  // ---- Undo and redo ----

  // A plan that takes the last step back, or null if there is none.
  undo() {
    return this.#plan(this.#done, "undo");
  }

  redo() {
    return this.#plan(this.#undone, "redo");
  }

  #plan(steps, way) {
    const step = steps.pop();
    if (!step) return null;
    this.end();
    this.#playing.add(step);
    return new Plan(way === "undo" ? step.records.toReversed() : [...step.records], {
      put: (record, draft) => this.#put(record, way, draft),
      made: (record, took, nth) => this.#made(record, way, took, nth),
      end: (left) => this.#end(step, steps, way, new Set(left)),
    });
  }

  // What a plan has left to do is a step of its own, where it was.
  #end(step, steps, way, left) {
    if (!this.#playing.delete(step)) return;
    if (left.size > 0) steps.push({ ...step, records: step.records.filter((it) => left.has(it)), how: null });
    const records = step.records.filter((it) => !left.has(it));
    const isUndo = way === "undo";
    const to = isUndo ? this.#undone : this.#done;
    if (records.some(({ isUndone }) => isUndone === isUndo)) to.push({ ...step, records, how: null });
    else this.#records -= records.length;
  }

  // Puts the commands of a record on a draft, unless others have changed what it is about. Returns whether the draft had room.
  #put(record, way, draft) {
    const { kind, thing } = record;
    if (record.isUndone !== (way === "redo") || thing.isLost) return true;
    if (kind === "ins" || kind === "del") {
      const comes = (kind === "ins") === (way === "redo");
      if (comes) return !thing.isAway || this.#insert(thing, thing.name, draft);
      if (!thing.isAway && thing.now.version === record.version) draft.delete(thing);
      return true;
    }
    const [from, to] = sidesOf(record, way);
    if (thing.isAway || (kind === "mov" ? thing.where : thing.now.version) !== from.version) return true;
    if (kind !== "mov") return draft.change(thing, to.value);
    if (draft.roomFor(thing) < 0) return false;
    draft.delete(thing);
    return this.#insert(thing, to.name, draft);
  }

  // Puts an item where the one of a name was. That is the place after the first item to the left that is there.
  #insert(thing, name, draft) {
    let place = -1;
    for (let it = name; place < 0 && it !== null && it !== undefined; it = this.#gone.get(idOf(thing, it))) place = draft.after(thing, it);
    return draft.insert(thing, Math.max(place, 0), name);
  }

  #made(record, way, took, nth) {
    const { kind, thing } = record;
    const [it, next] = took;
    record.isUndone = way === "undo";
    this.#nth = thing.nth = nth;
    if (kind === "mov") this.#moveBack(thing, sidesOf(record, way), it, next);
    else if (it.op.verb === "ins") this.#bringBack(thing, it);
    else if (it.op.verb === "del") this.#takeAway(thing, it, { record, way });
    else {
      thing.become(sidesOf(record, way)[1]);
      this.#await(thing, { nth, record, way });
    }
  }

  #moveBack(thing, [from, to], { left }, { op }) {
    from.name = thing.name;
    this.#gone.set(idOf(thing), left);
    this.#gone.set(idOf(thing, to.name), op.name);
    this.#rename(thing, op.name);
    to.name = op.name;
    thing.where = to.version;
  }

  // A plan that puts right what races have left, or null if there is nothing to do. It has to be asked for after each edit of others.
  mend() {
    if (this.#torn.size === 0) return null;
    return new Plan(Array.from(this.#torn, (thing) => ({ kind: thing.goal === null ? "fix" : "mov", thing })), {
      put: ({ thing }, draft) => this.#fix(thing, draft),
      made: ({ thing }, took, nth) => this.#fixed(thing, took, nth),
      end: () => {},
    });
  }

  // What is to be made again, by the keys of the widgets.
  get torn() {
    return grouped(this.#torn, keyOf);
  }

  // Gives up what is to come to widgets of a board that are full. Returns the values, by the keys of the widgets.
  giveUp(board) {
    const left = [...this.#torn].filter(({ win, wid, isAway }) => !isAway && board.widget(win, wid).items?.length >= MOST_ITEMS);
    for (const thing of left) {
      Object.assign(thing, { isAway: true, isLost: true });
      this.#torn.delete(thing);
    }
    return grouped(left.map((thing) => [keyOf(thing), thing.now.value]), ([key]) => key);
  }

  // Puts on a draft what makes the board show what a thing has to be.
  #fix(thing, draft) {
    const found = draft.valueOf(thing);
    if (found === undefined && !thing.isAway) return this.#insert(thing, thing.goal ?? thing.name, draft);
    if (found !== undefined && thing.isAway) draft.delete(thing);
    else if (thing.goal !== null) {
      if (draft.roomFor(thing) < 0) return false;
      draft.delete(thing);
      return this.#insert(thing, thing.goal, draft);
    } else if (found !== undefined && found !== thing.now.value) draft.change(thing, thing.now.value);
    else this.#torn.delete(thing);
    return true;
  }

  #fixed(thing, took, nth) {
    this.#nth = thing.nth = nth;
    this.#torn.delete(thing);
    for (const it of thing.open) if (it.nth === Infinity) it.nth = nth;
    for (const it of took) {
      // Of what is deleted again, the neighbour of the first time counts.
      if (it.op.verb === "del" && !this.#gone.has(idOf(thing))) this.#gone.set(idOf(thing), it.left);
      if (it.op.verb !== "ins") continue;
      if (thing.goal !== null) this.#gone.set(idOf(thing, thing.goal), it.op.name);
      if (took.length === 1) this.#bringBack(thing, it);
      else this.#rename(thing, it.op.name);
      Object.assign(thing, { goal: null, born: nth });
    }
  }

  // Forgets the names that no step can lead to, and no race.
  #forget() {
    if (this.#names < this.#mostNames) return;
    const taken = Math.max(-1, this.#nth - MOST_WAITING);
    const things = new Set([...this.#things.values()].filter((it) => it.nth > taken || this.#torn.has(it)));
    const gone = new Set();
    const follow = (thing, name = thing.name) => {
      for (let it = name, id; this.#gone.has((id = idOf(thing, it))) && !gone.has(id); it = this.#gone.get(id)) gone.add(id);
    };
    for (const { records } of [...this.#done, ...this.#undone, ...this.#playing]) {
      for (const { kind, thing, before, after } of records) {
        things.add(thing);
        if (kind === "mov") for (const { name } of [before, after]) follow(thing, name);
      }
    }
    for (const thing of things) follow(thing);
    for (const [id, thing] of this.#things) if (!things.has(thing)) this.#things.delete(id);
    for (const id of this.#gone.keys()) if (!gone.has(id)) this.#gone.delete(id);
    this.#mostNames = Math.max(FEWEST_NAMES, 2 * this.#names);
  }

  get #names() {
    return this.#things.size + this.#gone.size;
  }
}

// An edit that is put together. Each command is by the places that those before it leave, and each is about another thing.
class Draft {
  commands = [];
  things = new Set();
  #board;
  // From an item that it deletes or brings back to the number of the command.
  #marks = new Map();

  // The search for names begins near a place.
  constructor(board, near) {
    this.#board = board;
    this.near = near;
  }

  // The place after an item, or where one was that the edit deletes. It is -1 if the item is not there.
  after(at, name = at.name) {
    const mark = this.#marks.get(idOf(at, name));
    if (mark !== undefined) return this.#moved(at, this.commands[mark].place + (this.commands[mark].verb === "ins" ? 1 : 0), mark + 1);
    const { items, names } = this.#widget(at);
    if (!names.has(name)) return -1;
    this.near = placeOf(items, name, this.near);
    return this.#moved(at, this.near + 1, 0);
  }

  // Where a place between two items is after the commands from a number on.
  #moved(at, place, from) {
    const isBelow = (it, gap) => it.win === at.win && it.wid === at.wid && it.place < gap;
    return this.commands.slice(from).reduce((gap, it) => (isBelow(it, gap) ? gap + (GROWTH[it.verb] ?? 0) : gap), place);
  }

  // The value of a thing on the board, or undefined if it is not there.
  valueOf(thing) {
    const { names, items, value } = this.#widget(thing);
    if (thing.name === undefined) return value;
    if (!names.has(thing.name)) return undefined;
    this.near = placeOf(items, thing.name, this.near);
    return items[this.near].value;
  }

  delete(thing) {
    this.#put(thing, { verb: "del", place: this.after(thing) - 1 }, thing.name);
  }

  // How many items its widget still takes.
  roomFor(thing) {
    const here = this.commands.filter((it) => keyOf(it) === keyOf(thing));
    return here.reduce((room, { verb }) => room - (GROWTH[verb] ?? 0), MOST_ITEMS - this.#widget(thing).items.length);
  }

  // Returns whether there was room. The item comes to where the one of a name was.
  insert(thing, place, name) {
    if (this.roomFor(thing) < 1) return false;
    this.#put(thing, { verb: "ins", place, value: thing.now.value }, name);
    return true;
  }

  change(thing, value) {
    if (thing.name === undefined) this.#put(thing, { verb: "set", value });
    else this.#put(thing, { verb: "rel", place: this.after(thing) - 1, value });
    return true;
  }

  #put(thing, command, name) {
    if (name !== undefined) this.#marks.set(idOf(thing, name), this.commands.length);
    this.things.add(thing);
    this.commands.push({ win: thing.win, wid: thing.wid, ...command });
  }

  #widget({ win, wid }) {
    return this.#board.widget(win, wid);
  }
}

// What is to be done in as many edits as it takes. Others may change the board between two of them.
class Plan {
  // Whether a text has no room for what comes next.
  isFull = false;
  #tasks;
  #does;
  // How many tasks are done.
  #at = 0;
  // What the next edit is about, and how many tasks are done after it.
  #next = { parts: [], at: 0 };
  #near = 0;
  #skipped = 0;
  #counts = new Map();
  // What it did last.
  #last = null;

  constructor(tasks, does) {
    this.#tasks = tasks;
    this.#does = does;
  }

  // How many records it has not looked at yet.
  get left() {
    return this.#tasks.length - this.#at;
  }

  get isDone() {
    return this.isFull || this.left === 0;
  }

  // The widget that it begins with.
  get key() {
    return keyOf(this.#tasks[0].thing);
  }

  // The commands of the next edit on the present board. There are none if the plan is done.
  next(board) {
    const draft = new Draft(board, this.#near);
    const parts = [];
    let at = this.#at;
    for (; at < this.#tasks.length; at++) {
      const task = this.#tasks[at];
      const begin = draft.commands.length;
      const isLater = draft.things.has(task.thing) || begin + (task.kind === "mov" ? 2 : 1) > MOST_OPERATIONS;
      const hasRoom = isLater || this.#does.put(task, draft);
      this.isFull = !hasRoom && begin === 0;
      if (isLater || !hasRoom) break;
      if (draft.commands.length > begin) parts.push({ task, begin });
    }
    this.#next = { parts, at };
    this.#near = draft.near;
    if (parts.length === 0) this.#goOn();
    return draft.commands;
  }

  // The edit of these commands was made.
  made({ took, nth }) {
    const { parts } = this.#next;
    parts.forEach(({ task, begin }, at) => this.#does.made(task, took.slice(begin, parts[at + 1]?.begin), nth));
    for (const { task } of parts) this.#count(keyOf(task.thing), task.kind);
    this.#last = took.at(-1);
    this.#goOn();
  }

  #count(key, kind) {
    const it = this.#counts.get(key + kind) ?? { key, kind, count: 0 };
    it.count += 1;
    this.#counts.set(key + kind, it);
  }

  #goOn() {
    const { parts, at } = this.#next;
    this.#skipped += at - this.#at - parts.length;
    this.#at = at;
    this.#next = { parts: [], at };
  }

  // Ends it, even if records are left, and has to be called. `did` is how many records of which `kind` it took back or made again in which
  // widget (by `key`). It `skipped` those about what others have changed. `place` is the item that the last one was right of.
  finish() {
    this.#does.end(this.#tasks.slice(this.#at));
    return { did: [...this.#counts.values()], skipped: this.#skipped, isFull: this.isFull, place: this.#last && placeOn(this.#last) };
  }
}

const placeOn = ({ op, left }) => ({ key: keyOf(op), after: op.verb === "del" ? left : op.name });
