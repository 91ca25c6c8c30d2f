// A site of the protocol, without a page and without a socket. docs/PROTOCOL.md and docs/WIRE.md define what it does.
//
// An operation is an object: the ids `win` and `wid`, the `kind` of its widget (text, list, toggle, slider), and its `verb` (ins, del,
// rel, set, no). One on an item has a `place` and a `name`, and a new `value` if it inserts or relabels. A value is a scalar of
// Unicode in a text, a label in a list, a boolean of a toggle and a number of a slider. No operation is changed once it is made.

export const MOST_OPERATIONS = 32;
export const MOST_ITEMS = 65536;
export const MOST_WAITING = 1024;
export const MOST_LETTERS = 48; // of a label
const MOST_WIDGETS = 64;
const ACKNOWLEDGE_AFTER = 64;
const LINE_LIMIT = 256;
const LAST_PLACE = 4294967295;

export const FAULT = {
  NoWindow: 1, NoWidget: 2, WrongKind: 3, BadPlace: 4, BadValue: 5, LongText: 6, Backlog: 7, NoMemory: 8, Spent: 9, DoubleId: 10,
  TooMany: 11, BadId: 12, BadBounds: 13, BadBatch: 15, BadCount: 20, BadAck: 21, BadName: 22, BadOp: 23, Stopped: 25, Full: 30,
  SitesSpent: 31, LogFull: 32, NoSuchLink: 35, BadTaken: 36, BadLine: 40, LongLine: 41, BadVersion: 42, Misplaced: 44, BadItemName: 45, BadLimit: 50, BadSite: 51,
};

export class Fault extends Error {
  constructor(number) {
    super(`fault ${number}`);
    this.number = number;
  }
}

const fail = (number) => {
  throw new Fault(number);
};

// ---- Lines ----

const NUM = "(0|[1-9][0-9]*)";
const NAME = "((?:0|[1-9][0-9]*)\\.(?:0|[1-9][0-9]*))";
const INT = "(0|-?[1-9][0-9]*)";
const LABEL = `([ -~]{1,${MOST_LETTERS}})`;
const SETTING = "(on|off)";
const whole = (shape) => new RegExp(`^${shape}$`);
const LABEL_SHAPE = whole(LABEL);

export const isLabel = (text) => LABEL_SHAPE.test(text);
export const isScalar = (value) => Number.isInteger(value) && value >= 0 && (value < 0xd800 || value > 0xdfff) && value < 0x110000;

const matched = (shape, text) => shape.exec(text) ?? fail(FAULT.BadLine);
const below = (text, end) => (text.length <= 10 && Number(text) < end ? Number(text) : fail(FAULT.BadLine));
const num = (text) => below(text, 2 ** 32);
const id = (text) => below(text, 2 ** 16);
const int = (text) => (text.length <= 11 && Number(text) === (Number(text) | 0) ? Number(text) : fail(FAULT.BadLine));
const scalar = (text) => (isScalar(num(text)) ? num(text) : fail(FAULT.BadLine));
const setting = (text) => text === "on";

function name(text) {
  text.split(".").forEach(num);
  return text;
}

// The shape of what comes after each word, and what its fields are.
const WORDS = {
  hello: [whole(NUM), (version) => num(version) === 3 || fail(FAULT.BadVersion)],
  welcome: [whole(`${NUM} ${NUM}`), (site, limit) => ({ site: num(site), limit: num(limit) })],
  window: [whole(NUM), (it) => ({ id: id(it) })],
  text: [whole(NUM), (it) => ({ id: id(it) })],
  list: [whole(NUM), (it) => ({ id: id(it) })],
  toggle: [whole(`${NUM} ${SETTING}`), (it, value) => ({ id: id(it), value: setting(value) })],
  slider: [whole(`${NUM} ${INT} ${INT} ${INT}`), (it, low, high, value) => ({ id: id(it), low: int(low), high: int(high), value: int(value) })],
  char: [whole(`${NAME} ${NUM}`), (it, value) => ({ name: name(it), value: scalar(value) })],
  item: [whole(`${NAME} ${LABEL}`), (it, value) => ({ name: name(it), value })],
  batch: [whole(`${NUM} ${NUM} ${NUM}`), readBatch],
  do: [whole(`${NUM} ${NUM} (text|list|toggle|slider) (ins|del|rel|set|no)(?: (.*))?`), readOperation],
  ack: [whole(NUM), (it) => ({ number: num(it) })],
  ping: [whole(NUM), (it) => ({ number: num(it) })],
  pong: [whole(NUM), (it) => ({ number: num(it) })],
  error: [whole(NUM), (it) => ({ number: num(it) })],
  ready: [null, () => ({})],
  bye: [null, () => ({})],
};

// The shape of what comes after the kind and the verb of an operation, and what its fields are.
const BODIES = {
  "text ins": [whole(`${NUM} ${NAME} ${NUM}`), (place, it, value) => ({ place: num(place), name: name(it), value: scalar(value) })],
  "text del": [whole(`${NUM} ${NAME}`), (place, it) => ({ place: num(place), name: name(it) })],
  "list ins": [whole(`${NUM} ${NAME} ${LABEL}`), (place, it, value) => ({ place: num(place), name: name(it), value })],
  "list del": [whole(`${NUM} ${NAME}`), (place, it) => ({ place: num(place), name: name(it) })],
  "list rel": [whole(`${NUM} ${NAME} ${LABEL}`), (place, it, value) => ({ place: num(place), name: name(it), value })],
  "toggle set": [whole(SETTING), (value) => ({ value: setting(value) })],
  "slider set": [whole(INT), (value) => ({ value: int(value) })],
};

function readBatch(mine, heard, count) {
  const read = { mine: num(mine), heard: num(heard), count: num(count) };
  return read.count >= 1 && read.count <= MOST_OPERATIONS ? read : fail(FAULT.BadLine);
}

function readOperation(win, wid, kind, verb, rest) {
  const op = { win: id(win), wid: id(wid), kind, verb };
  if (verb === "no") return rest === undefined ? { op } : fail(FAULT.BadLine);
  const [shape, fields] = BODIES[`${kind} ${verb}`] ?? fail(FAULT.BadLine);
  return { op: { ...op, ...fields(...matched(shape, rest ?? "").slice(1)) } };
}

// A line, without its line feed, as its word and its fields.
export function readLine(line) {
  if (line.length >= LINE_LIMIT) fail(FAULT.LongLine);
  const [word] = line.split(" ", 1);
  const [shape, fields] = Object.hasOwn(WORDS, word) ? WORDS[word] : fail(FAULT.BadLine);
  if (shape === null) return line === word ? { word } : fail(FAULT.BadLine);
  return { word, ...fields(...matched(shape, line.slice(word.length + 1)).slice(1)) };
}

function operationLine(op) {
  const words = ["do", op.win, op.wid, op.kind, op.verb];
  if (op.verb === "set") words.push(op.kind === "toggle" ? (op.value ? "on" : "off") : op.value);
  else if (op.verb !== "no") words.push(op.place, op.name);
  if (op.verb === "ins" || op.verb === "rel") words.push(op.value);
  return words.join(" ");
}

// Cuts text that comes in pieces into its lines.
export class Lines {
  rest = "";

  // The lines that a piece completes, without their line feeds. What is too long for a line counts as one before its line feed comes.
  take(piece) {
    const lines = (this.rest + piece).split("\n");
    this.rest = lines.pop();
    if (this.rest.length < LINE_LIMIT) return lines;
    return [...lines, this.rest];
  }
}

// ---- Transforms ----

const moved = (op, place) => (place === op.place ? op : { ...op, place: Math.min(place, LAST_PLACE) });
const nothing = ({ win, wid, kind }) => ({ win, wid, kind, verb: "no" });

// An operation on a sequence past another, unless both insert at one place or relabel one item.
function past(op, other) {
  if (other.verb === "rel") return op;
  if (other.verb === "del") {
    if (op.verb !== "ins" && op.name === other.name) return nothing(op);
    return other.place < op.place ? moved(op, op.place - 1) : op;
  }
  const isPushed = op.verb === "ins" ? other.place < op.place : other.place <= op.place;
  return isPushed ? moved(op, op.place + 1) : op;
}

// The client's operation and the server's, each past the other. The client's counts as the later one.
export function transform(client, server) {
  if (client.win !== server.win || client.wid !== server.wid || client.verb === "no" || server.verb === "no") return [client, server];
  if (client.verb === "set") return [client, nothing(server)];
  if (client.verb === "rel" && server.verb === "rel") return [client, client.name === server.name ? nothing(server) : server];
  if (client.verb === "ins" && server.verb === "ins" && client.place === server.place) return [client, moved(server, server.place + 1)];
  return [past(client, server), past(server, client)];
}

// Two edits: each of the client's operations, in order, past the whole of the server's edit as it then is.
export function transformEdits(client, server) {
  const servers = [...server];
  const clients = client.map((op) => {
    let own = op;
    for (let i = 0; i < servers.length; i++) [own, servers[i]] = transform(own, servers[i]);
    return own;
  });
  return [clients, servers];
}

// ---- Boards ----

// `windows` maps the id of each window to a map of its widgets by their ids. A text and a list have `items` in order, each with its
// name and its value. A toggle and a slider have a `value`.
export class Board {
  windows = new Map();
  #window = null;
  #widget = null;

  widget(win, wid) {
    return this.windows.get(win)?.get(wid);
  }

  // Takes one line of a board.
  readLine(line) {
    if (line.word === "window") return this.#addWindow(line.id);
    if (line.word === "char" || line.word === "item") return this.#addItem(line);
    if (!this.#window) fail(FAULT.Misplaced);
    const { id, word: kind, ...rest } = line;
    if (kind === "slider" && (rest.value < rest.low || rest.value > rest.high)) fail(FAULT.BadBounds);
    testId(this.#window, id);
    this.#widget = kind === "text" || kind === "list" ? { kind, items: [], names: new Set() } : { kind, ...rest };
    return this.#window.set(id, this.#widget);
  }

  #addWindow(win) {
    testId(this.windows, win);
    this.#window = new Map();
    return this.windows.set(win, this.#window);
  }

  #addItem(line) {
    if (this.#widget?.kind !== (line.word === "char" ? "text" : "list")) fail(FAULT.Misplaced);
    if (this.#widget.names.has(line.name)) fail(FAULT.BadItemName);
    this.#widget.names.add(line.name);
    return this.#widget.items.push({ name: line.name, value: line.value });
  }

  // Applies one operation after another. Returns each as `op`, with the `value` that it replaced or deleted, and the name of the item to the
  // `left` of its place, or null. `operation` makes each of its step, on the board as it then is, and `test` may refuse them all at the
  // end. After a fault the board is as it was.
  applyAll(steps, operation = (op) => op, test = () => {}) {
    const took = [];
    const reverts = [];
    const names = new Set(); // those that an operation has inserted or deleted
    try {
      for (const step of steps) {
        const op = operation(step);
        if (op.verb === "ins" && names.has(op.name)) fail(FAULT.BadOp);
        const left = this.widget(op.win, op.wid)?.items?.[op.place - 1]?.name ?? null;
        const revert = this.#apply(op);
        reverts.push(revert);
        if (op.verb === "ins" || op.verb === "del") names.add(op.name);
        took.push({ op, value: revert.value, left });
      }
      test();
      return took;
    } catch (fault) {
      for (const revert of reverts.reverse()) this.#apply(revert);
      throw fault;
    }
  }

  // Applies an operation, and returns the one that reverts it.
  #apply(op) {
    if (op.verb === "no") return op;
    const widget = this.widget(op.win, op.wid);
    if (widget?.kind !== op.kind) fail(FAULT.BadOp);
    if (op.verb === "set") return set(widget, op);
    return op.verb === "ins" ? insert(widget, op) : change(widget, op);
  }
}

function testId(taken, id) {
  if (id === 0) fail(FAULT.BadId);
  if (taken.has(id)) fail(FAULT.DoubleId);
  if (taken.size >= MOST_WIDGETS) fail(FAULT.TooMany);
}

function set(widget, op) {
  if (widget.kind === "slider" && (op.value < widget.low || op.value > widget.high)) fail(FAULT.BadOp);
  const before = widget.value;
  widget.value = op.value;
  return { ...op, value: before };
}

function insert({ items, names }, op) {
  if (op.place > items.length || names.has(op.name)) fail(FAULT.BadOp);
  items.splice(op.place, 0, { name: op.name, value: op.value });
  names.add(op.name);
  return { ...op, verb: "del" };
}

// Deletes or relabels an item.
function change({ items, names }, op) {
  const before = items[op.place];
  if (before?.name !== op.name) fail(FAULT.BadOp);
  if (op.verb === "rel") {
    items[op.place] = { name: op.name, value: op.value };
    return { ...op, value: before.value };
  }
  items.splice(op.place, 1);
  names.delete(op.name);
  return { ...op, verb: "ins", value: before.value };
}

// ---- A site ----

const BOARD_WORDS = new Set(["window", "text", "list", "toggle", "slider", "char", "item"]);

// `send` takes text of whole lines that goes to the server. `told` is called with what happened:
// - "ready" once the board is there, and "pong" with its number
// - "made" with commands of its own: what `applyAll` returned (`took`), and how many edits it had made before theirs (`nth`)
// - "came" with an edit of others after it is applied: as it was sent (`raw`), as it was applied (`took`), and its `heard`. Then "changed"
//   with each operation of it.
export class Site {
  stage = "welcome"; // then "board", "open" and "stopped"
  board = new Board();
  site = 0;
  limit = 0;
  made = 0; // how many edits it made
  heard = 0; // how many edits it received
  #waiting = []; // its edits that the server is not known to have received
  #acknowledged = 0; // how many of its edits the server has acknowledged
  #unanswered = 0; // how many edits it received since it last sent an edit or an acknowledgement
  #insertions = 0;
  #pings = 0;
  #saidBye = false;
  #held = null; // the newest edit, if it was not sent yet
  #lines = []; // those of the board, until all are there
  #coming = null; // an edit of which more lines come
  #send;
  #told;

  constructor(send, told = () => {}) {
    this.#send = send;
    this.#told = told;
  }

  // Takes one line of the server. A fault stops the site.
  hear(line) {
    if (this.stage === "stopped") return;
    this.put();
    try {
      this.#take(readLine(line));
    } catch (fault) {
      this.stop();
      throw fault;
    }
  }

  stop() {
    this.stage = "stopped";
  }

  // Sends a ping, and returns its number. The pong comes once the server has taken all that was sent before the ping.
  ping() {
    this.#pings += 1;
    this.#send(`ping ${this.#pings}\n`);
    return this.#pings;
  }

  bye() {
    this.put();
    this.#saidBye = true;
    this.#send("bye\n");
  }

  // How many of its edits the server is not known to have received. It can make more while these are fewer than MOST_WAITING.
  get backlog() {
    return this.#waiting.length;
  }

  // How many of its edits were sent.
  get sent() {
    return this.made - (this.#held === null ? 0 : 1);
  }

  // Makes commands one edit, which is applied and sent. Returns its operations. A fault leaves everything as it was.
  edit(commands) {
    this.put();
    const ops = this.extend(commands);
    this.put();
    return ops;
  }

  // The same while nothing can be sent. The commands go into the newest edit if that has room, and it is sent by `put`, or once it is full.
  extend(commands) {
    if (this.stage !== "open") fail(FAULT.Stopped);
    if (commands.length < 1 || commands.length > MOST_OPERATIONS) fail(FAULT.BadBatch);
    if (this.#held?.length + commands.length > MOST_OPERATIONS) this.put();
    const took = this.#apply(commands);
    const ops = took.map(({ op }) => op);
    if (this.#held === null) {
      this.#waiting.push((this.#held = []));
      this.made += 1;
    }
    this.#held.push(...ops);
    this.#told("made", { took, nth: this.made - 1 });
    return ops;
  }

  // Sends the newest edit, if that waits for more. What comes then counts as received after it.
  put() {
    if (this.#held === null) return;
    const lines = [`batch ${this.made - 1} ${this.heard} ${this.#held.length}`, ...this.#held.map(operationLine)];
    this.#held = null;
    this.#unanswered = 0;
    this.#send(`${lines.join("\n")}\n`);
  }

  #apply(commands) {
    const insertions = this.#insertions;
    try {
      return this.board.applyAll(commands, (command) => this.#operation(command), () => this.#testRoom());
    } catch (fault) {
      this.#insertions = insertions;
      throw fault;
    }
  }

  #testRoom() {
    if (this.#held !== null) return;
    if (this.#waiting.length >= MOST_WAITING) fail(FAULT.Backlog);
    if (this.made >= this.limit) fail(FAULT.Spent);
  }

  // The operation that a command is on the present board. A command has no name, and may have the kind "char" or "item" to insert.
  #operation({ verb, win, wid, place, value, kind }) {
    if (!this.board.windows.has(win)) fail(FAULT.NoWindow);
    const widget = this.board.widget(win, wid) ?? fail(FAULT.NoWidget);
    const op = { win, wid, kind: widget.kind, verb };
    testFits(widget, verb, value, kind);
    if (verb === "set") return { ...op, value };
    if (place > widget.items.length - (verb === "ins" ? 0 : 1)) fail(FAULT.BadPlace);
    if (verb === "ins") {
      if (widget.items.length >= MOST_ITEMS) fail(FAULT.LongText);
      this.#insertions += 1;
      return { ...op, place, name: `${this.site}.${this.#insertions}`, value };
    }
    const found = { ...op, place, name: widget.items[place].name };
    return verb === "rel" ? { ...found, value } : found;
  }

  #take(line) {
    if (this.#coming) return this.#takeOperation(line);
    if (line.word === "error") fail(line.number);
    if (this.stage === "welcome") return this.#takeWelcome(line);
    return this.stage === "board" ? this.#takeBoard(line) : this.#takeMessage(line);
  }

  #takeWelcome({ word, site, limit }) {
    if (word !== "welcome") fail(FAULT.Misplaced);
    Object.assign(this, { site, limit, stage: "board" });
  }

  // A fault of a line counts before those of the board, and these before those of the limit and the number.
  #takeBoard(line) {
    if (line.word !== "ready") {
      if (!BOARD_WORDS.has(line.word)) fail(FAULT.Misplaced);
      this.#lines.push(line);
      return;
    }
    for (const it of this.#lines) this.board.readLine(it);
    if (this.limit < 1 || this.limit > 16777216) fail(FAULT.BadLimit);
    if (this.site < 1 || this.site > 65535 || this.#lines.some((it) => it.name && this.#isOwn(it.name))) fail(FAULT.BadSite);
    this.#lines = [];
    this.stage = "open";
    this.#told("ready");
  }

  #takeMessage(line) {
    switch (line.word) {
      case "batch":
        this.#coming = { ...line, ops: [] };
        break;
      case "ack":
        this.#drop(line.number);
        break;
      case "pong":
        this.#told("pong", line.number);
        break;
      case "bye":
        if (!this.#saidBye) fail(FAULT.Misplaced);
        this.stop();
        break;
      default:
        fail(FAULT.Misplaced);
    }
  }

  #takeOperation(line) {
    if (line.word !== "do") fail(FAULT.Misplaced);
    const { mine, heard, count, ops } = this.#coming;
    ops.push(line.op);
    if (ops.length < count) return;
    this.#coming = null;
    this.#receive(mine, heard, ops);
  }

  // An edit of others: it goes past all edits that the server had not received, and is then applied.
  #receive(mine, heard, ops) {
    if (mine !== this.heard) fail(FAULT.BadCount);
    this.#drop(heard);
    if (ops.some((op) => op.verb === "ins" && this.#isOwn(op.name))) fail(FAULT.BadName);
    let comes = ops;
    this.#waiting = this.#waiting.map((edit) => {
      const [own, others] = transformEdits(edit, comes);
      comes = others;
      return own;
    });
    const took = this.board.applyAll(comes);
    this.heard += 1;
    this.#acknowledge();
    this.#told("came", { raw: ops, took, heard });
    for (const op of comes) if (op.verb !== "no") this.#told("changed", op);
  }

  #acknowledge() {
    this.#unanswered += 1;
    if (this.#unanswered < ACKNOWLEDGE_AFTER) return;
    this.#unanswered = 0;
    this.#send(`ack ${this.heard}\n`);
  }

  // Drops the first edits that it made, which the server has received.
  #drop(count) {
    if (count < this.#acknowledged || count > this.made) fail(FAULT.BadAck);
    this.#waiting.splice(0, count - this.#acknowledged);
    this.#acknowledged = count;
  }

  #isOwn(itemName) {
    return itemName.startsWith(`${this.site}.`);
  }
}

function testFits(widget, verb, value, kind) {
  if (verb === "set") return testSetting(widget, value);
  const isText = widget.kind === "text";
  if (!isText && widget.kind !== "list") fail(FAULT.WrongKind);
  if (verb === "rel" && isText) fail(FAULT.WrongKind);
  if (verb === "ins" && kind && kind !== (isText ? "char" : "item")) fail(FAULT.WrongKind);
  if (verb !== "del" && !(isText ? isScalar(value) : isLabel(value))) fail(FAULT.WrongKind);
  return undefined;
}

function testSetting(widget, value) {
  const type = { toggle: "boolean", slider: "number" }[widget.kind];
  if (typeof value !== type) fail(FAULT.WrongKind);
  if (widget.kind === "slider" && (value < widget.low || value > widget.high)) fail(FAULT.BadValue);
}
