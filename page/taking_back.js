// Undo and redo in the page: their keys, their buttons, their words, and the edits of plans. What they do is decided in undo.js.
//
// A race of labels is settled in one place. A label that a user sent is that of `Relabels` in its list: it goes together with the one of
// others, or the user is asked. What an undo or a redo put back is no part of `Relabels` any more, and `mend` settles it: theirs stays.
// `mend` alone settles all other races: of moves, of deletions, and of settings.
import { FAULT } from "./core.js";
import { settingOf } from "./files.js";
import { counted, grouped, reasonOf, shownAs } from "./texts.js";
import { Undo } from "./undo.js";
import { found } from "./view.js";

// The `how` of an edit of a plan, which is no step.
const NO_STEP = Symbol("no step");
const KEYS = { z: "undo", y: "redo" };
const MENUS = { historyUndo: "undo", historyRedo: "redo" };
const DONE = { undo: "Undone", redo: "Done again" };
const NOTHING = { undo: "There is nothing to undo", redo: "There is nothing to do again" };
const RESTARTED = "The server was started again, so there is nothing to undo";
const OFFLINE = "Undo works again once the link is back";
const OTHERS = "Others have changed this since";
const NO_ROOM = "There was no room for the rest";
// What records of a list are called.
const UNITS = { ins: "item", del: "item", rel: "label", mov: "move" };

// A plan as a job of the page.
class Playback {
  how = NO_STEP;
  rest = [];
  isFirst = false; // whether it goes before other jobs
  #board;
  #does;

  // `does.made` gets the operations of each edit. `does.ended` is called when it is done or refused.
  constructor(way, plan, view, board, does) {
    Object.assign(this, { way, plan, view });
    this.#board = board;
    this.#does = does;
  }

  get isDone() {
    return this.plan.isDone;
  }

  get left() {
    return this.plan.left;
  }

  next() {
    return this.plan.next(this.#board);
  }

  made(ops) {
    if (ops.length > 0) this.#does.made(ops);
  }

  show() {}

  end() {
    this.#does.ended();
  }
}

export class TakingBack {
  drag = null; // the `how` of the drag of a text that goes on
  #page;
  #undo = new Undo();
  #made = null; // the last edit of this page, as its site told it
  #job = null; // the undo or redo that goes on
  #joining = null; // the undo whose edits are brought in
  #nothing = NOTHING.undo;

  constructor(page) {
    this.#page = page;
    document.addEventListener("keydown", (event) => this.#key(event));
    document.addEventListener("beforeinput", (event) => this.#menu(event));
    for (const kind of ["pointerdown", "focusout"]) document.addEventListener(kind, () => this.#undo.end());
    document.addEventListener("dragstart", () => (this.drag = {}));
    document.addEventListener("dragend", () => (this.drag = null));
    for (const way of ["undo", "redo"]) {
      // The cursor stays where it is.
      found(way).addEventListener("mousedown", (event) => event.preventDefault());
      found(way).addEventListener("click", () => this.#act(way));
    }
  }

  // ---- What this page and others do ----

  made(it) {
    this.#made = it;
  }

  // The last edit was one of the user, or of a job of theirs.
  note(how) {
    if (how === NO_STEP) return;
    this.#undo.note(this.#made, how, performance.now());
    this.#nothing = NOTHING.undo;
    this.tell();
  }

  came(it) {
    for (const undo of new Set([this.#undo, this.#joining ?? this.#undo])) undo.came(it);
  }

  // The last edit of this page as `applyAll` returned it.
  get took() {
    return this.#made.took;
  }

  nameOf(view, name) {
    return this.#undo.nameOf(view, name);
  }

  // Puts right what races have left, as far as edits can be made now.
  mend() {
    const plan = this.#page.isReady && !this.#job?.isFirst && this.#undo.mend();
    if (!plan) return;
    while (!plan.isDone) {
      const commands = plan.next(this.#page.board);
      const ops = commands.length > 0 ? this.#page.edit(this.#viewOf(commands[0]), commands, NO_STEP) : [];
      if (ops === null) return;
      if (ops.length > 0) this.#mended(plan, ops);
    }
    this.#page.drawSoon();
  }

  #mended(plan, ops) {
    plan.made(this.#made);
    for (const view of this.#viewsOf(ops).keys()) {
      view.isStale = true;
      view.follow();
    }
  }

  // The page has joined, and had another board before. `isSame` is whether that was of the same run of the server. If so, it had `taken` so
  // many edits, and the others are made again.
  joined(old, isSame, taken) {
    if (isSame) {
      this.#undo.rejoin(old, this.#page.board, taken);
      this.bringIn(this.#undo, NO_STEP);
    } else {
      if (this.#undo.canUndo || this.#undo.canRedo) this.#nothing = RESTARTED;
      this.#undo = new Undo();
    }
    this.tell();
  }

  // Whether something can be brought in now.
  get isIdle() {
    return this.#job === null && this.#page.isReady;
  }

  // Makes again what is torn of an undo: that of this page, or one of an earlier page, whose edits are a step then. `ended` is called with
  // whether all of it is made.
  bringIn(undo, how, ended = () => {}) {
    const plan = undo.mend();
    const { board } = this.#page;
    const end = () => {
      this.#broughtIn(board);
      ended(plan === null || plan.isDone);
    };
    if (plan === null) return end();
    this.#joining = undo;
    const job = this.#jobOf("mend", plan, (ops) => this.#mended(plan, ops), () => (plan.isFull ? this.#giveUp(undo, how, ended) : end()));
    return this.#start(Object.assign(job, { how, isFirst: true }));
  }

  // The link is lost. What an undo has not done yet stays to be done.
  lost() {
    this.#page.stop(this.#job);
  }

  // ---- Keys, menus and buttons ----

  #key(event) {
    if (/^(Arrow|Page|Home|End)/.test(event.key)) this.#undo.end();
    if (event.isComposing || event.altKey || !(event.ctrlKey || event.metaKey)) return;
    // On a keyboard of other letters a key counts by its place.
    const letter = /^[a-z]$/i.test(event.key) ? event.key.toLowerCase() : event.code.slice(3).toLowerCase();
    const way = letter === "z" && event.shiftKey ? "redo" : KEYS[letter];
    if (way === undefined) return;
    event.preventDefault();
    this.#act(way);
  }

  // A browser's own undo finds its old text no more once others have edited.
  #menu(event) {
    const way = MENUS[event.inputType];
    if (way === undefined) return;
    event.preventDefault();
    if (!event.isComposing) this.#act(way);
  }

  // Says whether there is something for the buttons.
  tell() {
    const isIdle = this.#page.takesEdits && this.#job === null;
    found("undo").ariaDisabled = String(!(isIdle && this.#undo.canUndo));
    found("redo").ariaDisabled = String(!(isIdle && this.#undo.canRedo));
  }

  #act(way) {
    const { activeElement } = document;
    const at = [...this.#page.views.values()].find(({ element }) => element.contains(activeElement));
    if (this.#job !== null || (way === "undo" && at?.drops(activeElement))) return;
    if (!this.#page.takesEdits) return this.#say(this.#page.isReadOnly ? reasonOf(FAULT.LogFull) : OFFLINE, at);
    if (way === "undo") this.#page.stop(this.#undo.how);
    const plan = way === "undo" ? this.#undo.undo() : this.#undo.redo();
    if (plan === null) return this.#say(way === "undo" ? this.#nothing : NOTHING.redo, at);
    this.#play(way, plan);
  }

  #play(way, plan) {
    this.#start(this.#jobOf(way, plan, (ops) => this.#playbackMade(plan, ops), () => this.#ended(way, plan)));
  }

  #jobOf(way, plan, made, ended) {
    return new Playback(way, plan, this.#page.views.get(plan.key), this.#page.board, { made, ended });
  }

  #start(job) {
    this.#job = job;
    if (!this.#page.isShort(job)) this.#page.begin(job);
    else {
      this.#page.run(job);
      job.end();
    }
    this.tell();
  }

  #playbackMade(plan, ops) {
    plan.made(this.#made);
    for (const [view, some] of this.#viewsOf(ops)) view.tookBack(some);
  }

  // What has no room is offered, and the rest is brought in.
  #giveUp(undo, how, ended) {
    this.#job = null;
    for (const [key, some] of undo.giveUp(this.#page.board)) {
      const view = this.#page.views.get(key);
      const text = view.widget.kind === "text" ? some.map(([, value]) => shownAs(value)).join("") : some.map(([, label]) => label).join("\n");
      this.#page.notices.add({ view, words: reasonOf(FAULT.LongText), text });
    }
    this.bringIn(undo, how, ended);
  }

  // What was done without a link is there again, or refused. The page goes on, unless it has another board by now.
  #broughtIn(board) {
    this.#job = this.#joining = null;
    if (board === this.#page.board) for (const view of this.#page.views.values()) view.goOn();
    this.#page.drawSoon();
    this.tell();
  }

  #ended(way, plan) {
    this.#job = null;
    const ending = plan.finish();
    const { key, after } = ending.place ?? { key: plan.key };
    const view = this.#page.views.get(key);
    view.reveal(after);
    this.#page.drawSoon();
    this.#say(this.#sentence(way, ending), view);
    this.tell();
  }

  #say(words, view) {
    if (words !== "") this.#page.say("undo", words, view);
  }

  // ---- Words ----

  #sentence(way, { did, skipped, isFull }) {
    if (did.length === 0) return isFull ? reasonOf(FAULT.LongText) : skipped > 0 ? OTHERS : "";
    const phrases = Array.from(grouped(did, ({ key }) => key), ([key, some]) => this.#phrase(this.#page.views.get(key), some));
    const words = `${DONE[way]}: ${phrases.join(", ")}`;
    return isFull ? `${words}. ${NO_ROOM}` : words;
  }

  #phrase({ widget, name }, did) {
    const caption = name.textContent;
    if (did[0].kind === "set") return `${caption}, now ${settingOf(widget)}`;
    const counts = grouped(did, ({ kind }) => (widget.kind === "text" ? "character" : UNITS[kind]));
    const sum = (some) => some.reduce((total, { count }) => total + count, 0);
    return `${Array.from(counts, ([unit, some]) => counted(sum(some), unit)).join(" and ")} in ${caption}`;
  }

  // ---- Views ----

  #viewOf({ win, wid }) {
    return this.#page.views.get(`${win}.${wid}`);
  }

  // The operations, by their views.
  #viewsOf(ops) {
    return grouped(ops, (op) => this.#viewOf(op));
  }
}
