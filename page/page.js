// The page: what its link tells, the edits and jobs of its views, and what its head says.
import { FAULT, Fault, MOST_OPERATIONS, MOST_WAITING } from "./core.js";
import { Drawing } from "./drawing.js";
import { Keeping } from "./keeping.js";
import { Link, later } from "./link.js";
import { isSameRun } from "./lost.js";
import { openMenu } from "./menu.js";
import { Held, Notices } from "./notices.js";
import { Status } from "./status.js";
import { TakingBack } from "./taking_back.js";
import { UNSENT, counted, reasonOf, shownAs } from "./texts.js";
import { Untaken } from "./untaken.js";
import { found } from "./view.js";
import { Windows } from "./windows.js";

// Jobs of at most so many steps are done while the user waits. Longer ones are done in pieces of so many milliseconds.
const SHORT = 256;
const JOB_SLICE = 8;
// How many edits long jobs leave to what the user does meanwhile, and how many a short job needs.
const SPARE = 64;
const NEEDED = SHORT / MOST_OPERATIONS;
// How often the page asks how many are connected.
const WHO = 5000;
// The refusals that a user can meet. Any other fault of an edit is a mistake of the page.
const REFUSALS = new Set([FAULT.LongText, FAULT.Backlog, FAULT.NoMemory, FAULT.Spent, FAULT.LogFull]);
const isFull = (fault) => fault === FAULT.Spent || fault === FAULT.LogFull;
// The ends of a link that a user need not know: the page joins again.
const UNSAID = new Set([null, FAULT.Full, FAULT.NoSuchLink, FAULT.BadTaken, FAULT.BadVersion]);

// The text at an address beside the page's own, or null if the server does not give it.
async function textAt(name) {
  try {
    const answer = await fetch(new URL(name, location.href), { cache: "no-store" });
    return answer.ok ? await answer.text() : null;
  } catch {
    return null;
  }
}

class Page {
  drafts = new Held(() => this.#tell()); // what is typed and not sent
  notices = new Notices(() => this.#tell());
  takingBack = new TakingBack(this);
  untaken = new Untaken(this);
  keeping = new Keeping(this);
  isReadOnly = false; // whether the server takes no more edits
  #windows;
  #drawing;
  #jobs = [];
  #shown = null; // the site whose board is shown
  #ended = null; // how the link of that site ended
  #reasons = new Map(); // the notices that say why something was refused, by their words
  #isWaiting = false; // whether the server has no room for this page
  #isWorking = false; // whether a task goes on with jobs
  #isMoving = false; // whether it goes from one board to another
  #status = new Status();

  constructor(captions) {
    this.#windows = new Windows(this, captions);
    this.#drawing = new Drawing(this.views);
    const address = new URL("ws", location.href);
    address.protocol = address.protocol.replace("http", "ws");
    this.link = new Link(address.href, (what, it) => this[what](it));
    this.#listen();
    openMenu(this, (isTelling) => (this.#status.isTelling = isTelling));
    setInterval(() => this.#countLinks(), WHO);
  }

  #listen() {
    addEventListener("pagehide", () => this.#leave());
    addEventListener("pageshow", (event) => event.persisted && this.link.comeBack());
    addEventListener("beforeunload", (event) => this.#isSaved() || this.keeping.isKeeping || event.preventDefault());
    addEventListener("online", () => this.link.hurry(true));
    document.addEventListener("visibilitychange", () => (document.hidden ? this.#hide() : this.link.hurry()));
    for (const act of ["keydown", "pointerdown"]) document.addEventListener(act, () => this.link.hurry());
    found("try-now").addEventListener("click", () => this.link.hurry());
    found("notice-count").addEventListener("click", () => this.notices.show());
  }

  get views() {
    return this.#windows.views;
  }

  get board() {
    return this.link.site.board;
  }

  // How many edits this page has made.
  get editCount() {
    return this.link.site.made;
  }

  // The name that an item of a view has now.
  nameOf(view, name) {
    return this.takingBack.nameOf(view, name);
  }

  captionOf(key, kind) {
    return this.#windows.captionOf(key, kind);
  }

  // ---- What the link tells ----

  ready() {
    const { site } = this.link;
    const old = this.#shown;
    const isFirst = old === null;
    const isSame = !isFirst && site.site > old.site && (this.#ended.goesOn || isSameRun(old, site));
    // A page that went on without its link makes again what the server has not taken.
    const goesOn = isSame && old.stage === "open" && !this.isReadOnly;
    this.#isMoving = true;
    const taken = goesOn ? (this.#ended.taken ?? this.untaken.taken(old, site.board)) : Infinity;
    if (!goesOn) this.#lose(old);
    else {
      this.takingBack.lost();
      this.untaken.forget();
    }
    this.#shown = site;
    this.#isWaiting = false;
    this.#windows.show(this.board, isSame);
    this.#isMoving = false;
    if (!isFirst) this.takingBack.joined(old.board, isSame, taken);
    this.#drawing.now();
    if (!goesOn) this.#jobs = this.untaken.settle(isSame);
    this.#setOpen();
    if (!this.isReadOnly) for (const element of this.#reasons.values()) this.notices.end(element);
    for (const view of this.views.values()) view.sendDrafts();
    if (isFirst) this.keeping.open();
    else this.#readCaptions();
    this.#status.announce("link", "Connected");
    this.#countLinks();
    this.#work();
  }

  made(it) {
    this.takingBack.made(it);
  }

  came(it) {
    this.takingBack.came(it);
    for (const op of it.raw) this.views.get(`${op.win}.${op.wid}`).came(op, it.heard);
    this.takingBack.mend();
  }

  changed(op) {
    const view = this.views.get(`${op.win}.${op.wid}`);
    view.changed();
    this.#status.announce("changes", `Others changed ${view.name.textContent}`);
  }

  heard() {
    this.takingBack.mend();
    this.#drawing.soon();
    this.#work();
    this.untaken.lookAgain();
  }

  confirmed() {
    this.untaken.confirmed(this.link.confirmed);
    for (const view of this.views.values()) view.confirmed(this.link.confirmed);
    this.#tell();
  }

  carried() {
    this.#status.announce("link", "Connected");
    this.#countLinks();
    this.#tell();
  }

  // The site has no carrier. The words change once the server may have given the link up.
  cut() {
    this.#status.count(0);
    this.#status.announce("link", this.link.isOpen ? "Offline. You can go on typing" : "The connection is lost. This page joins again by itself");
    setTimeout(() => this.#tell(), this.link.grace);
    this.#tell();
  }

  ended(it) {
    this.#ended = it;
  }

  // The link has ended, or the page could not join.
  lost(fault) {
    const isNew = this.#shown !== null && !["lost", "waiting", "offline"].includes(document.body.dataset.stage);
    this.isReadOnly = isFull(fault);
    this.#isWaiting = fault === FAULT.Full;
    if (!UNSAID.has(fault)) this.#explain(reasonOf(fault));
    if (!this.link.isOpen) this.#lose(this.#shown);
    this.#setOpen();
    if (isNew) this.cut();
  }

  // What the next board may lack is no more on its way.
  #lose(old) {
    this.takingBack.lost();
    this.untaken.lose(old, this.#jobs);
    this.#jobs = [];
  }

  // ---- Edits ----

  // Makes an edit for a view, perhaps one of a job. Returns its operations, or null if it is refused. `how` is as `note` of an undo takes
  // it.
  edit(view, commands, how = null, job = null) {
    if (!this.takesEdits) return null;
    const after = job?.after;
    try {
      const ops = this.link.edit(commands);
      this.takingBack.note(how);
      this.untaken.add({ ops, took: this.takingBack.took, view, job, after });
      this.#tell();
      return ops;
    } catch (fault) {
      if (!(fault instanceof Fault) || !REFUSALS.has(fault.number)) throw fault;
      this.#refuse(fault.number, view, job);
      return null;
    }
  }

  // What a refused edit was to bring stays in its field, or is offered if a job was to bring it.
  #refuse(fault, view, job) {
    const text = job?.rest.map(shownAs).join("") ?? "";
    if (text === "") this.#explain(reasonOf(fault), view);
    else this.notices.add({ view, words: reasonOf(fault), text });
    if (isFull(fault)) this.#closeForGood();
  }

  #closeForGood() {
    this.isReadOnly = true;
    this.#setOpen();
  }

  #explain(words, view = null) {
    if (!this.#reasons.get(words)?.isConnected) this.#reasons.set(words, this.notices.add({ view, words }));
  }

  // Whether a job is done while its user waits.
  isShort(job) {
    return job.left <= SHORT && !this.isBusyWith(job.view) && this.#hasRoom(NEEDED);
  }

  // Does a short job. Returns its operations, or null if one of its edits is refused.
  run(job) {
    const all = [];
    while (!job.isDone) {
      const ops = this.#next(job);
      if (ops === null) return null;
      all.push(...ops);
    }
    return all;
  }

  // Begins a job that it does in pieces. One that brings in what others may need comes first.
  begin(job) {
    if (job.isFirst) this.#jobs.unshift(job);
    else this.#jobs.push(job);
    this.#setOpen();
    this.#work();
  }

  // Stops a job, if it goes on.
  stop(job) {
    if (!this.#jobs.includes(job)) return;
    this.#jobs = this.#jobs.filter((it) => it !== job);
    job.end();
    this.#drawing.now();
    this.#setOpen();
  }

  get takesEdits() {
    return this.link.isOpen && !this.isReadOnly;
  }

  // Whether an edit of the page's own can be made now.
  get isReady() {
    return this.takesEdits && this.#hasRoom(NEEDED);
  }

  isBusyWith(view) {
    return this.#jobs.some((job) => job.view === view && !job.isFirst);
  }

  // Whether it brings in what it did without a link. Views then stay as they are.
  get isJoining() {
    return this.#isMoving || (this.#jobs[0]?.isFirst ?? false);
  }

  #hasRoom(edits) {
    return this.link.site.backlog + edits <= MOST_WAITING;
  }

  // Makes the next edit of a job. Returns its operations, or null if it is refused.
  #next(job) {
    const commands = job.next();
    const ops = commands.length > 0 ? this.edit(job.view, commands, job.how, job) : [];
    if (ops !== null) job.made(ops);
    return ops;
  }

  // Goes on with jobs as long as the server keeps up.
  #work() {
    if (this.#isWorking || this.#jobs.length === 0 || !this.link.isOpen) return;
    const end = performance.now() + JOB_SLICE;
    while (this.#jobs.length > 0 && this.#hasRoom(SPARE) && performance.now() < end) {
      const [job] = this.#jobs;
      const ops = this.#next(job);
      job.show();
      if (ops === null || job.isDone) this.stop(job);
    }
    this.#drawing.soon();
    this.#tell();
    this.#isWorking = this.#jobs.length > 0 && this.#hasRoom(SPARE);
    if (this.#isWorking) later(() => this.#goOn());
  }

  #goOn() {
    this.#isWorking = false;
    this.#work();
  }

  // ---- What waits for its user ----

  #isSaved() {
    const isSent = !this.untaken.isPending && this.#jobs.length === 0 && this.untaken.waiting === 0;
    return isSent && this.drafts.count === 0 && !this.notices.isOffering;
  }

  // Texts that are in no edit: what notices offer, drafts, and what jobs have to go.
  get texts() {
    const drafts = [...this.views.values()].flatMap(({ key, drafts }) => drafts.map((text) => [key, text]));
    const rests = this.#jobs.filter(({ rest }) => rest.length > 0).map(({ view, rest }) => [view.key, rest.map(shownAs).join("")]);
    return [...this.notices.offers, ...[...drafts, ...rests].map(([key, text]) => ({ key, words: UNSENT, text }))];
  }

  // The tab is hidden, or left, which hides it later. What the page brings in is brought in whole.
  #hide() {
    if (this.link.hasLeft) return;
    for (const view of this.views.values()) view.hide();
    this.keeping.now();
  }

  #leave() {
    const [job] = this.#jobs;
    if (this.isJoining) {
      this.run(job);
      this.stop(job);
    }
    this.keeping.now();
    this.link.leave();
  }

  // ---- What is shown ----

  drawSoon() {
    this.#drawing.soon();
  }

  // Says something to a reader of the screen, and beside the caption of a view.
  say(about, words, view = null) {
    view?.remark(words);
    this.#status.announce(about, words);
  }

  #setOpen() {
    for (const view of this.views.values()) view.setOpen(this.takesEdits);
    this.takingBack.tell();
    this.#tell();
  }

  // Says in the head of the page how things are.
  #tell() {
    this.#status.tell({ ...this.#state, notices: this.notices.count });
    this.keeping.soon();
  }

  get #state() {
    const left = this.#jobs.reduce((sum, job) => sum + job.left, 0);
    const { waiting } = this.untaken;
    const edits = `${counted(waiting, "edit")} wait${waiting === 1 ? "s" : ""}`;
    const isKept = this.link.isKept;
    const sending = `${isKept ? "Saving" : "Sending"} \u2026`;
    if (this.#isWaiting) return { stage: "waiting", words: "64 people are here. You come in when one leaves" };
    if (!this.link.isOpen) return { stage: "lost", words: "Offline" };
    if (!this.link.isCarried) return { stage: "offline", words: this.#wordsOffline(edits) };
    if (this.isJoining) return { stage: "joining", words: `Bringing in ${counted(left, "character")} \u2026` };
    if (left > 0) return { stage: "sending", words: `${counted(left, "character")} to go` };
    if (waiting > 0) return { stage: "sending", words: sending, slowly: `${sending} ${edits}`, since: this.untaken.oldest };
    if (this.isReadOnly) return { stage: "full", words: "Read only: the board is full" };
    return this.drafts.count > 0 ? { stage: "draft", words: counted(this.drafts.count, "draft") } : { stage: "open", words: isKept ? "Saved" : "Sent" };
  }

  #wordsOffline(edits) {
    const { cutAt, grace } = this.link;
    if (Date.now() - cutAt >= grace) return `Offline since ${cutAt.toTimeString().slice(0, 5)}. What you type is kept here and goes to the board later`;
    return this.untaken.waiting > 0 ? `Offline. ${edits} ${this.keeping.isRefused ? "in this tab" : "on this device"}` : "Offline";
  }

  async #readCaptions() {
    const text = await textAt("captions");
    if (text !== null) this.#windows.caption(text);
  }

  async #countLinks() {
    if (document.hidden || !this.link.isCarried) return;
    const [count, state] = (await textAt("who"))?.split("\n") ?? [];
    this.#status.count(this.link.isCarried ? Number.parseInt(count, 10) : 0);
    if (state !== "full" || this.isReadOnly) return;
    this.#explain(reasonOf(FAULT.LogFull));
    this.#closeForGood();
  }
}

new Page((await textAt("captions")) ?? "");
