// What this browser keeps of a board: work of the page that is not sent, and that of earlier pages until their user decides about it.
//
// A record belongs to one page, its owner. A page that opens takes over those whose owners are gone.
import { partOf, undoOf } from "./records.js";
import { Store } from "./store.js";
import { counted } from "./texts.js";

// After how many milliseconds a change is kept, and how many times as long as keeping takes.
const KEPT_AFTER = 200;
const SHARE_OF_KEEPING = 10;
// How long other pages may take to say that they are there.
const ANSWER = 500;
const ASKS = "asks";
const FORGETS = "forgets";
const NOT_KEPT = "This browser keeps nothing for this page. What waits is gone once you close this tab.";
const LOOK = "Look at the board, and copy what is missing there.";
const NOT_NOW = "This can\u2019t be brought in now.";

export class Keeping {
  isKeeping = false; // whether the browser keeps what the page has
  isRefused = false; // whether it refused to keep something, or its user forgot the board
  #page;
  #store = new Store();
  #board = location.pathname;
  #id = `${Date.now()} ${Math.random()}`;
  #owners = new Set([this.#id]); // pages that are there
  #found = new Map(); // of earlier pages, by their ids: each `record`, its owner `from`, its `notice`, and the `undo` that made a part of it at a `site`
  #kept = new Map(); // the records that the store has of this page
  #channel = null;
  #notice = null; // says that the browser keeps nothing
  #timer = null;
  #pause = KEPT_AFTER;
  #isOver = false;

  constructor(page) {
    this.#page = page;
    document.addEventListener("input", () => this.soon());
  }

  // ---- Work of this page ----

  // Something has changed.
  soon() {
    this.#timer ??= setTimeout(() => this.#write(), this.#pause);
  }

  // The page may go.
  now() {
    this.#write(true);
  }

  async #write(isLast = false) {
    clearTimeout(this.#timer);
    this.#timer = null;
    if (this.#isOver || this.#page.isJoining) return;
    const begun = performance.now();
    const [before, records] = [this.#kept, this.#records(isLast)];
    this.#pause = KEPT_AFTER + SHARE_OF_KEEPING * (performance.now() - begun);
    if (this.#page.untaken.waiting > 0 && !records.has(this.#id)) this.soon();
    if (before.size + records.size === 0) return;
    this.#kept = records;
    try {
      await this.#store.change((store) => {
        for (const id of before.keys()) if (!records.has(id)) store.delete(id);
        for (const [id, record] of records) if (before.get(id) !== record) store.put(record);
        // A page that goes hears no more of it.
        store.transaction.commit();
      });
      this.#tell(true);
    } catch {
      this.#kept = new Map([...before, ...this.#kept]);
      this.#tell(false, records.size > 0);
    }
  }

  // A notice says that something is refused, as long as that is so.
  #tell(isKeeping, isRefused = false) {
    if (this.#isOver) return;
    this.isKeeping = isKeeping;
    if (isRefused === this.isRefused) return;
    this.isRefused = isRefused;
    if (isRefused) this.#notice = this.#page.notices.add({ words: NOT_KEPT });
    else this.#page.notices.end(this.#notice);
  }

  #records(isLast) {
    const found = Array.from(this.#found, ([id, { record }]) => [id, record]);
    const own = this.#own(isLast);
    return new Map(own === null ? found : [[this.#id, own], ...found]);
  }

  // Edits that were made a moment ago are on their way, and not kept unless the page may go.
  #own(isLast) {
    const { texts, untaken, link } = this.#page;
    const { site, edits, oldest } = untaken.kept;
    const isKept = edits.length > 0 && (isLast || !link.isCarried || performance.now() - oldest >= KEPT_AFTER);
    if (!isKept && texts.length === 0) return null;
    const time = performance.timeOrigin + (edits.at(-1)?.made ?? performance.now());
    return { id: this.#id, owner: this.#id, board: this.#board, time, texts, ...(isKept && partOf(site, edits)) };
  }

  // ---- Work of earlier pages ----

  // Takes over the records of the board whose owners are gone, and offers what is in them.
  async open() {
    for (const [record, from] of await this.#claimed().catch(() => [])) {
      this.#kept.set(record.id, record);
      this.#offer(record, from);
    }
    this.#write();
  }

  async #claimed() {
    this.#channel = new BroadcastChannel(`gidzvruka ${this.#board}`);
    this.#channel.onmessage = ({ data }) => this.#told(data);
    for (const it of [this.#id, ASKS]) this.#channel.postMessage(it);
    await this.#store.change(() => {});
    this.isKeeping = true;
    await new Promise((done) => setTimeout(done, ANSWER));
    const claimed = [];
    await this.#store.change((store) => {
      store.getAll().onsuccess = ({ target }) => {
        for (const it of target.result.filter(({ board, owner }) => board === this.#board && !this.#owners.has(owner))) {
          const record = { ...it, owner: this.#id };
          claimed.push([record, it.owner]);
          store.put(record);
        }
      };
    });
    return claimed;
  }

  // Another page asks which pages are there, has the user forget the board, or is there: then its records are its own.
  #told(data) {
    if (data === ASKS) this.#channel.postMessage(this.#id);
    else if (data === FORGETS) this.#end();
    else {
      this.#owners.add(data);
      for (const [id, { from, notice }] of this.#found) {
        if (from !== data) continue;
        this.#found.delete(id);
        this.#kept.delete(id);
        this.#page.notices.end(notice);
      }
    }
  }

  #offer({ texts, ...rest }, from) {
    const { notices, views } = this.#page;
    for (const { key, words, text } of texts) notices.add({ view: views.get(key), words, text });
    if (rest.words) this.#offerEdits({ ...rest, texts: [] }, from);
  }

  #offerEdits(record, from, undo = null) {
    const { notices, link } = this.#page;
    const { site } = link;
    const lacks = (undo ?? undoOf(record, site))?.torn;
    if (lacks === undefined) return this.#offerWords(record);
    if (lacks.size === 0) return this.#drop(record);
    const words = `${when(record)}: ${Array.from(lacks, ([key, { length }]) => this.#phrase(key, length)).join(", ")}.`;
    const text = record.words.map(([key, it]) => `${this.#captionOf(key)}:\n${it}`).join("\n\n");
    const notice = notices.add({ words, text, isFolded: true, choices: { "Bring in": () => this.#bringIn(record.id), Discard: () => this.#drop(record) } });
    return this.#found.set(record.id, { record, from, notice, undo, site });
  }

  // No names lead from these edits to the board.
  #offerWords(record) {
    const { notices, views } = this.#page;
    for (const [key, text] of record.words) notices.add({ view: views.get(key), words: `${when(record)}. ${LOOK}`, text });
    this.#drop(record);
  }

  #captionOf(key) {
    return this.#page.captionOf(key, this.#page.views.get(key)?.widget.kind);
  }

  #phrase(key, count) {
    const { kind } = this.#page.views.get(key).widget;
    const unit = { text: "character", list: "item" }[kind];
    return unit ? `${counted(count, unit)} in ${this.#captionOf(key)}` : this.#captionOf(key);
  }

  #bringIn(id) {
    const { takingBack, notices, link } = this.#page;
    const { record, from, undo, site } = this.#found.get(id);
    if (!takingBack.isIdle) {
      notices.add({ words: NOT_NOW });
      return this.#offerEdits(record, from, undo);
    }
    const plays = undo === null ? undoOf(record, link.site) : site === link.site ? undo : null;
    if (plays === null) return this.#offerWords(record);
    return takingBack.bringIn(plays, {}, (isDone) => (isDone ? this.#drop(record) : this.#offerEdits(record, from, plays)));
  }

  // The record goes. What of it was made is work of this page.
  #drop({ id }) {
    this.#found.delete(id);
    this.#write(true);
  }

  // ---- Forgetting ----

  // Deletes all that the browser keeps of the board, and keeps no more of it until a page of it is opened again.
  async forget() {
    this.#channel?.postMessage(FORGETS);
    this.#end();
    const forgets = ({ target: { result, source } }) => result.filter(({ board }) => board === this.#board).forEach(({ id }) => source.delete(id));
    await this.#store.change((store) => (store.getAll().onsuccess = forgets)).catch(() => {});
  }

  #end() {
    this.#isOver = this.isRefused = true;
    this.isKeeping = false;
    for (const { notice } of this.#found.values()) this.#page.notices.end(notice);
    this.#found.clear();
  }
}

const when = ({ time }) => `You wrote this here on ${new Date(time).toLocaleString("en", { weekday: "long", month: "long", day: "numeric" })}, and it was not sent`;
