// What the head of the page says, and what a screen reader reads out.
import { counted } from "./texts.js";
import { found } from "./view.js";

// After how many milliseconds the page says that an edit is on its way, so that its words do not flicker.
const CALM = 200;
// After how many it says how many.
const SLOW = 2000;
// How many milliseconds are between two sentences to a reader of the screen.
const BETWEEN = 5000;

export class Status {
  isTelling = true; // whether changes of others are said
  #now = null; // how things are
  #wasSlow = false; // whether edits waited for long
  #timers = []; // after which more is shown
  #said = new Map(); // sentences that are still to be said, by what they are about
  #sayAt = 0; // when the next can be said
  #sayer = null;

  // Says how things are. `stage` is one of connecting, open, sending, draft, joining, full, waiting, offline and lost. `since` is when the oldest
  // edit was made that waits, and `slowly` are the words if that is long ago. Notices come in place of good news.
  tell({ stage, words, notices, since = null, slowly = words }) {
    document.body.dataset.stage = stage;
    found("state").hidden = stage === "open" && notices > 0;
    found("notice-count").hidden = notices === 0;
    found("notice-count").textContent = counted(notices, "notice");
    found("try-now").hidden = !["lost", "waiting", "offline"].includes(stage);
    const isSame = since !== null && this.#now?.since === since;
    this.#now = { words, since, slowly };
    if (!isSame) this.#wait();
    if (since === null || performance.now() - since >= CALM) this.#show();
  }

  #wait() {
    this.#timers.forEach(clearTimeout);
    const { since } = this.#now;
    this.#timers = since === null ? [] : [CALM, SLOW].map((wait) => setTimeout(() => this.#show(), Math.ceil(since + wait - performance.now()) + 1));
  }

  #show() {
    const { words, since, slowly } = this.#now;
    const isSlow = since !== null && performance.now() - since >= SLOW;
    if (isSlow || this.#wasSlow) this.announce("edits", isSlow ? slowly : words);
    this.#wasSlow = isSlow;
    found("state").textContent = isSlow ? slowly : words;
  }

  // Says something to a reader of the screen alone, one sentence at a time. A later one about the same takes the place of an earlier.
  announce(about, words) {
    if (about === "changes" && !this.isTelling) return;
    this.#said.delete(about);
    this.#said.set(about, words);
    this.#sayer ??= setTimeout(() => this.#sayNext(), Math.max(0, this.#sayAt - performance.now()));
  }

  #sayNext() {
    this.#sayer = null;
    const [first] = this.#said;
    if (!first) return;
    const [about, words] = first;
    this.#said.delete(about);
    found("news").textContent = words;
    this.#sayAt = performance.now() + BETWEEN;
    if (this.#said.size > 0) this.#sayer = setTimeout(() => this.#sayNext(), BETWEEN);
  }

  count(links) {
    found("who").textContent = links > 0 ? `${links} connected` : "";
  }
}
