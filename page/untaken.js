// The edits of this page that a server may not have taken. After a link was lost, what it has not taken is offered in the widgets.
import { isSameRun, maybeMissing, missing, wordsOf } from "./lost.js";

// A server that is killed loses what it took in its last two seconds, so the page remembers its edits for longer than that.
const REMEMBERED = 4000;
// A server can still take edits of a link that is lost. After how long the page looks at an offer again.
const LOOK_AGAIN = 300;
const LOST = "The server may not have this. Look at the board, and copy what is missing there.";

export class Untaken {
  #page;
  #edits = []; // their operations, their `view`, their `number`, when they were `made`, when they were confirmed `at`, and the `job` that made them
  #lost = null; // edits that the next board may lack, jobs, and the site that made them
  #offered = null; // edits that are offered, the site that made them, and the notices that do so
  #looker = null; // the timer after which an offer is looked at again

  constructor(page) {
    this.#page = page;
  }

  // An edit with its operations, its `view`, its `took` as `applyAll` returned it, the `job` that made it, and `after`, what the insertions of that job then came after.
  add(edit) {
    this.#edits.push({ ...edit, number: this.#page.editCount, made: performance.now(), at: null });
    edit.view.awaits(1);
  }

  // When the oldest edit was made that is not confirmed.
  get oldest() {
    return this.#edits.find(({ at }) => at === null)?.made ?? null;
  }

  // How many edits are not confirmed.
  get waiting() {
    return this.#unconfirmed.length;
  }

  get #unconfirmed() {
    return this.#edits.filter(({ at }) => at === null);
  }

  // What a later page could make: edits that are not confirmed, when the `oldest` was made, and the site that made them.
  get kept() {
    const { old, edits } = this.#lost ?? { old: this.#page.link.site, edits: this.#edits };
    const left = edits.filter(({ at }) => at === null);
    return { site: old, edits: left, oldest: left[0]?.made };
  }

  // How many edits of a site the server took before its link ended, as a later board of the same run shows.
  taken(old, board) {
    const edits = this.#unconfirmed;
    const left = missing(edits.map(({ ops }) => ops), old.site, board).length;
    return edits[edits.length - left - 1]?.number ?? (edits[0]?.number ?? old.made + 1) - 1;
  }

  // What is not confirmed is made again.
  forget() {
    for (const { view } of this.#unconfirmed) view.awaits(-1);
    this.#edits = [];
  }

  // Whether edits of a link that is lost wait for the next board.
  get isPending() {
    return this.#lost !== null;
  }

  // The server has taken so many edits for certain.
  confirmed(count) {
    const now = performance.now();
    for (const edit of this.#unconfirmed.filter(({ number }) => number <= count)) {
      edit.at = now;
      edit.view.awaits(-1);
    }
    this.#edits = this.#recent();
  }

  #recent() {
    const now = performance.now();
    return this.#edits.filter(({ at }) => at === null || now - at < REMEMBERED);
  }

  // The link of a site is lost, and these jobs with it.
  lose(old, jobs) {
    const edits = this.#recent();
    if (edits.length + jobs.length === 0) return;
    for (const { view, at } of edits) if (at === null) view.awaits(-1);
    this.#lost = { old, edits, jobs };
    this.#edits = [];
  }

  // A board is there again, perhaps of the same run of the server. Returns the jobs that go on.
  settle(isSame) {
    if (this.#lost === null) return [];
    const { old, edits, jobs } = this.#lost;
    this.#lost = null;
    return isSame ? this.#settleSame(old, edits, jobs) : this.#settleOther(old, edits, jobs);
  }

  // The board shows which edits were taken. Jobs make theirs again.
  #settleSame(old, edits, jobs) {
    const unconfirmed = edits.filter(({ at }) => at === null);
    const untaken = new Set(missing(unconfirmed.map(({ ops }) => ops), old.site, this.#page.board));
    const left = unconfirmed.filter(({ ops }) => untaken.has(ops));
    for (const job of jobs) job.takeBack(left.filter((it) => it.job === job));
    this.#offer(left.filter(({ job }) => !jobs.includes(job)).map(({ ops }) => ops), old);
    return jobs.filter((job) => !job.isDone);
  }

  // The board may lack the last edits that were confirmed, too, and no item has its name.
  #settleOther(old, edits, jobs) {
    const rests = new Map(jobs.map((job) => [job.view.key, job]));
    this.#offer(maybeMissing(edits.map(({ ops }) => ops), old.board, this.#page.board), old, rests);
    return [];
  }

  #offer(edits, old, rests = new Map()) {
    const { notices, views } = this.#page;
    const made = Array.from(wordsOf(edits, old.board, rests), ([key, text]) => notices.add({ view: views.get(key), words: LOST, text }));
    this.#offered = made.length > 0 ? { edits, old, notices: made } : null;
  }

  // Drops from an offer, a moment later, what the server has taken since.
  lookAgain() {
    if (this.#offered !== null) this.#looker ??= setTimeout(() => this.#look(), LOOK_AGAIN);
  }

  #look() {
    this.#looker = null;
    const { link, board, notices } = this.#page;
    if (this.#offered === null || !link.isOpen || !isSameRun(this.#offered.old, link.site)) return;
    const { edits, old, notices: made } = this.#offered;
    const left = missing(edits, old.site, board);
    if (left.length === edits.length) return;
    for (const element of made.filter((it) => it.isConnected)) notices.end(element);
    this.#offer(left, old);
  }
}
