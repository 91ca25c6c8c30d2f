// The link of a page to its server: WebSockets, the sites at its ends, and what the server has confirmed.
import { FAULT, Fault, Site } from "./core.js";
import { Lasting } from "./lasting.js";

// For how many milliseconds lines are taken at a time, so that the page answers its user meanwhile.
const LINES_SLICE = 8;
// How many lines are taken between two looks at the clock.
const LINES_BETWEEN = 16;
// How often the link is looked after, after how much silence it is tried, and how long the answer may take.
const BEAT = 5000;
const QUIET = 20000;
const SILENT = 15000;
// How old a ping without an answer is if a network that has come back has lost it.
const OLD = 1000;

// Runs a task after those that wait, in a hidden page too, where timers are slow.
const channel = new MessageChannel();
const tasks = [];
channel.port1.onmessage = () => tasks.shift()();
export function later(task) {
  tasks.push(task);
  channel.port2.postMessage(null);
}

const connector = (address) => ({ opened, came, closed }) => {
  const socket = new WebSocket(address);
  socket.addEventListener("open", opened);
  socket.addEventListener("message", ({ data }) => came(data));
  socket.addEventListener("close", closed);
  return {
    send: (text) => socket.readyState === WebSocket.OPEN && socket.send(text),
    end: () => socket.close(),
    get unsent() {
      return socket.bufferedAmount;
    },
  };
};

// `site` is the one whose board is there, also after its link has ended: what it then sends goes nowhere. Another one takes its place once
// the page has joined again.
//
// `told` is called with "ready" and "confirmed", with "carried" and "cut" when the site has a carrier again and has none, and with "heard"
// after lines were taken. It is called with what the site says of edits of others. Once its link has ended, that is with "ended": how many
// of its edits the server has `taken`, or null if that is not known, and whether the server `goesOn`. Then, and whenever the page could not
// join, it is called with "lost" and the number of the fault, or null.
export class Link {
  confirmed = 0; // how many of the site's edits the server has taken for certain
  site = new Site(() => {});
  cutAt = null; // when the site lost its carrier
  #told;
  #lasting;
  #owner = null; // the site that the link belongs to, perhaps one that has not joined yet
  #sent = null; // how many edits it had sent when it said `bye`
  #unheard = []; // lines that are not taken yet
  #ended = null; // how the link has ended, if that is to be told after them
  #isDue = false; // whether a task takes them
  #asked = null; // the ping that is not answered: its number, and how many edits were made before it

  constructor(address, told) {
    this.#told = told;
    this.#lasting = new Lasting(connector(address), {
      begins: () => this.#begin(),
      hears: (lines) => this.#came(lines),
      carried: () => this.#carried(),
      cut: () => this.#cut(),
      over: (it) => this.#came([], it),
    });
    setInterval(() => this.#beat(), BEAT);
    this.#lasting.open();
  }

  // Whether edits can be made, with or without a carrier.
  get isOpen() {
    return this.site.stage === "open";
  }

  // Whether what is edited goes to the server.
  get isCarried() {
    return this.isOpen && this.#lasting.isCarried && this.#owner === this.site && this.#sent === null;
  }

  // Whether the link has ended, and the page has to join as another site.
  get isApart() {
    return this.#owner !== this.site;
  }

  // Whether what the server confirms outlives it.
  get isKept() {
    return this.#lasting.isKept;
  }

  // For how many milliseconds the server waits for a carrier.
  get grace() {
    return this.#lasting.seconds * 1000;
  }

  // Tries again soon, if there is no carrier. If a network `isBack`, one that does not answer is gone.
  hurry(isBack = false) {
    if (isBack && this.#asked !== null && this.isCarried && performance.now() - this.#asked.at > OLD) this.#lasting.cut();
    this.#lasting.hurry();
  }

  edit(commands) {
    const ops = this.isCarried ? this.site.edit(commands) : this.site.extend(commands);
    this.#ask();
    return ops;
  }

  leave() {
    this.hasLeft = true;
    if (!this.isApart && this.isOpen) {
      this.site.bye();
      this.#sent = this.site.made;
    }
    this.#lasting.close();
    this.#cut();
  }

  comeBack() {
    if (!this.hasLeft) return;
    this.hasLeft = false;
    this.#lasting.open();
  }

  #begin() {
    const site = new Site(
      (text) => site === this.#owner && this.#sent === null && this.#lasting.put(text),
      (what, it) => this.#happened(site, what, it),
    );
    this.#owner = site;
    this.#sent = null;
    this.#unheard = [];
    this.#asked = null;
  }

  #carried() {
    if (!this.isCarried) return;
    this.site.put();
    this.cutAt = null;
    this.#ask();
    this.#told("carried");
  }

  #cut() {
    this.cutAt ??= new Date();
    if (this.isOpen) this.#told("cut");
  }

  #came(lines, ended = null) {
    this.#unheard.push(...lines);
    this.#ended ??= ended;
    if (!this.#isDue) this.#hear();
  }

  #hear() {
    const site = this.#owner;
    const lines = this.#unheard;
    const end = performance.now() + LINES_SLICE;
    let count = 0;
    try {
      while (count < lines.length && (count % LINES_BETWEEN > 0 || performance.now() < end)) site.hear(lines[count++]);
    } catch (fault) {
      if (!(fault instanceof Fault)) throw fault;
      this.#lasting.close();
      this.#ended = { fault: lines[count - 1] === "bye" ? null : fault.number, lost: null, goesOn: false };
      count = lines.length;
    }
    lines.splice(0, count);
    this.#isDue = lines.length > 0;
    if (this.#isDue) later(() => this.#hear());
    else if (this.#ended !== null) this.#lose(this.#ended);
    this.#told("heard");
  }

  #happened(site, what, it) {
    if (what === "ready") {
      Object.assign(this, { site, confirmed: 0, cutAt: null });
      this.#told(what);
    } else if (what !== "pong") this.#told(what, it);
    else if (it === this.#asked?.number) {
      this.confirmed = this.#asked.made;
      this.#asked = null;
      this.#told("confirmed");
      this.#ask();
    }
  }

  // Asks whether the server has taken all edits, unless it is asked already.
  #ask() {
    if (this.isCarried && this.#asked === null && this.confirmed < this.site.made) this.#ping();
  }

  #ping() {
    this.#asked = { number: this.site.ping(), made: this.site.made, at: performance.now() };
  }

  // A carrier can end without a word, as where a network breaks.
  #beat() {
    this.#lasting.tend();
    const { silence } = this.#lasting;
    if (!this.isCarried || (this.#asked !== null && performance.now() - this.#asked.at > SILENT)) {
      if (silence > SILENT) this.#lasting.cut();
    } else if (this.#asked === null && silence > QUIET) this.#ping();
  }

  // The link has ended. In protocol 3 the site ends with it.
  #lose({ fault, lost, goesOn }) {
    const site = this.#owner;
    const sent = this.#sent ?? site?.sent;
    this.#ended = this.#owner = this.#asked = null;
    this.cutAt ??= new Date();
    if (this.#lasting.version === 3) this.site.stop();
    if (this.hasLeft) return;
    this.#lasting.openLater(fault === FAULT.Full || fault === FAULT.SitesSpent);
    if (site === this.site) this.#told("ended", { taken: lost === null ? null : sent - lost, goesOn });
    this.#told("lost", fault);
  }
}
