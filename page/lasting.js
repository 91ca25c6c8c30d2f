// A link that outlives its connections (docs/WIRE.md): what it keeps, counts and says, and when it tries again. At a server that knows
// protocol 3 alone a link is one connection. Nothing here needs a page or a socket.
import { FAULT, Lines } from "./core.js";

// A `got` is due after so many lines, and after so many milliseconds in which nothing was written.
const GOT_AFTER = 64;
const IDLE = 60000;
// A carrier on which nothing came for so long is cut. From when one has lived for so long, the waits begin short again.
const SILENCE = 90000;
const LIVED = 10000;
// How long to wait for the next try. Each wait is up to a fifth longer or shorter, so that clients come one after the other.
const WAITS = [500, 1000, 2000, 4000, 5000];
const SPREAD = 0.2;
// How long a user's act waits after the last try.
const HURRY = 1000;
// How many characters go out as one message. The server takes 65,536 bytes.
const MOST_SENT = 32768;
const MOST_SECONDS = 86400;
const HIGHEST = 2 ** 32;
// By these a server refuses a `resume` for good.
const ENDINGS = [FAULT.NoSuchLink, FAULT.BadTaken, FAULT.BadLine, FAULT.BadVersion];

const LINK = /^link ([0-9a-f]{32}) (0|[1-9]\d{0,4})( kept)?$/;
const NOTE = /^(resumed|ended|error|got) (0|[1-9]\d{0,9})$/;
// The fields of a note, of which the second is a number, or null if the line is none.
const fields = (shape, line) => {
  const found = shape.exec(line);
  return found && Number(found[2]) < HIGHEST ? found : null;
};

// `connect` opens a connection and calls `opened`, `came` with a text, and `closed` of what it is given. It returns what has `send` of a
// text, `end`, and how many bytes are still `unsent`. `does` is called so:
// - `begins` once a link begins, so that a site can take its lines
// - `hears` with lines for the site
// - `carried` and `cut` when a carrier has come, and has gone
// - `over` once the link has ended: the `fault`, if there was one, how many edits were `lost`, if that is known, and whether the server
//   `goesOn` for certain
export class Lasting {
  isCarried = false; // whether lines go to the server now
  isKept = false; // whether what the server confirms outlives it
  seconds = 0; // for how long the link waits for a carrier
  version;
  #connect;
  #does;
  #waits;
  #most; // how many tries it makes without ever having had a link
  #now;
  #token = null;
  #isReady = false;
  #isOver = false;
  #last = null; // the number that the server's last line has, or 0 for a `bye`
  #taken = 0; // how many lines of the way down it has taken
  #kept = []; // its lines that the server has not confirmed
  #confirmed = 0; // how many it has
  // The carrier: its part of a line, how many of the site's lines it was given (null before its first line came) and the last `got`. Then
  // when something came and was written, and when that first line came.
  #carrier = null;
  #lines = null;
  #written = null;
  #got = 0;
  #owesGot = false;
  #unsent = 0;
  #heardAt = 0;
  #handedAt = 0;
  #begunAt = Infinity;
  #comes = []; // lines for the site that it was not given yet
  #isDue = false; // whether a task writes
  #tries = 0;
  #triedAt = -Infinity;
  #retry = null;

  constructor(connect, does, { version = 4, waits = WAITS, most = Infinity, now = () => performance.now() } = {}) {
    this.#connect = connect;
    this.#does = does;
    this.#waits = waits;
    this.#most = most;
    this.#now = now;
    this.version = version;
  }

  // For how long nothing came of the carrier.
  get silence() {
    return this.#now() - this.#heardAt;
  }

  // Opens a link, or goes on with it on a new carrier.
  open() {
    clearTimeout(this.#retry);
    this.#retry = null;
    this.#drop();
    this.#isOver = false;
    this.#triedAt = this.#heardAt = this.#now();
    this.#lines = new Lines();
    const ifMine = (step) => (it) => carrier === this.#carrier && step(it);
    const carrier = this.#connect({ opened: ifMine(() => this.#greet()), came: ifMine((text) => this.#came(text)), closed: ifMine(() => this.cut()) });
    this.#carrier = carrier;
  }

  // Opens it after a wait. A long one is for a server that has no room.
  openLater(isLong = false) {
    const wait = this.#waits[isLong ? this.#waits.length - 1 : Math.min(this.#tries, this.#waits.length - 1)];
    this.#tries += 1;
    this.#openIn(wait * (1 - SPREAD + 2 * SPREAD * Math.random()));
  }

  #openIn(wait) {
    clearTimeout(this.#retry);
    this.#retry = setTimeout(() => this.open(), wait);
  }

  // Its user has come back, so the next try is due: now, or a second after the last one.
  hurry() {
    if (this.#retry !== null) this.#openIn(Math.max(0, this.#triedAt + HURRY - this.#now()));
  }

  // Puts whole lines of the site.
  put(text) {
    this.#kept.push(...text.split("\n").slice(0, -1));
    this.#soon();
  }

  // Ends the link without a word to the server.
  close() {
    clearTimeout(this.#retry);
    this.#retry = null;
    this.#isOver = true;
    this.#flush();
    this.#drop();
  }

  // Has to be called every few seconds. A carrier that still takes what is written is alive.
  tend() {
    if (this.#carrier === null) return;
    const { unsent } = this.#carrier;
    if (unsent < this.#unsent) this.#heardAt = this.#now();
    this.#unsent = unsent;
    if (this.silence >= SILENCE) this.cut();
    else if (this.version > 3 && this.isCarried && this.#now() - this.#handedAt >= IDLE) {
      this.#owesGot = true;
      this.#flush();
    }
  }

  // ---- Carriers ----

  #greet() {
    if (this.version === 3) this.#begin(null);
    else this.#carrier.send(this.#token ? `resume ${this.#token} ${this.#taken}\n` : "hello 4\n");
  }

  // A new link, whose lines are counted from the first.
  #begin(token) {
    this.#forget();
    this.#token = token;
    if (token === null) this.#carrier.send("hello 3\n");
    this.#does.begins();
    this.#carry(0);
  }

  #forget() {
    this.#token = null;
    this.#isReady = false;
    this.#last = null;
    this.#taken = 0;
    this.#kept = [];
    this.#confirmed = 0;
  }

  // The carrier goes on after so many of the site's lines.
  #carry(written, owesGot = false) {
    this.#written = written;
    this.#owesGot = owesGot;
    this.#got = this.#taken;
    this.#begunAt = this.#handedAt = this.#now();
    this.#unsent = 0;
    this.isCarried = true;
    this.#does.carried();
    this.#flush();
  }

  #drop() {
    const carrier = this.#carrier;
    this.#carrier = null;
    this.#written = null;
    this.isCarried = false;
    if (this.#now() - this.#begunAt >= LIVED) this.#tries = 0;
    this.#begunAt = Infinity;
    carrier?.end();
  }

  // Ends a carrier that says no more, or does not come. The next one comes after a wait.
  cut() {
    if (this.#carrier === null) return;
    const wasCarried = this.isCarried;
    this.#drop();
    this.#most -= 1;
    if (this.#isOver) return;
    if (this.version === 3 || this.#most < 1) this.#end();
    else {
      this.openLater();
      if (wasCarried) this.#does.cut();
    }
  }

  // The link is over. The first `covered` lines of the site had their effect, if that is known.
  #end(fault = null, covered = null, goesOn = false) {
    this.#isOver = true;
    this.#drop();
    this.#handOn();
    const lines = covered === null ? null : this.#kept.slice(covered - this.#confirmed);
    const lost = lines && lines.filter((it) => it.startsWith("batch ")).length + Number(lines[0]?.startsWith("do ") ?? false);
    this.#forget();
    this.#does.over({ fault, lost, goesOn });
  }

  // ---- What comes ----

  #came(text) {
    this.#heardAt = this.#now();
    const carrier = this.#carrier;
    for (const line of this.#lines.take(text)) {
      if (carrier !== this.#carrier || this.#last !== null) break;
      if (!this.isCarried) this.#answered(line);
      else if (this.#takes(line)) this.#comes.push(line);
    }
    this.#handOn();
    if (carrier !== this.#carrier) return;
    this.#flush();
    if (this.#last !== null) this.#end(this.#last || null, this.#confirmed, this.#last !== 0);
  }

  #handOn() {
    if (this.#comes.length > 0) this.#does.hears(this.#comes.splice(0));
  }

  // The first line of a carrier. One that no server sends is a cut.
  #answered(line) {
    if (this.#token) this.#resumed(line);
    else {
      const [, token, seconds, kept] = fields(LINK, line) ?? [];
      const [, word, number] = fields(NOTE, line) ?? [];
      if (token && seconds <= MOST_SECONDS) {
        this.#most = Infinity;
        Object.assign(this, { seconds: Number(seconds), isKept: kept !== undefined });
        this.#begin(token);
      } else if (word !== "error") this.cut();
      else if (Number(number) === FAULT.BadVersion) {
        this.version = 3;
        this.open();
      } else this.#end(Number(number), 0);
    }
  }

  #resumed(line) {
    const [, word, number] = fields(NOTE, line) ?? [];
    const count = Number(number);
    const isRight = count >= this.#confirmed && count <= this.#confirmed + this.#kept.length;
    if (word === undefined || word === "got" || (word === "error" && !ENDINGS.includes(count))) this.cut();
    else if (word === "resumed") {
      if (isRight) this.#carry(count, true);
      else this.#end(FAULT.BadTaken);
    } else if (!this.#isReady) {
      this.#forget();
      this.cut();
    } else if (word === "error") this.#end(count);
    else this.#end(isRight ? null : FAULT.NoSuchLink, isRight ? count : null, isRight);
  }

  // Takes a line. Returns whether it is one for the site. A note is none of the link, and the last line is for the link itself.
  #takes(line) {
    if (this.version === 3) return true;
    const [, word, number] = fields(NOTE, line) ?? [];
    if (word === "got") return this.#confirm(Number(number));
    this.#taken += 1;
    this.#isReady ||= line === "ready";
    this.#last = word === "error" ? Number(number) : line === "bye" ? 0 : null;
    this.#owesGot ||= this.#last !== null;
    return this.#last === null;
  }

  #confirm(count) {
    if (count < this.#confirmed || count > this.#written) this.#end(FAULT.BadTaken);
    else {
      this.#kept.splice(0, count - this.#confirmed);
      this.#confirmed = count;
    }
    return false;
  }

  // ---- What goes out ----

  // What is put within one task goes as one message.
  #soon() {
    if (!this.#isDue) queueMicrotask(() => this.#flush());
    this.#isDue = true;
  }

  #flush() {
    this.#isDue = false;
    if (!this.isCarried) return;
    const owesGot = this.version > 3 && (this.#owesGot || this.#taken - this.#got >= GOT_AFTER);
    const lines = this.#last !== null ? [] : this.#kept.slice(this.#written - this.#confirmed);
    let text = [...(owesGot ? [`got ${this.#taken}`] : []), ...lines].map((line) => `${line}\n`).join("");
    if (text === "") return;
    if (owesGot) [this.#owesGot, this.#got] = [false, this.#taken];
    this.#written += lines.length;
    this.#handedAt = this.#now();
    if (this.version === 3) this.#confirm(this.#written);
    for (; text !== ""; text = text.slice(MOST_SENT)) this.#carrier.send(text.slice(0, MOST_SENT));
  }
}
