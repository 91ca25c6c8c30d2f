#!/usr/bin/env node
// jup.js [--protocol 4] HOST:PORT: a client with the page's core and its link that reads the commands of `jup` (docs/PROGRAMS.md), so that
// the conformance kit can judge them. Its waits between two tries are a quarter of those of the page, so that the kit need not wait so long.
import net from "node:net";
import readline from "node:readline";
import { Fault, Site, isLabel } from "../core.js";
import { Lasting } from "../lasting.js";

const WAITS = [125, 250, 500, 1000, 1250];
// How many tries it makes without ever having had a link. In milliseconds, how often it looks at the clock, and how long it waits for the
// server to end a connection.
const MOST = 3;
const BEAT = 500;
const LAST = 2000;

const NUMBER = "(0|[1-9]\\d*)";
const EDIT = new RegExp(`^(ins|del|rel|set) ${NUMBER} ${NUMBER} (.*)$`);
const BATCH = /^batch (\d|[1-5]\d|6[0-4])$/;
const VALUES = { set: /^(on|off|0|-?[1-9]\d*)$/, del: /^(\d+)$/, ins: /^(\d+) (char|item) "(.*)"$/, rel: /^(\d+) (item ){0}"(.*)"$/ };
const QUOTED = /^(?:[ !#-\[\]-~]|\\"|\\\\|\\u\{(?:0|[1-9a-f][0-9a-f]*)\})*$/;

const say = (text) => process.stdout.write(`${text}\n`);

function quoted(text) {
  const spelled = (it) => (it === '"' || it === "\\" ? `\\${it}` : it >= " " && it <= "~" ? it : `\\u{${it.codePointAt(0).toString(16)}}`);
  return `"${Array.from(text, spelled).join("")}"`;
}

// The text between two quotes, or null if that is not its one spelling.
function unquoted(text) {
  if (!QUOTED.test(text)) return null;
  try {
    const found = text.replace(/\\u\{(\w+)\}|\\(["\\])/g, (_, hex, plain) => plain ?? String.fromCodePoint(Number.parseInt(hex, 16)));
    return quoted(found) === `"${text}"` ? found : null;
  } catch {
    return null;
  }
}

const isId = (text) => text.length <= 5 && Number(text) < 65536;
const isPlace = (text) => /^(0|[1-9]\d{0,9})$/.test(text) && Number(text) < 4294967296;
const isInt = (text) => text.length <= 11 && Number(text) === (Number(text) | 0);

// The command that a line spells, or null.
function readCommand(line) {
  const [, verb, win, wid, rest] = EDIT.exec(line) ?? [];
  const found = VALUES[verb]?.exec(rest);
  if (!found || !isId(win) || !isId(wid)) return null;
  const command = { verb, win: Number(win), wid: Number(wid) };
  if (verb === "set") return readSetting(command, found[1]);
  if (!isPlace(found[1])) return null;
  command.place = Number(found[1]);
  return verb === "del" ? command : readItem(command, found[2] ?? "item", unquoted(found[3]));
}

function readSetting(command, text) {
  if (text === "on" || text === "off") return { ...command, value: text === "on" };
  return isInt(text) ? { ...command, value: Number(text) } : null;
}

function readItem(command, kind, text) {
  if (text === null) return null;
  if (kind === "char") return Array.from(text).length === 1 ? { ...command, kind, value: text.codePointAt(0) } : null;
  return isLabel(text) ? { ...command, kind, value: text } : null;
}

function widgetLine([wid, it]) {
  if (it.kind === "text") return `text ${wid} ${quoted(it.items.map((item) => String.fromCodePoint(item.value)).join(""))}`;
  if (it.kind === "list") return [`list ${wid}`, ...it.items.map((item) => quoted(item.value))].join(" ");
  return it.kind === "toggle" ? `toggle ${wid} ${it.value ? "on" : "off"}` : `slider ${wid} ${it.low} ${it.high} ${it.value}`;
}

const byId = (map) => [...map].sort(([a], [b]) => a - b);
const boardLines = (board) => byId(board.windows).flatMap(([win, widgets]) => [`window ${win}`, ...byId(widgets).map(widgetLine)]);

// An operation as `made` prints it.
function editWords({ verb, win, wid, kind, name, value }) {
  const words = [verb, win, wid];
  if (verb === "set") words.push(kind === "toggle" ? (value ? "on" : "off") : value);
  else words.push(name);
  if (verb === "ins" || verb === "rel") words.push(quoted(kind === "text" ? String.fromCodePoint(value) : value));
  return words.join(" ");
}

// What opens connections for a link.
const connector = (address) => ({ opened, came, closed }) => {
  const [host, port] = address.split(/:(?=\d+$)/);
  const socket = net.connect(Number(port), host).setNoDelay(true);
  socket.on("connect", opened).on("data", (data) => came(data.toString("latin1"))).on("close", closed).on("error", () => {});
  return {
    send: (text) => socket.write(text),
    end: () => setTimeout(() => socket.destroy(), LAST, socket.end()).unref(),
    get unsent() {
      return socket.writableLength;
    },
  };
};

class Client {
  site = null;
  commands = [];
  coming = []; // lines of the server, which are taken only while a command waits
  isClosed = false; // whether no more commands come
  isBusy = true; // whether the next command has to wait: before the site is open, and within a sync
  ended = null; // how the link ended
  hasLeft = false;
  isOver = false;
  awaited = 0;

  constructor(address, version) {
    const does = {
      begins: () => this.begins(),
      hears: (lines) => this.comes(() => this.coming.push(...lines)),
      carried: () => {},
      cut: () => {},
      over: (ended) => this.comes(() => (this.ended = ended)),
    };
    this.link = new Lasting(connector(address), does, { version, waits: WAITS, most: MOST });
    setInterval(() => this.link.tend(), BEAT).unref();
    this.link.open();
    this.typed = readline.createInterface({ input: process.stdin, crlfDelay: 0, terminal: false });
    this.typed.on("line", (line) => this.types(() => this.commands.push(line)));
    this.typed.on("close", () => this.types(() => (this.isClosed = true)));
  }

  begins() {
    this.coming = [];
    this.site = new Site((text) => this.link.put(text), (what, number) => this.told(what, number));
  }

  comes(step) {
    step();
    this.take();
  }

  types(step) {
    step();
    if (!this.isBusy) this.work();
  }

  told(what, number) {
    if (what === "ready") say(`site ${this.site.site}`);
    else if (what === "pong" && number === this.awaited) say("synced");
    else return;
    this.work();
  }

  // Takes the lines that have come, as long as a command waits for them.
  take() {
    try {
      while (this.isBusy && !this.isOver && this.coming.length > 0) this.site.hear(this.coming.shift());
      if (this.isBusy && this.ended !== null) this.finds(this.ended);
    } catch (fault) {
      if (!(fault instanceof Fault)) throw fault;
      this.ends(fault.number);
    }
  }

  // The link has ended, and all that came was heard.
  finds({ fault, lost }) {
    if (this.hasLeft) this.end(lost === 0 ? 0 : 4);
    else if (this.site === null && fault === null) this.end(1);
    else this.ends(fault ?? 43);
  }

  // Does commands until one has to wait for the server.
  work() {
    this.isBusy = false;
    while (!this.isBusy && !this.isOver && this.commands.length > 0) {
      const count = Number(BATCH.exec(this.commands[0])?.[1] ?? 0);
      if (this.commands.length <= count && !this.isClosed) return;
      this.does(this.commands.shift(), count);
    }
    if (!this.isBusy && !this.isOver && this.isClosed) this.quit();
  }

  does(line, count) {
    if (line === "quit") this.quit();
    else if (line === "show") say(boardLines(this.site.board).join("\n"));
    else if (line === "sync") {
      this.isBusy = true;
      this.awaited = this.site.ping();
      this.take();
    } else this.edit(BATCH.test(line) ? Array.from({ length: count }, () => this.commands.shift() ?? "") : [line]);
  }

  edit(lines) {
    const commands = lines.map(readCommand);
    if (commands.includes(null)) {
      say("bad command");
      return;
    }
    try {
      say(`made ${this.site.edit(commands).map(editWords).join("; ")}`);
    } catch (fault) {
      if (!(fault instanceof Fault)) throw fault;
      say(`refused ${fault.number}`);
    }
  }

  quit() {
    this.isBusy = true;
    this.hasLeft = true;
    this.site.bye();
    say("bye");
    if (this.link.version === 3) this.end(0);
    else this.take();
  }

  ends(number) {
    if (this.isOver) return;
    say(`fault ${number}`);
    this.end(4);
  }

  end(status) {
    this.isOver = true;
    process.exitCode = status;
    this.link.close();
    this.typed.close();
    process.stdin.destroy();
  }
}

const words = process.argv.slice(2);
const version = words[0] === "--protocol" ? Number(words.splice(0, 2)[1]) : 3;
new Client(words[0], version);
