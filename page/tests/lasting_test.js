// Tests of the link that outlives its connections, and of edits that wait for one: `node --test page/tests/lasting_test.js`.
import assert from "node:assert/strict";
import test from "node:test";
import { Fault, Site } from "../core.js";
import { Lasting } from "../lasting.js";

const TOKEN = "0f1e2d3c4b5a69788796a5b4c3d2e1f0";
const EDIT = "batch 0 0 2\ndo 1 1 text ins 0 1.1 97\ndo 1 1 text ins 1 1.2 98\n";
const BOARD = "welcome 1 100\nwindow 1\ntext 1\nready\n";
const WAITS = [500, 1000, 2000, 4000, 5000];

// A link whose connections and whose clock are a test's. `carriers` has what each connection was sent.
class Bench {
  carriers = [];
  heard = [];
  told = [];
  time = 0;

  constructor(context, how = {}) {
    context.mock.timers.enable({ apis: ["setTimeout"] });
    this.timers = context.mock.timers;
    const does = {
      begins: () => this.told.push("begins"),
      hears: (lines) => this.heard.push(...lines),
      carried: () => this.told.push("carried"),
      cut: () => this.told.push("cut"),
      over: (it) => this.told.push(it),
    };
    this.link = new Lasting((events) => this.connects(events), does, { now: () => this.time, ...how });
    this.link.open();
  }

  connects(events) {
    const carrier = { ...events, sent: "", unsent: 0, isEnded: false, send: (text) => (carrier.sent += text), end: () => (carrier.isEnded = true) };
    this.carriers.push(carrier);
    return carrier;
  }

  get last() {
    return this.carriers.at(-1);
  }

  // What the last connection was sent since this was asked.
  async sent() {
    await null;
    const { sent } = this.last;
    this.last.sent = "";
    return sent;
  }

  async says(text) {
    this.last.came(text);
    await null;
  }

  // So many milliseconds pass, and its owner looks after the link now and then.
  passes(time) {
    for (let left = time; left > 0; left -= 100) {
      this.time += Math.min(left, 100);
      this.timers.tick(Math.min(left, 100));
    }
    this.link.tend();
  }

  // The connection is there, and the server answers by a text.
  async answers(text) {
    this.last.opened();
    const first = await this.sent();
    await this.says(text);
    return first;
  }

  // The connection breaks, and the next one is there. Returns its first line.
  async breaks(text) {
    this.last.closed();
    const count = this.carriers.length;
    this.passes(6000);
    assert.equal(this.carriers.length, count + 1);
    return this.answers(text);
  }
}

async function joined(context, how) {
  const bench = new Bench(context, how);
  assert.equal(await bench.answers(`link ${TOKEN} 300\n${BOARD}`), "hello 4\n");
  assert.deepEqual(bench.heard, BOARD.split("\n").slice(0, -1));
  assert.equal(await bench.sent(), "");
  return bench;
}

test("lines are kept until they are confirmed, and are sent again as they were", async (context) => {
  const bench = await joined(context);
  bench.link.put(EDIT);
  assert.equal(await bench.sent(), EDIT);
  assert.equal(await bench.breaks("resumed 1\ngot 0\n"), `resume ${TOKEN} 4\n`);
  assert.equal(await bench.sent(), "got 4\ndo 1 1 text ins 0 1.1 97\ndo 1 1 text ins 1 1.2 98\n");
  bench.link.put("ping 1\n");
  assert.equal(await bench.sent(), "ping 1\n");
  await bench.says("got 3\npong 1\npo");
  assert.equal(await bench.breaks("resumed 3\ngot 3\n"), `resume ${TOKEN} 5\n`);
  assert.equal(await bench.sent(), "got 5\nping 1\n");
  await bench.says("got 4\n");
  assert.equal(await bench.breaks("resumed 4\n"), `resume ${TOKEN} 5\n`);
  assert.equal(await bench.sent(), "got 5\n");
  assert.deepEqual(bench.heard.slice(4), ["pong 1"]);
});

test("what is put without a carrier goes out once there is one", async (context) => {
  const bench = await joined(context);
  bench.last.closed();
  bench.link.put(EDIT);
  assert.equal(await bench.sent(), "");
  bench.passes(700);
  assert.equal(await bench.answers("resumed 0\n"), `resume ${TOKEN} 4\n`);
  assert.equal(await bench.sent(), `got 4\n${EDIT}`);
  assert.deepEqual(bench.told, ["begins", "carried", "cut", "carried"]);
});

test("nothing of an older connection is taken once there is another", async (context) => {
  const bench = await joined(context);
  bench.link.cut();
  bench.passes(700);
  const [old] = bench.carriers;
  assert.equal(old.isEnded, true);
  old.came("pong 9\n");
  bench.last.opened();
  old.came("pong 9\n");
  old.closed();
  assert.equal(await bench.sent(), `resume ${TOKEN} 4\n`);
  assert.deepEqual(bench.heard.slice(4), []);
  assert.equal(bench.carriers.length, 2);
});

test("a count goes out after 64 lines, and after a minute without another line", async (context) => {
  const bench = await joined(context);
  await bench.says("ack 0\n".repeat(59));
  assert.equal(await bench.sent(), "");
  await bench.says("ack 0\n");
  assert.equal(await bench.sent(), "got 64\n");
  bench.passes(59900);
  assert.equal(await bench.sent(), "");
  bench.passes(100);
  assert.equal(await bench.sent(), "got 64\n");
});

test("a connection on which nothing comes for 90 seconds is cut, unless it takes what was written", async (context) => {
  const bench = await joined(context);
  bench.last.unsent = 500;
  bench.passes(80000);
  bench.last.unsent = 400;
  bench.passes(80000);
  assert.equal(bench.carriers[0].isEnded, false);
  bench.passes(89000);
  assert.equal(bench.carriers[0].isEnded, false);
  bench.passes(1000);
  assert.equal(bench.carriers[0].isEnded, true);
  assert.equal(bench.link.isCarried, false);
});

test("waits grow until a connection has lived for ten seconds", async (context) => {
  const bench = await joined(context);
  bench.passes(10000);
  bench.last.closed();
  for (const wait of [...WAITS, WAITS.at(-1)]) {
    const count = bench.carriers.length;
    bench.passes(0.8 * wait - 100);
    assert.equal(bench.carriers.length, count, `too soon after ${wait}`);
    bench.passes(0.4 * wait + 200);
    assert.equal(bench.carriers.length, count + 1, `too late after ${wait}`);
    bench.last.closed();
  }
  bench.passes(6000);
  await bench.answers("resumed 0\n");
  bench.passes(9000);
  bench.last.closed();
  bench.passes(3900);
  assert.equal(bench.link.isCarried, false);
  bench.passes(2200);
  await bench.answers("resumed 0\n");
  bench.passes(10000);
  bench.last.closed();
  bench.passes(700);
  assert.equal(bench.carriers.length, 10);
});

test("a user's act brings the next try within a second of it, and at most one a second", async (context) => {
  const bench = await joined(context);
  for (let count = 2; count < 7; count++) {
    bench.last.closed();
    bench.link.hurry();
    bench.link.hurry();
    const tried = bench.time;
    while (bench.carriers.length < count) bench.passes(100);
    assert.ok(bench.time - tried <= 1100, `the try came after ${bench.time - tried} ms`);
  }
  bench.link.hurry();
  bench.passes(3000);
  assert.equal(bench.carriers.length, 6, "a try that goes on is not given up");
});

const ANSWERS = {
  "resumed 1": "36", "resumed 2": "on", "resumed 4": "on", "resumed 5": "36", "resumed 02": "cut", "HTTP/1.1 502 Bad Gateway\r": "cut", "got 2": "cut",
  "ended 2": "lost 1", "ended 3": "lost 1", "ended 4": "lost 0", "ended 1": "35", "ended 5": "35", "error 35": "35", "error 36": "36", "error 40": "40", "error 42": "42", "error 30": "cut", "error 035": "cut",
};
for (const [line, outcome] of Object.entries(ANSWERS)) {
  test(`a resume that is answered by ${JSON.stringify(line)}`, async (context) => {
    const bench = await joined(context);
    bench.link.put("ping 1\nping 2\nbatch 0 0 1\ndo 1 1 text ins 0 1.1 97\n");
    await bench.sent();
    await bench.says("got 2\n");
    await bench.breaks(`${line}\n`);
    const { fault, lost, goesOn } = bench.told.at(-1);
    const found = { carried: "on", cut: bench.last.isEnded ? "cut" : "none" }[bench.told.at(-1)] ?? (fault === null ? `lost ${lost}` : String(fault));
    assert.equal(found, outcome);
    assert.equal(lost ?? null, fault === null ? lost : null);
    assert.equal(goesOn ?? false, outcome.startsWith("lost"));
  });
}

for (const [line, fault] of [["bye", null], ["error 71", 71]]) {
  test(`the server's last line, ${line}, is confirmed, and its count says what was lost`, async (context) => {
    const bench = await joined(context);
    bench.link.put(`${EDIT}batch 1 0 1\ndo 1 1 text ins 0 1.3 97\n`);
    await bench.sent();
    await bench.says(`got 3\n${line}\npong 1\n`);
    assert.equal(bench.last.sent, "got 5\n");
    assert.equal(bench.last.isEnded, true);
    assert.deepEqual(bench.told.at(-1), { fault, lost: 1, goesOn: line !== "bye" });
    assert.deepEqual(bench.heard.slice(4), []);
  });
}

test("a count that the server can't have ends the link", async (context) => {
  const bench = await joined(context);
  bench.link.put("ping 1\n");
  await bench.says("pong 1\ngot 2\npong 2\n");
  assert.deepEqual(bench.told.at(-1), { fault: 36, lost: null, goesOn: false });
  assert.deepEqual(bench.heard.slice(4), ["pong 1"]);
});

test("a server of protocol 3 is greeted in its words, and its link is one connection", async (context) => {
  const bench = new Bench(context);
  await bench.answers("error 42\n");
  assert.equal(bench.carriers.length, 2);
  assert.equal(await bench.answers(BOARD), "hello 3\n");
  bench.link.put(EDIT);
  assert.equal(await bench.sent(), EDIT);
  await bench.says("ack 1\n".repeat(100));
  bench.passes(61000);
  assert.equal(await bench.sent(), "");
  bench.last.closed();
  assert.deepEqual(bench.told, ["begins", "carried", { fault: null, lost: null, goesOn: false }]);
});

test("a link that has not begun begins anew, and one that was refused says why", async (context) => {
  const bench = new Bench(context);
  await bench.answers(`link ${TOKEN} 300\nwelcome 1 100\n`);
  assert.equal(await bench.breaks("error 35\n"), `resume ${TOKEN} 1\n`);
  bench.passes(6000);
  assert.equal(await bench.answers("error 30\n"), "hello 4\n");
  assert.deepEqual(bench.told.at(-1), { fault: 30, lost: 0, goesOn: false });
});

// ---- Edits that wait ----

function openSite(text = "") {
  const sent = [];
  const site = new Site((it) => sent.push(it));
  for (const line of ["welcome 1 100", "window 1", "text 1", ...Array.from(text, (it, at) => `char 0.${at + 1} ${it.codePointAt(0)}`), "ready"]) site.hear(line);
  return { site, sent };
}
const insertion = (place, value = 97) => ({ verb: "ins", win: 1, wid: 1, place, value });

test("edits that wait are one edit, up to 32 operations", () => {
  const { site, sent } = openSite();
  for (let at = 0; at < 33; at++) site.extend([insertion(at)]);
  assert.deepEqual([site.made, site.sent, site.backlog], [2, 1, 2]);
  assert.equal(sent.length, 1);
  assert.match(sent[0], /^batch 0 0 32\ndo 1 1 text ins 0 1\.1 97\n(do .*\n){30}do 1 1 text ins 31 1\.32 97\n$/);
  site.put();
  site.put();
  assert.equal(sent[1], "batch 1 0 1\ndo 1 1 text ins 32 1.33 97\n");
  assert.equal(site.board.widget(1, 1).items.length, 33);
});

test("an edit that waits is sent before the next one, before a ping, and before a line is heard", () => {
  const { site, sent } = openSite("z");
  site.extend([insertion(0)]);
  site.edit([insertion(1)]);
  site.extend([insertion(2)]);
  site.hear("batch 0 2 1");
  site.hear("do 1 1 text ins 1 2.1 98");
  site.extend([insertion(0)]);
  assert.deepEqual(sent, ["batch 0 0 1\ndo 1 1 text ins 0 1.1 97\n", "batch 1 0 1\ndo 1 1 text ins 1 1.2 97\n", "batch 2 0 1\ndo 1 1 text ins 2 1.3 97\n"]);
  site.bye();
  assert.deepEqual(sent.slice(3), ["batch 3 1 1\ndo 1 1 text ins 0 1.4 97\n", "bye\n"]);
});

test("a refused command leaves an edit that waits as it was", () => {
  const { site, sent } = openSite();
  site.extend([insertion(0)]);
  assert.throws(() => site.extend([insertion(1), insertion(7)]), Fault);
  site.extend([insertion(1)]);
  site.put();
  assert.deepEqual(sent, ["batch 0 0 2\ndo 1 1 text ins 0 1.1 97\ndo 1 1 text ins 1 1.2 97\n"]);
});
