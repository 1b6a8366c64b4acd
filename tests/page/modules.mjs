// The modules of the page that need no browser, in node: node --test modules.mjs, beside the modules of web/page.
import assert from "node:assert/strict";
import { readdirSync, readFileSync } from "node:fs";
import { test } from "node:test";
import { isNone, ofChannel, ofProcess } from "./gauges.js";
import { eventsWithin, openBounds, passages } from "./lifelines.js";
import { indexAt, placeAt } from "./places.js";
import { readReport } from "./report.js";
import { Timeline } from "./timeline.js";
import { csvOf, vcdOf } from "./values.js";
import { greatestOf, waitingAt, waitPartsOf } from "./waiting.js";

// (the page has the examples in a constant of its own)
globalThis.EXAMPLES = [];
const { carried, linkOf } = await import("./store.js");

// Numbers by chance that are the same each time.
function chance(seed) {
  let at = seed * 7919 + 13;
  return (most) => Math.floor(((at = (at * 48271) % 2147483647) / 2147483647) * most);
}

// A run by chance of a chain of processes, in which each reads from the one before: what each event was, and the numbers at each bound.
function runOf(seed, processes, steps) {
  const pick = chance(seed), zeros = () => Array(processes).fill(0), numbers = [{ events: zeros(), counts: zeros(), taken: zeros() }], events = [];
  for (let k = 1; k <= steps; k++) {
    const last = numbers[k - 1], now = { events: [...last.events], counts: [...last.counts], taken: [...last.taken] }, who = pick(processes), act = pick(3);
    now.events[who] += 1;
    if (act === 0 && who > 0 && last.taken[who - 1] < last.counts[who - 1]) events.push({ k, who, kind: "take", stream: who - 1, row: now.taken[who - 1]++ });
    else if (act === 1) events.push({ k, who, kind: "send", stream: who, row: now.counts[who]++ });
    else events.push({ k, who, kind: "turn", stream: -1, row: -1 });
    numbers.push(now);
  }
  return { numbers, events, streams: zeros().map((_, i) => ({ channel: i, name: `C${i}`, role: "inner" })), asked: 0 };
}

function timelineOf(run) {
  const { numbers } = run;
  return new Timeline(numbers.at(-1), async (k) => ((run.asked += 1), numbers[k]));
}

const SEEDS = [1, 2, 3, 4, 5, 6, 7, 8];

test("events and passages of a run are those that it had", async () => {
  for (const seed of SEEDS) {
    const run = runOf(seed, 4, 120), timeline = timelineOf(run);
    for (const k of openBounds(timeline, 0, 120, 60)) await timeline.learn(k);
    assert.deepEqual(eventsWithin(timeline, 0, 120, run.streams), run.events);
    for (const { stream, row, sent, taken, isLeft } of passages(run.events, timeline)) {
      const find = (kind) => run.events.find((it) => it.kind === kind && it.stream === stream && it.row === row)?.k;
      assert.deepEqual([sent, taken, isLeft], [find("send"), find("take"), find("take") === undefined]);
    }
  }
});

test("bounds that are asked first are next to the step", () => {
  assert.deepEqual(openBounds({ known: new Map([[0, 0], [9, 0]]) }, 0, 9, 5).slice(0, 3), [5, 4, 6]);
});

test("who did each event, and by which event each value came", async () => {
  for (const seed of SEEDS) {
    const run = runOf(seed, 4, 200), timeline = timelineOf(run);
    assert.equal(await timeline.learnOrder(1e6, () => true), true);
    assert.deepEqual([...timeline.order], run.events.map((it) => it.who));
    assert.equal(await timeline.learnTimes(1e6, () => true), true);
    assert.deepEqual(timeline.times, run.streams.map((_, i) => run.events.filter((it) => it.kind === "send" && it.stream === i).map((it) => it.k)));
  }
});

test("the next and the previous event of a process or a channel", async () => {
  for (const seed of SEEDS) {
    const run = runOf(seed, 3, 90), timeline = timelineOf(run);
    const gauges = [[ofProcess(1), (it) => it.who === 1], [ofChannel({ number: 0, role: "inner" }), (it) => it.stream === 0]];
    for (const [gauge, isOwn] of gauges) {
      assert.equal(isNone(gauge), false);
      for (let k = 0; k <= 90; k += 7) {
        assert.equal(await timeline.nextOf(gauge, k), run.events.find((it) => it.k > k && isOwn(it))?.k);
        assert.equal(await timeline.previousOf(gauge, k), run.events.findLast((it) => it.k < k && isOwn(it))?.k);
      }
    }
  }
});

test("how many wait is within its limits, and the greatest number exact once it is learnt", async () => {
  for (const seed of SEEDS) {
    const run = runOf(seed, 4, 300), timeline = timelineOf(run), truth = (i, k) => run.numbers[k].counts[i] - run.numbers[k].taken[i];
    const check = () => {
      for (const i of [0, 1, 2]) {
        const parts = waitPartsOf(timeline.gaps(), i), { count, at, isLeast } = greatestOf(parts), most = Math.max(...run.numbers.map((_, k) => truth(i, k)));
        assert.ok(isLeast ? count <= most : count === most);
        assert.equal(truth(i, at), count);
        for (let k = 0; k <= 300; k++) assert.ok(waitingAt(parts, k).least <= truth(i, k) && truth(i, k) <= waitingAt(parts, k).most);
      }
    };
    check();
    for (const k of [150, 40, 41, 277]) await timeline.learn(k).then(check);
    assert.equal(await timeline.learnWaits([0, 1, 2], 1e6, () => true), true);
    for (const i of [0, 1, 2]) assert.equal(greatestOf(waitPartsOf(timeline.gaps(), i)).isLeast, false);
    check();
  }
});

test("where no more can wait than is known nothing is asked", async () => {
  const numbers = Array.from({ length: 1001 }, (_, k) => ({ events: [k], counts: [k], taken: [0] })), run = { numbers, asked: 0 };
  assert.equal(await timelineOf(run).learnWaits([0], 1e6, () => true), true);
  assert.equal(run.asked, 0);
});

test("a value of a row, in whatever order they are asked for", () => {
  const values = Array.from({ length: 100200 }, (_, i) => String((i * 37) % 1000)), stream = readReport(`count X: ${values.length} 0\nX: ${values.join(" ")}\nfinished 3\n`).streams[0];
  for (const row of [100001, 100199, 5, 100150, 100000, 100198, 100197, 99999, 100003]) assert.equal(stream.valueAt(row), values[row]);
});

test("a table and a dump of values", () => {
  const texts = [{ name: "A", text: " 1 -2" }, { name: "B", text: " true" }, { process: 2, name: "2 p", text: "" }];
  assert.equal(csvOf(texts), "place,A,B,print 2 p\n1,1,true,\n2,-2,,\n");
  const streams = [{ name: "A", channel: 0 }, { name: "B", channel: 1, isLogical: true }, { name: "2 p", print: 1 }], dump = vcdOf(streams, texts, [[2, 5], [3], []], 9).split("\n");
  assert.deepEqual(dump.slice(3, 6), ["$var integer 64 ! A $end", "$var wire 1 \" B $end", "$var integer 64 # print_2_p $end"]);
  assert.deepEqual(dump.slice(-8), ["#2", "b1 !", "#3", "1\"", "#5", `b${"1".repeat(63)}0 !`, "#9", ""]);
});

test("places in texts of letters of several bytes", () => {
  const text = "a 漢字 😀;\n\n  begin ü\n";
  for (let index = 0; index < text.length; index++) {
    if (text.charCodeAt(index) >> 10 === 0b110111) continue;
    const { line, column } = placeAt(text, index);
    assert.equal(indexAt(text, line, column), index);
  }
});

test("a link holds what it carries, whatever the texts", () => {
  globalThis.location = { protocol: "https:", origin: "https://x.org", pathname: "/kahn.html" };
  const texts = { program: "begin & = # + %20 <script>\n漢字 end", input: "A: 1\nB: 2", bound: "77" }, { link } = linkOf(texts, { step: 5, tab: "plots", channel: "A", process: undefined });
  const { view, ...others } = carried(new URL(link).hash);
  assert.deepEqual(others, texts);
  assert.deepEqual([view.step, view.tab, view.channel, view.process, view.isAlone], [5, "plots", "A", undefined, false]);
  assert.equal(/[<>"\s]/.test(link), false);
});

test("these modules reach none that needs a browser", () => {
  const folder = new URL(".", import.meta.url), imports = (name) => [...readFileSync(new URL(name, folder), "utf8").matchAll(/^import .* from "\.\/(\w+\.js)";$/gm)].map((it) => it[1]);
  const reached = new Set(["gauges.js", "lifelines.js", "places.js", "report.js", "store.js", "timeline.js", "values.js", "waiting.js", "layers.js", "lexer.js", "fixes.js", "moment.js"]);
  for (const it of reached) imports(it).forEach((other) => reached.add(other));
  assert.deepEqual([...reached].filter((it) => ["state.js", "elements.js", "main.js", "showing.js"].includes(it)), []);
  assert.ok(readdirSync(folder).length > reached.size);
});
