// One run of texts: in growing parts, so that stopping it leaves the values so far; then why it ended, its network, and its steps.

import { cameOf, momentOf } from "./moment.js";
import { isReport, readReport, Stream } from "./report.js";
import { Timeline } from "./timeline.js";
import { faultOf, readWhy } from "./why.js";
import { wiringOf } from "./wiring.js";

const FIRST_PART = 1000000n, GROWTH = 4n;
// A run of so many events is kept whole, and each of its steps can be looked at; of a longer one so many first steps can. Of a program the
// module explains so many bytes without more of a stack.
const MOST_WHOLE = 1000000, MOST_STEPS = 20000, MOST_EXPLAINED = 32768;
// The most events of a turn, as in the run whose report is shown.
export const QUANTUM = 1000;
const MILLISECONDS_TO_LEARN = 12000, MOST_REPORTS = 8;
// So many bytes of memory a worker may keep from one run to the next; so many letters of an answer take about as much.
const MOST_MEMORY = 1 << 26, MOST_LETTERS = 1 << 23;
export const STOPPED = "stopped by hand", LET_GO = "let go";

function* parts(bound) {
  for (let part = FIRST_PART; part < bound; part *= GROWTH) yield part;
  yield bound;
}

const isLong = (texts) => new TextEncoder().encode(texts.program).length > MOST_EXPLAINED;

const explanation = async (runner, texts, bound) => (isLong(texts) ? "" : runner.ask("explain", { ...texts, bound }));

// Why a text is refused, what it is warned of, or why a run of it with this bound and this report ended; and how its network is wired, also if
// only its input is refused.
async function explained(runner, texts, bound, report) {
  const isRefused = !isReport(report), words = await explanation(runner, texts, bound);
  const why = readWhy(words, texts);
  if (isRefused && !why.marks.some((it) => it.severity === "error")) why.marks.push(faultOf(report, texts));
  const wiring = wiringOf(texts.program, await runner.ask("draw", texts));
  return { texts, isRefused, why, wiring: isRefused && !wiring.processes.length ? undefined : wiring, isLong: isLong(texts) };
}

// A run of no events.
export async function checked(runner, texts) {
  return explained(runner, texts, "0", (await runner.ask("run", { ...texts, bound: "0" })).report);
}

// quantum: the most events of a turn, if the run finishes; told: what is known so far. Gives the run, or what refuses it.
export async function ran(runner, texts, quantum, told) {
  let last, most, isByHand = false;
  const start = performance.now();
  try {
    for (const bound of parts(BigInt(texts.bound))) {
      last = await runner.ask("run", { ...texts, bound: String(bound) });
      most = String(bound);
      if (last.status !== 3) break;
      told(Number(bound), performance.now() - start);
    }
  } catch (error) {
    if (error.message !== STOPPED || !last) throw error;
    isByHand = true;
  }
  // (a run that is stopped by hand isn't made a second time before it is shown)
  const about = await explained(runner, texts, isByHand ? "0" : most, last.report);
  if (isByHand) about.why.reasons = [];
  if (last.memory > MOST_MEMORY) runner.end(LET_GO);
  if (about.isRefused) return about;
  const run = new Run(runner, { ...about, text: last.report, isByHand, most, milliseconds: last.milliseconds });
  if (run.canTurn) run.quantum = quantum;
  return run.begun();
}

// What each stream is: the number of its channel, or of the process that prints it. The channels come first, in order.
function streamsOf(streams, { channels, processes }) {
  return streams.map(({ process, name, count, values }, number) => {
    const print = processes.findIndex((it) => it.number === process);
    if (process) return { print, name, count, values, role: "prints", isLogical: /^[tf]/.test(values[0] ?? "") };
    return { channel: number, name, count, values, role: channels[number].role, isLogical: channels[number].isLogical };
  });
}

const said = ({ ends, verdict }) => JSON.stringify([ends, verdict]);

// What a run is looked at by: its moments, from 0 to its events. At each it is a run that keeps all channels. Of a long one the first steps
// can be seen, and its end as the report tells it; likewise where it is stopped, and the run that keeps all channels came elsewhere.
class Run {
  constructor(runner, values) {
    const report = readReport(values.text), { events } = report.verdict;
    Object.assign(this, values, { runner, report, events, steps: events > MOST_WHOLE ? MOST_STEPS : events, quantum: QUANTUM, reports: new Map() });
  }

  async begun() {
    const first = await this.reportAt(this.steps), isLast = this.steps === this.events;
    this.end = isLast && said(first) === said(this.report) ? first : undefined;
    this.isCut = !isLast || !this.end;
    this.last = this.isCut ? this.steps + 1 : this.steps;
    const told = new Map(this.report.streams.map((it) => [it.name, it]));
    this.final = this.end ?? { ...this.report, streams: first.streams.map((it) => told.get(it.name) ?? new Stream({ ...it, taken: undefined })) };
    this.streams = streamsOf(this.final.streams, this.wiring);
    const numbers = ({ ends, streams }) => ({
      events: ends.map((it) => it.events), counts: streams.map((it, i) => cameOf(this.streams[i], it)), taken: streams.map((it) => it.taken ?? 0),
    });
    this.timeline = new Timeline(numbers(first), async (k) => numbers(await this.reportAt(k)));
    return this;
  }

  // The same run with other turns of its processes: where it has finished, it comes to the same.
  takeTurns(quantum) {
    Object.assign(this, { quantum, reports: new Map() });
    return this.begun();
  }

  // Where a run has finished, other turns come to the same.
  get canTurn() {
    return this.report.verdict.kind === "finished";
  }

  // Why a run that was stopped by hand came as far as it did; says whether that wasn't known.
  async learnWhy() {
    if (!this.isByHand || this.isLong) return false;
    this.why = readWhy(await explanation(this.runner, this.texts, this.most), this.texts);
    return true;
  }

  // What the module tells of a run to a bound that keeps all channels.
  async wholeAt(k, isUrgent = false) {
    const text = await this.runner.ask("whole", { ...this.texts, quantum: this.quantum, bound: String(k) }, isUrgent);
    if (text === "") throw new Error("Memory was used up");
    if (text.length > MOST_LETTERS) this.runner.end(LET_GO);
    return readReport(text);
  }

  // That at one of the steps. The newest ones are kept.
  async reportAt(k, isUrgent = false) {
    const { reports } = this;
    if (!reports.has(k)) {
      reports.set(k, await this.wholeAt(k, isUrgent));
      if (reports.size > MOST_REPORTS) reports.delete(reports.keys().next().value);
    }
    return reports.get(k);
  }

  // The network after k events; k past the steps is the end of a run that is cut. `step` is k, and `k` how many events that are.
  async momentAt(k) {
    const report = k > this.steps ? this.final : await this.reportAt(k, true), before = k > 0 && k <= this.steps ? await this.reportAt(k - 1, true) : undefined;
    return { ...momentOf(this, k > this.steps ? this.events : k, report, before), step: k, isEnd: k === this.last };
  }

  learnOrder(isWanted) {
    return this.timeline.learnOrder(MILLISECONDS_TO_LEARN, isWanted);
  }

  learnTimes(isWanted) {
    return this.isCut ? false : this.timeline.learnTimes(MILLISECONDS_TO_LEARN, isWanted);
  }

  // Learns how many values wait on the channels between processes.
  learnWaits(isWanted) {
    const inner = this.streams.flatMap((it, i) => (it.role === "inner" ? [i] : []));
    return this.timeline.learnWaits(inner, MILLISECONDS_TO_LEARN, isWanted);
  }

  // The event by which a value of a stream came: one of the steps, or the end.
  async eventOf(stream, row) {
    return (await this.timeline.firstWith(({ counts }) => counts[stream], row + 1)) ?? this.last;
  }
}
