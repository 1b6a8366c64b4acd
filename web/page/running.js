// Runs the texts, and shows what came of it.

import { showLegend } from "./choosing.js";
import { at, made, numbered } from "./elements.js";
import { remark, showProblems } from "./marking.js";
import { go } from "./moves.js";
import { QUANTUM, ran, STOPPED } from "./run.js";
import { showInput, showTab, TABS, toast } from "./showing.js";
import { boundOf, changed, diagram, isSame, MOST_BOUND, NOTHING, page, picture, plots, program, runner, table, texts } from "./state.js";
import { drawPicture, showScore, showSteps, stopPlaying } from "./steps.js";
import { asked, fail, tell } from "./telling.js";
import { refusedVerdict, verdictOf } from "./verdict.js";
import { wiringInWords } from "./wiring.js";

// Milliseconds of a run until it is said that it goes on.
const PATIENCE = 250;
const MOST_SHOWN = 20000;

function goOn() {
  at("bound").value = String(boundOf() * 10n);
  runTexts();
}

// The run that is shown is of texts before.
export function stale(isOld = true) {
  if (isOld) stopPlaying();
  if (!page.run) return;
  page.isOld = isOld;
  at("results").classList.toggle("old", isOld);
}

// Shows what is marked in texts that were checked or run.
export function showCheck(about) {
  page.check = about;
  showProblems();
  remark();
}

// The verdict of the run that is shown, whose texts are there.
export function showVerdict() {
  const verdict = verdictOf(page.run), isMore = verdict.canGoOn && boundOf() <= MOST_BOUND / 10n;
  stale(false);
  const others = made("button", { id: "others", title: "The run in twenty other orders of its events", onclick: () => changed("orders") }, "Other orders");
  tell({ ...verdict, actions: [...(isMore ? [made("button", { onclick: goOn }, "Ten times the bound")] : []), others] });
  if (page.run.isLong) at("details").append(" The program is over 32,768 bytes, so it is not explained.");
}

export function showRefused({ why }) {
  stale();
  tell(refusedVerdict(why));
}

function busy(isBusy) {
  at("stop").disabled = !isBusy;
  document.body.classList.toggle("busy", isBusy);
}

// The most events of a turn in the next run: those of a link, or those that were chosen for these texts.
function turnsOfNext() {
  const { wanted, isOther, turns } = page;
  if (wanted) page.turns = [...at("turns").options].some((it) => it.value === String(wanted.turns)) ? wanted.turns : QUANTUM;
  return wanted ? page.turns : isOther ? QUANTUM : turns;
}

export async function runTexts() {
  if (boundOf() === undefined) {
    at("bound").focus();
    return;
  }
  const number = (page.number += 1), given = texts(), isNewest = () => number === page.number;
  changed("run");
  stopPlaying();
  if (document.body.classList.contains("busy")) runner.end(STOPPED);
  busy(true);
  const patience = setTimeout(() => showBusy("Running"), PATIENCE);
  try {
    const run = await ran(runner, given, turnsOfNext(), (events, milliseconds) => {
      if (isNewest()) showBusy(`Running: ${numbered(events)} events so far`, `${(milliseconds / 1000).toFixed(1)} s. `);
    });
    clearTimeout(patience);
    if (isNewest()) showOutcome(run, number);
  } catch (error) {
    clearTimeout(patience);
    if (isNewest()) showFailure(error.message);
  }
}

// A run that takes long: what was marked and listed was of texts before.
function showBusy(title, time = "") {
  stale();
  tell({ kind: "busy", title, text: `${time}Stop gives the values so far.` });
  if (page.check && !isSame(page.check.texts, texts())) showCheck(undefined);
}

function showFailure(message) {
  busy(false);
  if (message === STOPPED) tell({ kind: "stopped", title: "Stopped by hand", text: "No value had come by then." });
  else fail(message);
}

// Shows no run any more.
function forget() {
  stale(false);
  Object.assign(page, { run: undefined, moment: undefined, chosen: NOTHING });
  at("chain").hidden = true;
}

// Shows the network of texts that weren't run, or that there is none yet.
export function showNetwork(wiring) {
  at("results").dataset.shows = wiring ? "network" : "nothing";
  showWiring(wiring);
  if (wiring) drawPicture();
}

// What the picture of a network shows before it runs. One that looks the same isn't drawn again, and stays as large as it is.
function looksOf({ processes, channels }) {
  return JSON.stringify([processes.map(({ number, name, values, prints }) => [number, name, values, prints]), channels.map(({ name, isLogical, writer, reader }) => [name, isLogical, writer, reader])]);
}

// The network in words, and the one that is drawn next.
function showWiring(wiring) {
  const { processes, channels } = wiring ?? NOTHING, isDrawn = wiring && page.width && looksOf(wiring) === looksOf(page.wiring);
  if (isDrawn) picture.wiring = wiring;
  Object.assign(page, { wiring, width: isDrawn ? page.width : undefined });
  at("wiring").replaceChildren(...(wiring ? wiringInWords(wiring) : []).map((it) => made("li", {}, it)));
  at("picture").setAttribute("aria-label", `Picture of the network: ${processes.length} processes and ${channels.length} channels`);
}

function showOutcome(about, number) {
  busy(false);
  if (!about.isRefused) {
    showRun(about, number);
    return;
  }
  showInput(about.wiring);
  if (!page.run || page.isOther || about.wiring) {
    forget();
    showNetwork(about.wiring);
  }
  showCheck(about);
  showRefused(about);
  program.reveal(about.why.marks.find((it) => it.where === "program" && it.from !== undefined)?.from ?? 0);
}

// The lines of a report, the long ones up to a value.
function shownOf(text) {
  return text.split("\n").map((line) => {
    if (line.length <= MOST_SHOWN) return line;
    const end = line.lastIndexOf(" ", MOST_SHOWN);
    return `${line.slice(0, end)} .. and ${numbered(line.slice(end + 1).split(" ").length)} more`;
  }).join("\n");
}

// A process or a channel as what is chosen.
function choiceOf({ wiring: { processes, channels } }, isProcess, isChannel) {
  const process = processes.findIndex(isProcess), channel = channels.find(isChannel);
  if (process >= 0) return { ...NOTHING, process };
  return channel ? { channel: channel.number, channels: [channel.number], processes: [channel.writer, channel.reader].filter((it) => it >= 0) } : NOTHING;
}

// The step and the choice of a link; or those of the run before, as far as this one has them: a process by its name and number, or a channel by its name.
function keptFor(newer) {
  const { run, k, chosen, isOther, wanted } = page, { last } = newer;
  if (wanted) return { k: Math.min(last, wanted.step ?? last), chosen: choiceOf(newer, ({ number }) => number === wanted.process, ({ name }) => name === wanted.channel) };
  if (!run || isOther) return { k: last, chosen: NOTHING };
  const old = run.wiring.processes[chosen.process], name = run.wiring.channels[chosen.channel]?.name;
  return { k: k < run.last ? Math.min(k, last) : last, chosen: choiceOf(newer, (it) => it.name === old?.name && it.number === old.number, (it) => it.name === name) };
}

async function showRun(run, number) {
  const isOld = !isSame(run.texts, texts()), { wiring } = run, { k, chosen } = keptFor(run);
  if (page.isOther && !page.wanted) page.turns = QUANTUM;
  if (TABS.includes(page.wanted?.tab)) showTab(page.wanted.tab);
  Object.assign(page, { run, moment: undefined, chosen, isOther: false, wanted: undefined });
  at("results").dataset.shows = "run";
  showVerdict();
  if (!isOld) showCheck(run);
  showWiring(wiring);
  showStreams();
  showLegend();
  if (!isOld) showInput(wiring);
  at("report").textContent = shownOf(run.text);
  showSteps();
  if (isOld) {
    stale();
    changed("texts");
  }
  at("turns").value = String(run.quantum);
  at("turns").disabled = !run.canTurn;
  await go(k);
  if (number !== page.number || !page.moment) return;
  const red = page.moment.processes.flatMap((it, i) => (it.state === "fault" ? [i] : []));
  if (page.width && page.moment.isEnd) picture.reveal([...page.moment.ring, ...red]);
  showOrder(run);
  if (await asked(run.learnWhy()) && page.run === run) showReasons();
}

// Why a run that was stopped by hand came as far as it did.
function showReasons() {
  if (page.isOld) return;
  showVerdict();
  showCheck(page.run);
  changed("moment");
}

// Who did each event, as far as it is known by then.
async function showOrder(run) {
  const { number } = page, { timeline } = run, isWanted = () => number === page.number && page.run === run && run.timeline === timeline;
  await asked(run.learnOrder(isWanted));
  if (!isWanted()) return;
  page.isOrdered = true;
  showScore();
  if (page.moment) changed("moment");
}

// The same run, with its processes more or less side by side.
export async function takeTurns() {
  const { run } = page;
  stopPlaying();
  page.turns = Number(at("turns").value);
  if (!(await asked(run.takeTurns(page.turns))) || page.run !== run) return;
  showStreams();
  showSteps();
  await go(run.last);
  showOrder(run);
}

export function showStreams() {
  const { run } = page;
  for (const it of ["event", "waits"]) at("by").querySelector(`[value=${it}]`).disabled = run.isCut;
  table.show(run.streams, Boolean(run.end), run.steps);
  plots.show(run);
  diagram.show(run);
  at("by").value = plots.by;
  showCursors();
}

// Over the events the plots can be drawn once it is known by which each value came. How many wait is drawn as far as it is known.
export async function showBy() {
  const { run } = page, by = at("by").value, isWanted = () => page.run === run && at("by").value === by;
  if (by === "event" && !(await asked(run.learnTimes(isWanted)))) {
    if (page.run === run && at("by").value === by) toast("To find the events of so many values takes too long.");
    at("by").value = plots.by;
    return;
  }
  if (!isWanted()) return;
  plots.showBy(by);
  showCursors();
  if (by === "waits" && (await asked(run.learnWaits(isWanted))) !== undefined && isWanted()) plots.draw();
}

export function showCursors() {
  at("cursors").setAttribute("aria-pressed", Boolean(plots.cursors));
}
