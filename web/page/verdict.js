// How a run ended, in a heading and a line or two: faults and deadlocks first, then what is only a bound.

import { numbered } from "./elements.js";
import { capital } from "./why.js";

export const counted = (count, one, many) => `${numbered(count)} ${count === 1 ? one : many}`;
const listed = (list) => (list.length > 1 ? `${list.slice(0, -1).join(", ")} and ${list.at(-1)}` : list[0] ?? "");
const once = (places) => places.filter((it, i) => places.findIndex((other) => other.from === it.from) === i);
const sentence = (words) => `${capital(words).replace(/[.]$/, "")}.`;

// Of so many processes of a ring all are named.
const MOST_NAMED = 4;
const named = (list) => (list.length > MOST_NAMED ? `${list.length} processes` : listed(list));
const FIRST_VALUES = "the values are the first ones of their channels";
const PREFIX = "These are the first values of each channel: none is missing, and none is wrong. More may come.";

// What a text that is refused says: its first mistake, and that nothing has run.
export function refusedVerdict({ marks }) {
  const errors = marks.filter((it) => it.severity === "error"), [first] = errors;
  if (first.words === "no memory") return { kind: "stopped", title: "Memory was used up", text: "No value had come by then.", spots: [] };
  const title = errors.length > 1 ? `The ${first.where} has ${errors.length} mistakes` : `The ${first.where} has a mistake`;
  const spots = first.from === undefined ? [] : [{ lead: "It is at", places: [first] }];
  return { kind: "refused", title, text: `${sentence(first.words)} Nothing was run.`, spots };
}

function timeOf(milliseconds) {
  return milliseconds >= 1000 ? `${(milliseconds / 1000).toFixed(1)} s` : `${milliseconds.toFixed(milliseconds < 10 ? 1 : 0)} ms`;
}

// How the run ended, if something else is said first.
function tailOf({ report: { verdict }, isByHand, texts: { bound }, milliseconds }) {
  const after = `after ${counted(verdict.events, "event", "events")}`;
  if (verdict.kind === "finished") return `The run finished ${after}, in ${timeOf(milliseconds)}.`;
  if (verdict.kind === "stopped by memory") return `Memory was used up ${after}: ${FIRST_VALUES}.`;
  return isByHand ? `Stopped by hand ${after}: ${FIRST_VALUES}.` : `Stopped by the bound of ${counted(Number(bound), "event", "events")}: ${FIRST_VALUES}.`;
}

function faultVerdict(run, faults) {
  const who = listed(faults.map((it) => `${it.number} ${it.name}: ${it.on === "division" ? "division by 0" : it.on}`));
  const others = run.why.reasons.filter((it) => it.isForEver && faults.some(({ number }) => number === it.cause)).length;
  const waits = others ? `${counted(others, "process waits", "processes wait")} for ever because of it. ` : "";
  const title = faults.length === 1 ? `Fault in ${who}` : `${faults.length} processes have a fault: ${who}`;
  const spots = spotsOf(run.why.reasons.filter((it) => it.kind === "fault"), ({ length }) => (length > 1 ? "have it at" : "has it at"));
  return { kind: "fault", title, text: waits + tailOf(run), spots };
}

// Where some processes stand, each at one of its places; those that share their places stand together.
function spotsOf(reasons, verb) {
  const groups = new Map();
  for (const it of reasons.filter(({ places }) => places.length)) {
    const places = once(it.places), key = String(places.map(({ from }) => from));
    groups.set(key, { places, who: [...(groups.get(key)?.who ?? []), `${it.number} ${it.name}`] });
  }
  return [...groups.values()].map(({ places, who }) => ({ places, lead: `${named(who)} ${verb(who)}` }));
}

// The processes of the rings: from each one that the module names, the waits lead round.
function ringMembers(rings, reasons) {
  const members = new Set();
  for (const ring of rings) {
    for (let at = ring; at && !members.has(at); at = reasons.find((it) => it.number === at.from)) members.add(at);
  }
  return [...members].sort((a, b) => a.number - b.number);
}

function deadlockVerdict(run, rings) {
  const members = ringMembers(rings, run.why.reasons), [help] = rings.flatMap((it) => it.helps);
  const who = named(members.map((it) => `${it.number} ${it.name}`));
  const title = `Deadlock: ${who} ${members.length > 1 ? "wait on one another" : "waits on itself"}, for ever`;
  const text = `${help ? `${sentence(help)} ` : ""}${tailOf(run)}`;
  return { kind: "deadlock", title, text, spots: spotsOf(members, ({ length }) => (length > 1 ? "wait at" : "waits at")) };
}

export function verdictOf(run) {
  const { report: { verdict, ends }, why, wiring, isByHand, texts: { bound }, milliseconds } = run;
  const faults = ends.filter((it) => it.state === "fault"), rings = why.reasons.filter((it) => it.isRing);
  if (faults.length) return faultVerdict(run, faults);
  if (rings.length) return deadlockVerdict(run, rings);
  const after = `after ${counted(verdict.events, "event", "events")}`, time = `It took ${timeOf(milliseconds)}.`;
  if (verdict.kind === "stopped by memory") return { kind: "stopped", title: `Memory was used up ${after}`, text: PREFIX, spots: [] };
  if (verdict.kind === "stopped by bound") {
    const title = isByHand ? `Stopped by hand ${after}` : `Stopped by its bound of ${counted(Number(bound), "event", "events")}`;
    return { kind: "stopped", title, text: `${PREFIX} ${time}`, spots: [], canGoOn: !isByHand };
  }
  const waiting = ends.filter((it) => it.state === "waits").length;
  const all = waiting ? `${counted(waiting, "process waits", "processes wait")} for more values` : "All processes ended";
  const source = wiring.channels.some((it) => it.role === "input") ? "that this input gives" : "that there will ever be";
  return { kind: "finished", title: `Finished ${after}`, text: `${all}: these are all ${source}. ${time}`, spots: [] };
}
