// What is chosen, in words; and how all processes stand.

import { at, made, numbered, refill, svg } from "./elements.js";
import { atEnd, eitherButtons, waitsOf, withPlaces } from "./marking.js";
import { stateWords } from "./moment.js";
import { choose, chooseNothing, goToOwn } from "./moves.js";
import { ICONS } from "./picture.js";
import { follow, NOTHING, page } from "./state.js";

function channelWords(number) {
  const { wiring } = page.run, it = wiring.channels[number], { count, taken } = page.moment.streams[number];
  const name = (i, otherwise) => (wiring.processes[i] ? `${wiring.processes[i].number} ${wiring.processes[i].name}` : otherwise);
  const read = it.role === "output" ? "" : `, ${numbered(taken ?? 0)} taken, ${numbered(count - taken)} wait`, kind = it.isLogical ? "logical" : "integer";
  const sent = it.role === "output" || taken !== undefined ? ` · ${numbered(count)} sent${read}` : "";
  return [made("span", {}, made("b", {}, it.name), ` ${kind} · from ${name(it.writer, "the input")} to ${name(it.reader, "the output")}${sent}`)];
}

// A value, its place, and whether it waits.
function valueWords({ value: { stream, row } }) {
  const { streams, wiring } = page.run, { name, role, channel, values } = streams[stream], { count, taken } = page.moment.streams[stream];
  const reader = wiring.processes[wiring.channels[channel]?.reader], isThere = role === "input" || row < count;
  const now = !isThere ? "comes later" : taken === undefined || !reader ? "has come" : row < taken ? `taken by ${reader.number} ${reader.name}` : "waits";
  return [made("span", {}, made("b", {}, name), ` value ${numbered(row + 1)}: ${values[row]} · ${now}`)];
}

function chainWords({ processes, channels, ring }) {
  const named = (i) => `${page.moment.processes[i].number} ${page.moment.processes[i].name}`, arrow = () => made("i", {}, "←");
  const parts = processes.flatMap((i, step) => {
    const waits = waitsOf(i), places = waits.length ? [" at", ...eitherButtons(waits)] : [];
    return [...(step ? [arrow()] : []), made("span", {}, made("b", {}, named(i)), ` ${stateWords(page.moment.processes[i])}`, ...places)];
  });
  if (ring !== undefined) return [...parts, arrow(), made("span", { className: "ringed" }, `${named(ring)}: a ring`)];
  return channels.length === processes.length ? [...parts, arrow(), made("span", {}, "an input")] : parts;
}

// The chain of waits of a process to its cause, or who writes and reads a channel, in words.
export function showChain() {
  const { chosen } = page;
  at("chain").hidden = chosen === NOTHING;
  if (chosen === NOTHING) return;
  const close = made("button", { className: "close", "aria-label": "Nothing chosen", title: "Esc", onclick: chooseNothing }, "×");
  const words = chosen.value ? valueWords(chosen) : chosen.process === undefined ? channelWords(chosen.channel) : chainWords(chosen);
  const own = (isNext, label, title, sign) => made("button", { className: "own", "aria-label": label, title, onclick: () => goToOwn(isNext) }, sign);
  refill(at("chain"), ...words, own(false, "Its event before", "P", "‹"), own(true, "Its next event", "N", "›"), close);
}

function whyOf(number) {
  const reason = atEnd() ? page.run.why.reasons.find((it) => it.number === number) : undefined;
  if (!reason) return [];
  if (reason.kind === "fault") return reason.places.length ? ["at", ...eitherButtons(reason.places)] : [];
  return [...withPlaces(reason.words.replace(/^,? /, "")), ...reason.helps.map((it) => made("p", { className: "help" }, it))];
}

// How each process stands, and at the end why.
export function showWaits() {
  const { moment, chosen } = page;
  const rows = moment.processes.map((it, i) => {
    const name = made("th", { scope: "row" }, made("button", { className: "name", onclick: () => choose({ process: i }) }, `${it.number} ${it.name}`));
    const state = made("td", { className: moment.ring.has(i) ? "ringed" : it.state }, stateWords(it));
    const events = made("td", { className: "number" }, numbered(it.events));
    return made("tr", { className: chosen.processes.includes(i) ? "chain" : "" }, name, state, events, made("td", {}, ...whyOf(it.number)));
  });
  const heads = ["process", "state", "events", "why"].map((it) => made("th", { scope: "col" }, it));
  at("waits").replaceChildren(made("table", {}, made("thead", {}, made("tr", {}, ...heads)), made("tbody", {}, ...rows)));
}

export function showLegend() {
  const words = [["ready", "ready"], ["waits", "waits"], ["ended", "ended"], ["fault", "fault or deadlock"], ["now", "did this event"]];
  const sign = (kind) => svg("svg", { viewBox: "0 0 17 15", class: kind, "aria-hidden": "true" },
    svg("rect", { x: 1, y: 1, width: 15, height: 13, rx: 3 }), svg("path", { d: ICONS[kind] ?? "", transform: "translate(4 3)" }));
  const shown = (number, values, word) => made("span", { className: "values" }, made("b", {}, number), ` ${values}: ${word}`);
  const waiting = shown("3", "16 9 4", "values that wait, the next one at the arrow's end"), both = [waiting, shown("5", "… 16", "values of an output, and the last one")];
  at("legend").replaceChildren(...words.map(([kind, word]) => made("span", {}, sign(kind), word)), ...both);
}

follow("moment", () => {
  if (page.tab === "waits") showWaits();
  showChain();
});
