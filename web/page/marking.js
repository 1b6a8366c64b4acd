// What is marked in the texts, the list of mistakes and warnings, and buttons that go to a place.

import { at, made, refill } from "./elements.js";
import { applied, fixesOf, isOffer } from "./fixes.js";
import { onlyPlace } from "./moment.js";
import { turningSigns } from "./lexer.js";
import { lexemeAt, lexemeEnd, placeAt, placeWords } from "./places.js";
import { show } from "./showing.js";
import { follow, input, page, program } from "./state.js";
import { verdictOf } from "./verdict.js";

// So many signs that can't be seen are warned of.
const MOST_SIGNS = 20;

export const atEnd = () => Boolean(page.run && page.moment?.isEnd);
export const isBad = () => atEnd() && ["fault", "deadlock"].includes(verdictOf(page.run).kind);

const found = () => page.check?.why.marks ?? [];
const kinded = (places, kind) => places.map((it) => ({ ...it, kind }));

// A place behind the last lexeme before it, where something is put in, is shown by the end of that lexeme.
const seen = (it) => (it.from > 0 && /^\s*$/.test(program.text.slice(it.from, it.to)) ? { ...it, from: it.from - 1, to: it.from } : it);

function marks() {
  const { run, moment, chosen } = page;
  const list = found().filter((it) => it.where === "program").flatMap((it) => [{ ...seen(it), kind: it.severity }, ...kinded(it.notes, "note")]);
  if (!run || page.isOld) return list;
  if (atEnd()) list.push(...verdictOf(run).spots.flatMap(({ places }) => kinded(places, places.length > 1 ? "either" : "stuck")));
  const place = onlyPlace(moment?.event);
  if (place && !atEnd()) list.push({ from: place.from, to: lexemeEnd(program.text, place.from), kind: "now" });
  return [...list, ...kinded(placesOf(chosen), "chain")];
}

// Where the chosen processes wait, or the chosen channel is declared, written and read.
export function placesOf({ channel, process, processes }) {
  const { wiring } = page.run, it = wiring.channels[channel];
  if (it) return [it.place, ...it.sends, ...it.waits].filter(Boolean);
  return processes.flatMap((i) => [...(i === process ? [wiring.processes[i]] : []), ...waitsOf(i)]);
}

// Where the text of a process that waits has a wait on that channel.
export function waitsOf(i) {
  const { state, on } = page.moment.processes[i];
  return state === "waits" ? page.run.wiring.channels.find((it) => it.name === on && it.reader === i)?.waits ?? [] : [];
}

export function remark() {
  program.mark(marks());
  input.mark(found().filter((it) => it.where === "input").map((it) => ({ ...it, kind: it.severity })));
}

// A button that goes to a place of a text: of the program, if no other is named.
export function placeButton({ from, to, where }, editor = where === "input" ? input : program, words = placeWords(placeAt(editor.text, from))) {
  return made("button", { className: "place", title: "Go to this place", onclick: () => { show("texts"); editor.goTo(from, to); } }, words);
}

// Buttons for places of which it is at one.
export const eitherButtons = (places) => places.flatMap((it, i) => [i === 0 ? " " : i + 1 < places.length ? ", " : " or ", placeButton(it)]);

// Words in which each name between ` is one of the program's.
export function quoted(words) {
  return words.split(/`([^`]+)`/).map((it, i) => (i % 2 ? made("code", {}, it) : it));
}

// Words with places of the program in them, which become buttons.
export function withPlaces(words) {
  const button = (it) => placeButton(lexemeAt(program.text, ...it.split(":").map(Number)), program, it);
  return words.split(/\b(\d+:\d+)\b/).flatMap((it, i) => (i % 2 ? [button(it)] : quoted(it)));
}

// Signs that can't be seen are warned of, whatever the module says of the text.
function signs(where) {
  const { text } = where === "input" ? input : program;
  const words = (name) => `\`${name}\` can't be seen, and shows letters in another order`;
  return turningSigns(text).slice(0, MOST_SIGNS).map((it) => ({ ...it, where, severity: "warning", words: words(it.name), helps: [], notes: [] }));
}

function problem(mark, fixes) {
  const editor = mark.where === "input" ? input : program;
  const buttons = fixes.map((it) => made("button", { className: "apply", onclick: () => apply(it) }, ...quoted(`Apply: ${it.words.replace(/^fix: /, "")}`)));
  const notes = mark.notes.map((it) => made("p", { className: "help" }, placeButton(it), " ", ...quoted(it.words)));
  const helps = mark.helps.filter((it) => !isOffer(it) || !fixes.length).map((it) => made("p", { className: "help" }, ...withPlaces(it)));
  const heading = made("p", {}, made("b", {}, mark.severity === "error" ? "Mistake: " : "Warning: "), ...quoted(mark.words));
  const place = mark.from === undefined ? [] : [placeButton(mark, editor)];
  return made("li", { className: mark.severity }, ...place, made("div", {}, heading, ...helps, ...notes), ...buttons);
}

let shown = "";

// A list that says the same as before is left as it is.
export function showProblems() {
  const list = [...found(), ...signs("program"), ...signs("input")], more = page.check?.why.more ?? [], fixes = list.map((it) => fixesOf(it, program.text));
  const now = JSON.stringify([list, fixes, more]);
  if (now === shown) return;
  shown = now;
  at("problems").hidden = !list.length;
  refill(at("problems"), ...list.map((it, i) => problem(it, fixes[i])), ...more.map((it) => made("li", { className: "more" }, it)));
  for (const it of ["program", "input"]) at(it).setAttribute("aria-invalid", list.some((one) => one.severity === "error" && one.where === it));
}

function apply(fix) {
  program.replace(applied(program.text, fix));
  page.typed = undefined;
  program.goTo(fix.from, fix.from + fix.text.length);
}

follow("moment", () => { if (!page.isOld) remark(); });
