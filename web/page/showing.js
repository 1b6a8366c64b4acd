// Panes, tabs, notes, and the field of the input.

import { at, made } from "./elements.js";
import { changed, input, page, program, store } from "./state.js";

// The height of a text's heading and of the room below it; how many hundredths of the room a program takes at first.
const HEAD = 50, LEAST_PROGRAM = 30, MOST_PROGRAM = 83;
// Milliseconds that a note stays, and one with a button.
const NOTED = 4000, OFFERED = 12000;
export const TABS = ["table", "plots", "diagram", "waits", "report"];

export function show(pane) {
  document.body.dataset.pane = pane;
  document.querySelectorAll("#panes button").forEach((it) => it.setAttribute("aria-current", it.dataset.to === pane));
  if (page.wiring && pane !== "texts") requestAnimationFrame(() => changed("room"));
}

export function showTab(name) {
  page.tab = name;
  store.put({ tab: name });
  for (const it of TABS) {
    at(it).hidden = it !== name;
    at(`tab-${it}`).setAttribute("aria-selected", it === name);
    at(`tab-${it}`).tabIndex = it === name ? 0 : -1;
  }
  at("tuning").hidden = name !== "plots";
  at("colours").hidden = name !== "table";
  changed("tab");
}

// The picture without the rest, in large letters, and the whole page again.
export function showAlone(isAlone) {
  page.isAlone = isAlone;
  document.body.classList.toggle("alone", isAlone);
  if (isAlone) show("network");
  changed("alone");
}

// What the signs of the picture mean, below it.
export function showSigns(isShown) {
  at("legend").hidden = !isShown;
  at("signs").setAttribute("aria-expanded", isShown);
}

// The field of the input is there if the program has an input, or the field a text. Of a program with a mistake it isn't known whether it has
// an input: then the field stays as it was.
export function showInput(wiring) {
  const names = wiring?.channels.filter((it) => it.role === "input").map((it) => it.name) ?? [], isKnown = Boolean(wiring);
  const isThere = names.length > 0 || input.text.trim() !== "" || (!isKnown && !at("texts").classList.contains("alone"));
  at("texts").classList.toggle("alone", !isThere);
  at("noInput").hidden = isThere || !isKnown;
  at("inputs").textContent = names.length ? `values of ${names.join(", ")}` : isKnown ? "this program has no input channel" : "";
  at("input").placeholder = `${names[0] ?? "A"}: 1 2 3`;
  if (isThere && store.state.panes?.["--program"] === undefined) shareRoom();
}

// A short program leaves its room to the input.
function shareRoom() {
  const room = at("texts").clientHeight, wanted = (100 * (program.ink.clientHeight + HEAD)) / Math.max(1, room);
  at("main").style.setProperty("--program", `${Math.max(LEAST_PROGRAM, Math.min(MOST_PROGRAM, wanted))}%`);
}

let toasting;

export function toast(words, action, act) {
  clearTimeout(toasting);
  const close = () => at("toast").replaceChildren();
  const buttons = action ? [made("button", { onclick: () => { close(); act(); } }, action)] : [];
  at("toast").replaceChildren(made("p", {}, words), ...buttons);
  toasting = setTimeout(close, action ? OFFERED : NOTED);
}
