// What is said first of a run or of texts, and that something failed.

import { at, made, numbered, refill, svg } from "./elements.js";
import { eitherButtons, quoted } from "./marking.js";
import { LET_GO, STOPPED } from "./run.js";
import { lacking } from "./runner.js";

const MOST_SPOTLINES = 4;
const CIRCLE = "M10 1a9 9 0 110 18 9 9 0 010-18z", OCTAGON = "M6.5 1h7L19 6.5v7L13.5 19h-7L1 13.5v-7z", PENCIL = "M3 17l1-4L14 3l3 3L7 16z";
const SIGNS = {
  finished: `${CIRCLE}M5.6 10.4l3 3 6-6.4`, deadlock: `${OCTAGON}M6 10h8`, fault: `${OCTAGON}M10 5v6M10 13.5v1.5`, refused: `${OCTAGON}M10 5v6M10 13.5v1.5`,
  stopped: `${CIRCLE}M7.5 6.5v7M12.5 6.5v7`, busy: `${CIRCLE}M10 5v5.5l3.5 2`, edited: PENCIL,
};

const spotLine = ({ lead, places }) => made("span", { className: "spot" }, ` ${lead}`, ...eitherButtons(places));

export function tell({ kind, title, text, spots = [], actions = [] }) {
  at("verdict").className = kind;
  at("sign").replaceChildren(svg("path", { d: SIGNS[kind] }));
  at("status").textContent = title;
  const rest = spots.length > MOST_SPOTLINES ? [` The tab Waits has ${numbered(spots.length - MOST_SPOTLINES)} more.`] : [];
  refill(at("details"), ...quoted(text), ...spots.slice(0, MOST_SPOTLINES).map(spotLine), ...rest);
  at("details").classList.toggle("several", spots.length > 1);
  at("actions").replaceChildren(...actions);
}

export function fail(message) {
  const lacks = lacking(), lack = `This browser has no ${lacks.join(" and no ")}. A newer one has it.`;
  const text = lacks.length ? lack : `${message}. Reload the page; if it stays so, another browser may run it.`;
  tell({ kind: "refused", title: "The interpreter did not start", text });
}

// What a run is asked for, or nothing if its worker was ended meanwhile.
export async function asked(answer) {
  try {
    return await answer;
  } catch (error) {
    if (error.message !== STOPPED && error.message !== LET_GO) fail(error.message);
    return undefined;
  }
}
