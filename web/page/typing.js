// What becomes of the texts while somebody types: they are kept, checked and marked, and what is wrong is told once its line is left.

import { nameOf } from "./examples.js";
import { at, made } from "./elements.js";
import { remark, showProblems } from "./marking.js";
import { checked, STOPPED } from "./run.js";
import { runTexts, showCheck, showNetwork, showRefused, showVerdict, stale } from "./running.js";
import { showInput } from "./showing.js";
import { boundOf, checker, follow, isSame, page, texts } from "./state.js";
import { clearAddress } from "./store.js";
import { fail, tell } from "./telling.js";
import { save, showName } from "./texts.js";

// Milliseconds after the last key until the text is checked, and until the mistakes of a line that isn't left are listed.
const PAUSE = 180, THOUGHT = 1000;
// So many milliseconds a run may take, and so many processes have, that is made again while somebody types.
const QUICK = 50, MOST_DRAWN_AT_ONCE = 60;

let pause;

// editor: the text in which somebody typed.
export function edited(editor) {
  clearAddress();
  Object.assign(page, { name: nameOf(texts()), wanted: undefined });
  showName();
  stale();
  noteTyping(editor);
  clearTimeout(pause);
  pause = setTimeout(() => { save(); check(); }, PAUSE);
}

// What is said once the line in which somebody types is left, and once nothing is typed for a while.
let late, listing;

const isTyping = () => Boolean(page.typed) && document.activeElement === page.typed.editor.field && page.typed.editor.line === page.typed.line;

// A line that is ended by a new one is left.
function noteTyping(editor) {
  const { typed } = page, lines = editor?.text.split("\n").length;
  page.typed = editor && (!typed || typed.editor !== editor || typed.lines === lines) ? { editor, line: editor.line, lines } : undefined;
  forgetLate();
}

function forgetLate() {
  clearTimeout(listing);
  late = undefined;
}

export function lineLeft() {
  if (!late || isTyping()) return;
  const say = late;
  forgetLate();
  say();
}

// Marks the mistakes of a line in which somebody types; they are told later.
function showQuietly(about) {
  page.check = about;
  remark();
  showChanged();
  late = () => { showProblems(); showRefused(about); };
  listing = setTimeout(showProblems, THOUGHT);
}

function showChanged() {
  const actions = [made("button", { className: "main", onclick: runTexts }, "Run")];
  stale();
  if (page.run) tell({ kind: "edited", title: "Changed since the last run", text: "What is shown below is of the texts before.", actions });
  else tell({ kind: "edited", title: "Not run yet", text: page.check.isRefused ? "" : "The texts have no mistake.", actions });
}

// Whether the last run took so little time that each other text can be run while somebody types.
const isQuick = (run) => run !== undefined && run.milliseconds < QUICK && !run.isByHand && !run.isLong && run.wiring.processes.length <= MOST_DRAWN_AT_ONCE;

async function check() {
  const given = texts(), isBound = boundOf() !== undefined;
  at("boundHelp").textContent = isBound ? "" : "a number from 0 to 281,474,976,710,655";
  at("bound").setAttribute("aria-invalid", !isBound);
  try {
    const about = await checked(checker, given);
    if (!isSame(given, texts())) return;
    showInput(about.wiring);
    if (!page.run) showNetwork(about.wiring);
    if (about.isRefused && isTyping() && at("verdict").className !== "refused") {
      showQuietly(about);
      return;
    }
    showCheck(about);
    if (about.isRefused) showRefused(about);
    else if (page.run && isSame(page.run.texts, given) && isBound) showVerdict();
    else if (isBound && isQuick(page.run)) runTexts();
    else showChanged();
  } catch (error) {
    if (error.message !== STOPPED) fail(error.message);
  }
}

follow("texts", check);
follow("run", () => {
  clearTimeout(pause);
  page.typed = undefined;
  forgetLate();
});
