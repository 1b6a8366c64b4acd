// The page begins: what its buttons and keys do, and which texts it opens with.

import { at } from "./elements.js";
import { FIRST } from "./examples.js";
import { choose, chooseAt, chooseNothing, chooseStream, go, goToOwn, goToValue, runToLine } from "./moves.js";
import { beginLesson } from "./lesson.js";
import { showOrders } from "./orders.js";
import { divider } from "./panes.js";
import { STOPPED } from "./run.js";
import { lacking } from "./runner.js";
import { runTexts, showBy, showCursors, takeTurns } from "./running.js";
import { savePicture } from "./saving.js";
import { show, showAlone, showSigns, showTab, TABS } from "./showing.js";
import { BOUND, changed, diagram, follow, input, NOTHING, page, picture, plots, program, runner, store, table } from "./state.js";
import { play, playIcon, showPlay, stopPlaying } from "./steps.js";
import { carried } from "./store.js";
import { asked, fail } from "./telling.js";
import { copyLink, downloadTexts, gallery, opened, openLink, save, showName } from "./texts.js";
import { edited, lineLeft } from "./typing.js";

// Milliseconds after the last change of the window's size until it is drawn again.
const RESIZED = 120;
// In a window of so many pixels the meaning of the signs is shown below the picture at first.
const LEAST_FOR_SIGNS = 640;

program.changed = () => edited(program);
input.changed = () => edited(input);
at("bound").oninput = () => edited();
for (const it of ["selectionchange", "focusin", "focusout"]) document.addEventListener(it, () => setTimeout(lineLeft));
picture.choose = choose;
table.choose = plots.choose = chooseStream;
table.goTo = plots.goTo = diagram.goTo = goToValue;
Object.assign(plots, { go: goByHand, read: (words) => (at("apart").textContent = words) });
Object.assign(diagram, { choose, learn: asked, go: goByHand });
at("run").onclick = runTexts;
at("stop").onclick = () => runner.end(STOPPED);
at("examples").onclick = gallery;
at("savePicture").onclick = savePicture;
at("present").onclick = () => showAlone(true);
at("endAlone").onclick = () => showAlone(false);
at("beginLesson").onclick = beginLesson;
follow("orders", showOrders);
at("help").onclick = () => at("sheet").showModal();
at("open").onclick = () => at("file").click();
at("file").onchange = () => opened(at("file").files).then(() => (at("file").value = ""));
at("download").onclick = downloadTexts;
at("copy").onclick = copyLink;
at("by").onchange = showBy;
at("nearer").onclick = () => plots.zoom(2);
at("farther").onclick = () => plots.zoom(0.5);
at("cursors").onclick = () => {
  plots.toggleCursors();
  showCursors();
};
at("turns").onchange = takeTurns;
at("program").onclick = () => chooseAt(at("program").selectionStart);
at("programInk").onclick = ({ target }) => {
  stopPlaying();
  runToLine([...at("programInk").children].indexOf(target.closest(".line")) + 1);
};

function goByHand(k) {
  stopPlaying();
  go(k);
}

at("slider").oninput = () => goByHand(at("slider").valueAsNumber);
at("play").onclick = play;
for (const [id, to] of Object.entries({ toStart: () => 0, back: () => page.k - 1, on: () => page.k + 1, toEnd: () => Infinity })) {
  at(id).append(playIcon(id));
  at(id).onclick = () => goByHand(to());
}
showPlay();

function tabKey(event, name) {
  const step = { ArrowLeft: -1, ArrowRight: 1 }[event.key];
  if (!step) return;
  event.stopPropagation();
  const next = TABS[(TABS.indexOf(name) + step + TABS.length) % TABS.length];
  showTab(next);
  at(`tab-${next}`).focus();
}

for (const it of TABS) {
  at(`tab-${it}`).onclick = () => showTab(it);
  at(`tab-${it}`).onkeydown = (event) => tabKey(event, it);
}
document.querySelectorAll("#panes button").forEach((it) => (it.onclick = () => show(it.dataset.to)));

function paneMoved(name, to) {
  store.put({ panes: { ...store.state.panes, [name]: to } });
  requestAnimationFrame(() => changed("room"));
}

const LINES = {
  middleLine: { name: "--texts", isRow: false, least: 20, most: 75 },
  inputLine: { name: "--program", isRow: true, least: 20, most: 90 },
  valuesLine: { name: "--network", isRow: true, least: 15, most: 85 },
};
for (const [id, line] of Object.entries(LINES)) {
  const kept = store.state.panes?.[line.name];
  if (kept) at("main").style.setProperty(line.name, `${kept}%`);
  divider(at(id), at("main"), { ...line, moved: paneMoved });
}

// What makes the picture larger or smaller, or shows the whole of it.
const larger = () => picture.view.step(1), smaller = () => picture.view.step(-1), entire = () => picture.view.fit();
const SIZES = { "+": larger, "=": larger, "-": smaller, "0": entire };
at("larger").onclick = larger;
at("smaller").onclick = smaller;
at("entire").onclick = entire;
at("entire").append(playIcon("entire"));
const areSignsShown = () => store.state.signs ?? innerHeight >= LEAST_FOR_SIGNS;
at("signs").onclick = () => {
  store.put({ signs: at("legend").hidden });
  showSigns(store.state.signs);
};

// Whether a key belongs to what has the focus.
function isTaken({ target, ctrlKey, metaKey, altKey }) {
  return /^(?:TEXTAREA|INPUT|SELECT)$/.test(target.tagName) || target.getAttribute?.("role") === "separator"
    || document.querySelector("dialog[open]") || ctrlKey || metaKey || altKey;
}

onkeydown = (event) => {
  if (event.key === "Enter" && (event.ctrlKey || event.metaKey)) {
    event.preventDefault();
    runTexts();
  } else if (event.key === "Escape" && page.chosen !== NOTHING && !document.querySelector("dialog[open]")) {
    chooseNothing();
  } else if (event.key === "Escape" && page.isAlone && !document.querySelector("dialog[open]")) {
    showAlone(false);
  } else if (event.key === "Enter" && event.altKey && event.target === at("program")) {
    event.preventDefault();
    runToLine(program.line);
  } else if (page.run && /^[np]$/i.test(event.key) && !isTaken(event)) {
    stopPlaying();
    goToOwn(/n/i.test(event.key));
  } else if (page.wiring && SIZES[event.key] && !isTaken(event)) {
    SIZES[event.key]();
  } else if (page.run && !isTaken(event)) {
    const tenth = Math.max(1, Math.round(page.run.last / 10));
    const to = { ArrowLeft: page.k - 1, ArrowRight: page.k + 1, PageUp: page.k - tenth, PageDown: page.k + tenth, Home: 0, End: Infinity }[event.key];
    const isSpace = event.key === " " && event.target.tagName !== "BUTTON";
    if (to !== undefined || isSpace) event.preventDefault();
    if (to !== undefined) goByHand(to);
    else if (isSpace) play();
  }
};
ondragover = (event) => event.preventDefault();
ondrop = (event) => {
  event.preventDefault();
  if (event.dataTransfer.files.length) opened(event.dataTransfer.files);
};
onhashchange = () => openLink(location.hash);
onpagehide = save;
onbeforeprint = () => { program.paint(true); input.paint(true); if (page.wiring) entire(); };
onafterprint = () => { program.paint(); input.paint(); };
let resizing;
onresize = () => {
  clearTimeout(resizing);
  resizing = setTimeout(() => {
    showSigns(areSignsShown());
    changed("room");
  }, RESIZED);
};
matchMedia("(prefers-color-scheme: dark)").addEventListener("change", () => changed("room"));

// The texts of the link, or the last ones, or the first example.
function begin() {
  const linked = carried(location.hash), { texts: kept, name = "" } = store, first = linked ?? kept ?? FIRST;
  if (linked && kept) store.keep(kept);
  page.wanted = linked?.view;
  if (linked?.view.isAlone) showAlone(true);
  page.name = linked ? "" : kept ? name : FIRST.name;
  [program.text, input.text] = [first.program, first.input ?? ""];
  at("bound").value = first.bound ?? BOUND;
  showName();
  if (lacking().length) fail("");
  else runTexts();
}

showTab(TABS.includes(page.tab) ? page.tab : TABS[0]);
show("network");
showSigns(areSignsShown());
begin();
