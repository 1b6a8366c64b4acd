// The slider over events, and what the page shows at each.

import { at, made, numbered, refill, svg } from "./elements.js";
import { atEnd, eitherButtons, isBad } from "./marking.js";
import { MOST_SCALE } from "./layout.js";
import { onlyPlace } from "./moment.js";
import { go } from "./moves.js";
import { changed, diagram, follow, page, picture, plots, program, store, table } from "./state.js";
import { verdictOf } from "./verdict.js";

// Seconds that a run plays for, and the milliseconds from one step to the next.
const SECONDS_TO_PLAY = 14, QUICKEST = 40, SLOWEST = 500;
// How dark a part of a run is drawn which several processes share.
const SHARED = 0.45;
// Of so many places in the text where an event can have been all are named, and of more none.
const MOST_SPOTS = 3;
// How many hundredths of the room the network's pane takes.
const LEAST_NETWORK = 34, MOST_NETWORK = 58;
// How much larger a picture that is shown alone may be.
const MOST_ALONE = 3;
const PLAYS = {
  toStart: "M3 3v12M15 3L6 9l9 6z", back: "M13 3L5 9l8 6z", play: "M4 2l12 7-12 7z", pause: "M5 3h3v12H5zM11 3h3v12h-3z", on: "M5 3l8 6-8 6z",
  toEnd: "M15 3v12M3 3l9 6-9 6z", entire: "M3 7V3h4M11 3h4v4M15 11v4h-4M7 15H3v-4",
};

export const playIcon = (name) => svg("svg", { viewBox: "0 0 18 18", width: 16, height: 16, "aria-hidden": "true" }, svg("path", { d: PLAYS[name] }));

export function showSteps() {
  page.isOrdered = false;
  at("slider").max = page.run.last;
  showScore();
}

// Who did each event: a row for each process, above the slider.
export function showScore() {
  const { run } = page, canvas = at("score"), count = run.wiring.processes.length, width = canvas.clientWidth, ratio = devicePixelRatio || 1;
  const height = Math.min(42, Math.max(10, count * (count > 12 ? 2 : 4))), each = height / count;
  canvas.hidden = count === 1;
  canvas.style.height = `${height}px`;
  [canvas.width, canvas.height] = [width * ratio, height * ratio];
  const context = canvas.getContext("2d"), style = getComputedStyle(document.body);
  context.scale(ratio, ratio);
  context.fillStyle = style.getPropertyValue("--line");
  if (count <= 12) for (let i = 0; i < count; i++) context.fillRect(0, i * each + each / 2 - 0.5, width, 1);
  context.fillStyle = style.getPropertyValue("--faint");
  const scale = width / Math.max(1, run.last);
  for (const { low, high, movers } of page.isOrdered ? run.timeline.parts() : []) {
    context.globalAlpha = movers.length > 1 ? SHARED : 1;
    for (const it of movers) context.fillRect(low * scale, it * each, Math.max(0.7, (high - low) * scale), Math.max(1, each - 1));
  }
}

function showEvent() {
  const { run, moment } = page, { event } = moment, isPast = page.k > run.steps;
  const words = event ? `${event.who} ${event.words}` : moment.k === 0 ? "nothing has happened yet" : "the end of the run";
  const whole = run.steps < run.events && !isPast ? ` of the first ${numbered(run.steps)} of ${numbered(run.events)}` : ` of ${numbered(run.events)}`;
  const all = event?.places ?? [], places = all.length > MOST_SPOTS ? [] : eitherButtons(all);
  at("slider").value = page.k;
  at("slider").setAttribute("aria-valuetext", `event ${numbered(moment.k)}: ${words}`);
  const parts = [made("b", {}, `Event ${numbered(moment.k)}`), made("span", { className: "hint" }, whole), " ", made("span", { className: "words" }, words)];
  refill(at("event"), ...parts, ...places);
  at("toStart").disabled = at("back").disabled = page.k === 0;
  at("on").disabled = at("toEnd").disabled = page.k === run.last;
}

// Scrolls the program to where it happens.
function revealPlace() {
  if (document.activeElement === at("program")) return;
  const place = isBad() ? verdictOf(page.run).spots[0]?.places[0] : onlyPlace(page.moment.event);
  if (place && (isBad() || !atEnd())) program.reveal(place.from);
}

function showPicture() {
  const { moment, chosen } = page;
  drawPicture();
  if (!page.width) return;
  picture.update(moment, chosen, atEnd());
  if (moment.mover >= 0 && !atEnd()) picture.reveal([moment.mover]);
}

function showValues() {
  const { moment, chosen } = page;
  if (page.tab === "table") table.update(moment, chosen);
  if (page.tab === "plots") plots.update(moment, chosen);
  if (page.tab === "diagram") diagram.update(moment, chosen);
}

// Draws the network if the room has another width than before. Unless its height was chosen, the pane is as high as the picture.
export function drawPicture() {
  const width = at("picture").clientWidth, isChosen = store.state.panes?.["--network"] !== undefined, room = at("results").clientHeight;
  if (!page.wiring || page.width === width || !width) return;
  page.width = width;
  if (!isChosen) at("main").style.setProperty("--network", `${MOST_NETWORK}%`);
  picture.draw(page.wiring);
  const rest = at("network").clientHeight - at("picture").clientHeight, wanted = (100 * (picture.laid.height * picture.scale + rest + 36)) / room;
  if (!isChosen) at("main").style.setProperty("--network", `${Math.max(LEAST_NETWORK, Math.min(MOST_NETWORK, wanted))}%`);
  picture.view.resized();
}

let playing;

export function play() {
  if (playing || !page.run) {
    stopPlaying();
    return;
  }
  const { last } = page.run, start = page.k === last ? 0 : page.k, total = 1000 * SECONDS_TO_PLAY, events = Math.max(1, last - start);
  const every = Math.max(QUICKEST, Math.min(SLOWEST, total / events)), step = Math.max(1, Math.round((events * every) / total));
  go(start);
  playing = setInterval(() => {
    if (page.k >= page.run.last) stopPlaying();
    else if (page.moment.step === page.k) go(page.k + step);
  }, every);
  showPlay();
}

export function stopPlaying() {
  clearInterval(playing);
  playing = undefined;
  showPlay();
}

export function showPlay() {
  at("play").setAttribute("aria-label", playing ? "Pause" : "Play");
  at("play").replaceChildren(playIcon(playing ? "pause" : "play"));
}

follow("moment", showPicture);
follow("moment", showEvent);
follow("moment", showValues);
follow("moment", () => { if (!page.isOld) revealPlace(); });
follow("alone", () => {
  picture.view.mostWhole = page.isAlone ? MOST_ALONE : MOST_SCALE;
  page.width = undefined;
  changed("room");
});
follow("tab", () => {
  if (page.tab === "plots" && page.run) plots.draw();
  if (page.moment) changed("moment");
});
follow("room", () => {
  if (!page.run) drawPicture();
  if (!page.moment) return;
  showScore();
  if (page.tab === "plots") plots.draw();
  changed("moment");
});
