// The values of the streams as plots, one under the other on one axis: over their places, or over the events by which they came; or how many
// values wait on each channel over the events. A part of the axis can be made larger, and two cursors read the values at two places.

import { clipped, numbered, svg } from "./elements.js";
import { bandOf, curveOf } from "./lanes.js";
import { cameOf } from "./moment.js";
import { greatestOf, waitPartsOf, waitingAt } from "./waiting.js";

const NAMES = 128, NUMBERS = 50, LEFT = NAMES + NUMBERS, RIGHT = 10, STRIP = 36, PLOT = 68, AXIS = 24, APART = 6, LEAST_WIDTH = 280;
// How much larger a key or the wheel makes it; the least part of the axis that is shown; the pixels of a drag that is no press.
const NEARER = 1.5, NEARER_BY_WHEEL = 0.0022, LEAST_SPAN = 4, LEAST_PULL = 4;
// Where the two cursors are at first, and how far a key moves one.
const CURSORS = ["A", "B"], CURSORS_AT = [0.3, 0.7], MOVES = { ArrowLeft: -1, ArrowDown: -1, ArrowRight: 1, ArrowUp: 1, PageUp: 10, PageDown: -10 };

function brief(value) {
  return value.length <= 9 ? value : Number(value).toExponential(2);
}

const rangeWords = ({ least, most }) => (least === most ? numbered(least) : `${numbered(least)} to ${numbered(most)}`);

export class Plots {
  constructor(place) {
    Object.assign(this, { place, by: "place", cursors: undefined, choose: () => {}, goTo: () => {}, go: () => {}, read: () => {} });
    place.addEventListener("pointerdown", (event) => this.down(event));
    place.addEventListener("pointermove", (event) => this.move(event));
    place.addEventListener("pointerup", () => (this.pulled = undefined));
    place.addEventListener("pointerleave", () => this.hover(undefined));
    place.addEventListener("click", (event) => this.click(event));
    place.addEventListener("wheel", (event) => this.wheel(event), { passive: false });
    place.addEventListener("keydown", (event) => this.key(event));
  }

  // times: for each stream, by which event each value came; then they can be drawn over the events.
  show(run) {
    const { times } = run.timeline;
    Object.assign(this, { run, streams: run.streams, events: run.steps, times, moment: undefined, cursors: undefined, from: undefined });
    if (this.by === "waits" || !times) this.by = "place";
    this.draw();
  }

  // What the axis is of.
  showBy(by) {
    Object.assign(this, { by, times: this.run.timeline.times, cursors: undefined, from: undefined });
    this.draw();
  }

  get isByEvent() {
    return this.by !== "place";
  }

  // The ends of the axis.
  get ends() {
    const longest = this.streams.reduce((most, it) => Math.max(most, it.values.length), 1);
    return this.isByEvent ? [0, Math.max(1, this.events)] : [0.5, longest + 0.5];
  }

  get isWhole() {
    const [first, last] = this.ends;
    return this.to - this.from >= last - first;
  }

  // What can be a place of the axis, nearest to one.
  nearest(at) {
    const [first, last] = this.ends;
    return Math.max(Math.ceil(first), Math.min(Math.floor(last), Math.round(at)));
  }

  draw() {
    if (!this.run) return;
    const [first, last] = this.ends;
    if (this.from === undefined) Object.assign(this, { from: first, to: last });
    this.width = Math.max(LEAST_WIDTH, this.place.clientWidth - 18);
    const room = (this.width - LEFT - RIGHT) / (this.to - this.from), right = this.width - RIGHT;
    this.xOf = (at) => LEFT + room * (at - this.from);
    this.atOf = (x) => (x - LEFT) / room + this.from;
    let y = 4;
    this.lanes = this.shown().map((lane) => {
      const height = lane.stream.isLogical && !lane.parts ? STRIP : PLOT, made = { ...lane, y, height };
      y += height + APART;
      return made;
    });
    this.pointer = svg("line", { class: "pointer", y1: 0, y2: y, visibility: "hidden" });
    const view = { xOf: this.xOf, left: LEFT, right, end: this.xOf(last) }, clip = svg("clipPath", { id: "lanes" }, svg("rect", { x: LEFT, y: 0, width: Math.max(0, right - LEFT), height: y }));
    this.marks = this.cursors?.map((_, i) => svg("line", { class: `mark ${CURSORS[i]}`, y1: 0, y2: y })) ?? [];
    this.svg = svg("svg", { width: this.width, height: y, "aria-hidden": "true" }, svg("defs", {}, clip), ...this.lanes.map((it) => this.lane(it, view)),
      svg("g", { "clip-path": "url(#lanes)" }, ...this.marks, this.pointer));
    const words = this.lanes.length ? [] : [svg("text", { class: "role", x: 8, y: 40 }, "No channel between two processes.")];
    this.svg.append(...words);
    this.axis = svg("svg", { class: "axis", width: this.width, height: AXIS });
    this.drawAxis();
    this.place.replaceChildren(this.axis, this.svg);
    if (this.moment) this.update(this.moment, this.chosen);
    else this.readCursors();
  }

  // The streams as lanes; or the channels between processes, on which values wait.
  shown() {
    const { timeline } = this.run;
    if (this.by !== "waits") return this.streams.map((stream, i) => ({ stream, i, spots: this.isByEvent ? this.times[i] : undefined }));
    const gaps = timeline.gaps();
    return this.streams.flatMap((stream, i) => (stream.role === "inner" ? [{ stream, i, parts: waitPartsOf(gaps, i) }] : []));
  }

  lane(lane, view) {
    const { stream, y, height, parts, spots } = lane, words = (text, x, below, name) => svg("text", { x, y: below, class: name }, text), isTall = height === PLOT;
    lane.isByEvent = this.isByEvent;
    lane.numbers = parts ? [] : stream.values.map((it) => (stream.isLogical ? Number(it === "true") : Number(it)));
    lane.spotOf = (row) => view.xOf(spots ? spots[row] : row + 1);
    lane.greatest = parts && greatestOf(parts);
    const low = lane.numbers.reduce((least, it) => Math.min(least, it), 0), high = parts ? parts.reduce((most, it) => Math.max(most, it.most), 1) : lane.numbers.reduce((most, it) => Math.max(most, it), low + 1);
    lane.yOf = (it) => y + height - 5 - ((height - 10) * (it - low)) / (high - low);
    [lane.value, lane.other] = [words("", 8, y + (isTall ? 46 : 30), "value"), words("", 8, y + 60, "value other")];
    lane.veil = svg("rect", { class: "veil", y, height });
    lane.cursor = svg("line", { class: "cursor", y1: y, y2: y + height });
    const names = [words(clipped(stream.name, 15), 8, y + 14, "name")];
    if (isTall) {
      names.push(words(parts ? this.mostWords(lane.greatest) : stream.role, 8, y + 28, parts ? "most" : "role"));
      for (const it of [high, low]) names.push(words(brief(String(it)), LEFT - 6, lane.yOf(it) + (it === high ? 7 : 1), "range"));
    }
    const back = svg("rect", { x: LEFT, y, width: Math.max(0, view.right - LEFT), height, class: "back" });
    const drawn = svg("g", { "clip-path": "url(#lanes)" }, ...(parts ? bandOf(lane, view) : curveOf(lane, view)), lane.veil, lane.cursor);
    lane.group = svg("g", { class: "lane" }, back, drawn, ...names, lane.value, lane.other);
    return lane.group;
  }

  // The greatest number that waits, which is the room that a buffer needs.
  mostWords({ count, at, isLeast }) {
    return isLeast ? `most: ${numbered(count)} or more` : `most: ${numbered(count)}${count ? `, at ${numbered(at)}` : ""}`;
  }

  drawAxis() {
    const rough = (this.to - this.from) / Math.max(2, (this.width - LEFT) / 70), power = 10 ** Math.floor(Math.log10(Math.max(1, rough)));
    const step = [1, 2, 5, 10].map((it) => it * power).find((it) => it >= rough) ?? 1, ticks = [];
    for (let at = Math.max(Math.ceil(this.from / step) * step, this.isByEvent ? 0 : step); at <= this.to; at += step) ticks.push(this.tick(at));
    this.handles = this.cursors?.map((_, i) => this.handle(i)) ?? [];
    this.axis.append(svg("text", { x: 8, y: 16, class: "role" }, this.isByEvent ? "event" : "place"), svg("g", { "aria-hidden": "true" }, ...ticks), ...this.handles);
  }

  // A number of the axis, whole within the width.
  tick(at) {
    const words = numbered(at), half = 3.5 * words.length;
    return svg("text", { x: Math.max(LEFT + half - 4, Math.min(this.xOf(at), this.width - half - 2)), y: 16, class: "tick" }, words);
  }

  // By its handle a cursor is pulled, or moved by keys.
  handle(i) {
    const it = svg("g", { class: `handle-of ${CURSORS[i]}`, role: "slider", tabindex: 0, "aria-label": `Cursor ${CURSORS[i]}` }, svg("rect", { x: -12, y: 0, width: 24, height: AXIS, rx: 4 }), svg("text", { x: 0, y: 16 }, CURSORS[i]));
    it.addEventListener("pointerdown", (event) => {
      event.stopPropagation();
      it.focus();
      it.setPointerCapture(event.pointerId);
    });
    it.addEventListener("pointermove", (event) => { if (it.hasPointerCapture(event.pointerId)) this.putCursor(i, this.atOf(event.clientX - this.svg.getBoundingClientRect().left)); });
    it.addEventListener("click", (event) => event.stopPropagation());
    return it;
  }

  // Shows the two cursors, or takes them away.
  toggleCursors() {
    this.cursors = this.cursors ? undefined : CURSORS_AT.map((part) => this.nearest(this.from + part * (this.to - this.from)));
    this.draw();
  }

  putCursor(i, at) {
    this.cursors[i] = this.nearest(Math.max(this.from, Math.min(this.to, at)));
    this.update(this.moment, this.chosen);
  }

  // What hasn't come yet is veiled in each lane.
  update(moment, chosen) {
    const isOther = this.moment && moment !== this.moment;
    Object.assign(this, { moment, chosen });
    if (isOther && this.follow()) return;
    const end = this.width - RIGHT;
    for (const lane of this.lanes) {
      const { stream, i, veil, cursor, group, points } = lane, count = cameOf(stream, moment.streams[i]), x = Math.max(LEFT, Math.min(end, this.xOf(this.isByEvent ? Math.min(moment.step, this.events) : count + 0.5)));
      veil.setAttribute("x", x);
      veil.setAttribute("width", Math.max(0, end - x));
      cursor.setAttribute("x1", x);
      cursor.setAttribute("x2", x);
      group.classList.toggle("chain", stream.channel !== undefined && chosen.channels.includes(stream.channel));
      points?.forEach((it, row) => it.setAttribute("class", row === count - 1 ? "newest" : ""));
      if (!this.cursors) lane.value.textContent = lane.parts ? this.waitWords(lane) : this.newestWords(lane, count);
    }
    this.readCursors();
  }

  // (at the step it is known)
  waitWords({ i }) {
    const { count, taken } = this.moment.streams[i];
    return taken === undefined ? "" : `${numbered(count - taken)} wait`;
  }

  newestWords({ i }, count) {
    const newest = count ? this.moment.streams[i].values[count - 1] ?? this.moment.streams[i].last : "";
    return count ? `${brief(newest)} at ${numbered(count)}` : "";
  }

  // Moves the part in sight to the step, if that is out of it; says whether it did.
  follow() {
    const { event } = this.moment, at = this.isByEvent ? Math.min(this.moment.step, this.events) : event?.stream >= 0 ? event.row + 1 : undefined;
    if (this.isWhole || at === undefined || (at >= this.from && at <= this.to)) return false;
    this.pan(at - (this.from + this.to) / 2);
    return true;
  }

  // What a lane has at a place of the axis, in words.
  readingOf(lane, at) {
    if (lane.parts) return `${rangeWords(waitingAt(lane.parts, at))} wait`;
    const row = this.rowOf(lane, at);
    return row >= 0 ? `${brief(lane.stream.values[row])} at ${numbered(row + 1)}` : "";
  }

  rowOf({ spots, stream }, at) {
    return spots ? spots.findLastIndex((it) => it <= at) : at <= stream.values.length ? at - 1 : -1;
  }

  // The values at both cursors, and by how much the second one is greater.
  readCursors() {
    const { cursors } = this;
    this.read(cursors ? `A ${numbered(cursors[0])}, B ${numbered(cursors[1])}: ${numbered(Math.abs(cursors[1] - cursors[0]))} apart` : "");
    if (!cursors) return;
    cursors.forEach((at, i) => {
      for (const key of ["x1", "x2"]) this.marks[i].setAttribute(key, this.xOf(at));
      this.handles[i].setAttribute("transform", `translate(${Math.max(LEFT, Math.min(this.width - RIGHT, this.xOf(at)))} 0)`);
      Object.entries({ valuemin: Math.ceil(this.ends[0]), valuemax: Math.floor(this.ends[1]), valuenow: at }).forEach(([key, to]) => this.handles[i].setAttribute(`aria-${key}`, to));
    });
    for (const lane of this.lanes) {
      const [a, b] = cursors.map((at) => this.shortReading(lane, at)), isTall = lane.height === PLOT;
      lane.value.textContent = isTall ? `A ${a}` : `A ${a}  B ${b}`;
      lane.other.textContent = isTall ? `B ${b}${this.difference(lane)}` : "";
    }
  }

  shortReading(lane, at) {
    if (lane.parts) return rangeWords(waitingAt(lane.parts, at));
    const row = this.rowOf(lane, at);
    return row < 0 ? "none" : lane.stream.isLogical ? lane.stream.values[row].charAt(0).toUpperCase() : brief(lane.stream.values[row]);
  }

  difference(lane) {
    const [a, b] = this.cursors.map((at) => {
      if (!lane.parts) return lane.stream.values[this.rowOf(lane, at)];
      const { least, most } = waitingAt(lane.parts, at);
      return least === most ? least : undefined;
    });
    if (a === undefined || b === undefined || lane.stream.isLogical && !lane.parts) return "";
    const more = BigInt(b) - BigInt(a);
    return ` (${more > 0n ? "+" : ""}${brief(String(more))})`;
  }

  // How far from the left of the plots, or none where the names are.
  across(clientX) {
    const x = clientX - (this.svg?.getBoundingClientRect().left ?? 0);
    return x >= LEFT - 8 ? x : undefined;
  }

  // Each lane says its value below the pointer, and at which place it is.
  hover(x) {
    if (!this.lanes || !this.moment) return;
    this.pointer.setAttribute("visibility", x === undefined ? "hidden" : "visible");
    if (x === undefined) {
      this.update(this.moment, this.chosen);
      return;
    }
    const at = this.nearest(this.atOf(x));
    this.pointer.setAttribute("x1", this.xOf(at));
    this.pointer.setAttribute("x2", this.xOf(at));
    if (!this.cursors) for (const lane of this.lanes) lane.value.textContent = this.readingOf(lane, at);
  }

  // Shows a part of the axis, within its ends.
  look(from, span) {
    const [first, last] = this.ends, width = Math.max(Math.min(LEAST_SPAN, last - first), Math.min(last - first, span));
    this.from = Math.max(first, Math.min(last - width, from));
    this.to = this.from + width;
    this.draw();
  }

  // Makes it larger by a factor, around a place of the axis.
  zoom(factor, at = (this.from + this.to) / 2) {
    const span = (this.to - this.from) / factor;
    this.look(at - ((at - this.from) / (this.to - this.from)) * span, span);
  }

  pan(by) {
    this.look(this.from + by, this.to - this.from);
  }

  entire() {
    this.look(-Infinity, Infinity);
  }

  down({ clientX, target }) {
    if (target.closest(".handle-of")) return;
    this.pulled = { clientX, from: this.from };
    this.wasPulled = false;
  }

  move({ clientX, buttons, target }) {
    if (target.closest?.(".handle-of")) return;
    const by = this.pulled && buttons ? clientX - this.pulled.clientX : 0;
    if (this.pulled && buttons && (Math.abs(by) >= LEAST_PULL || this.wasPulled) && !this.isWhole) {
      this.wasPulled = true;
      this.look(this.pulled.from - (by * (this.to - this.from)) / (this.width - LEFT - RIGHT), this.to - this.from);
    } else if (!buttons) this.hover(this.across(clientX));
  }

  wheel(event) {
    const { deltaX, deltaY, shiftKey, ctrlKey, metaKey, clientX } = event, along = shiftKey && !deltaX ? deltaY : deltaX;
    if (!this.run) return;
    if (ctrlKey || metaKey) this.zoom(Math.exp(-deltaY * NEARER_BY_WHEEL), this.atOf(Math.max(LEFT, clientX - this.svg.getBoundingClientRect().left)));
    else if (!this.isWhole && Math.abs(along) > (shiftKey ? 0 : Math.abs(deltaY))) this.pan((along * (this.to - this.from)) / (this.width - LEFT - RIGHT));
    else return;
    event.preventDefault();
  }

  // Keys: of a cursor that has the focus, where it is; else how large it is.
  key(event) {
    const { key, target, ctrlKey, metaKey, altKey } = event, i = this.handles?.findIndex((it) => it === target) ?? -1;
    if (ctrlKey || metaKey || altKey || !this.run) return;
    const acts = { "+": () => this.zoom(NEARER), "=": () => this.zoom(NEARER), "-": () => this.zoom(1 / NEARER), 0: () => this.entire() };
    const act = i >= 0 && MOVES[key] ? () => this.putCursor(i, this.cursors[i] + MOVES[key]) : acts[key];
    if (!act) return;
    event.preventDefault();
    event.stopPropagation();
    act();
    if (i >= 0) this.handles[i]?.focus({ preventScroll: true });
  }

  click({ clientX, clientY }) {
    if (this.wasPulled || !this.lanes) return;
    const x = this.across(clientX), y = clientY - this.svg.getBoundingClientRect().top, lane = this.lanes.find((it) => y >= it.y && y < it.y + it.height + APART);
    if (!lane) return;
    const at = x === undefined ? 0 : this.nearest(this.atOf(x));
    if (x === undefined) this.choose(lane.stream);
    else if (lane.parts) this.go(at);
    else if (this.rowOf(lane, at) >= 0) this.goTo(lane.i, this.rowOf(lane, at));
  }
}
