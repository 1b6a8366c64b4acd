// The events around a step as a diagram: a lifeline for each process, and an arrow from each send to the take of its value.

import { alter, classesOf, clipped, made, numbered, svg } from "./elements.js";
import { eventsWithin, openBounds, passages } from "./lifelines.js";

const NAME_ROOM = 132, TICKS = 22, MARGIN_RIGHT = 14, LEAST_ROW = 22, MOST_ROW = 46, LEAST_DIAGRAM = 280;
// The width of an event: at first, at least and at most; and by how much a key changes it.
const COLUMN = 26, LEAST_COLUMN = 8, MOST_COLUMN = 90, WIDER = 1.25, WIDER_BY_WHEEL = 0.0022;
// The width of a digit of a value, and the height of what is above a lifeline.
const DIGIT = 7, OVER_LINE = 6;
// Where the step is within the part that is shown, if that moves to it; and after how many milliseconds what was learnt meanwhile is shown.
const STEP_AT = 0.62, SHOWN_EVERY = 120;
// An arrow from or to what isn't shown: how far it goes; and the pixels of a drag that is no press.
const STUB = 13, LEAST_DRAG = 4;

const clamped = (it, least, most) => Math.max(least, Math.min(most, it));

export class Diagram {
  constructor(place) {
    Object.assign(this, { place, run: undefined, each: COLUMN, first: 0, here: 0, choose: () => {}, go: () => {}, goTo: () => {}, learn: (answer) => answer });
    place.addEventListener("click", (event) => this.click(event));
    place.addEventListener("wheel", (event) => this.wheel(event), { passive: false });
    place.addEventListener("keydown", (event) => this.key(event));
    place.addEventListener("pointerdown", ({ clientX, target }) => Object.assign(this, { from: clientX, begin: this.first, isPressed: !target.closest(".who"), wasDragged: false }));
    place.addEventListener("pointermove", (event) => this.drag(event));
    for (const it of ["pointerup", "pointercancel"]) place.addEventListener(it, () => (this.isPressed = false));
  }

  show(run) {
    Object.assign(this, { run, moment: undefined, first: 0, here: Math.min(this.here, run.wiring.processes.length - 1) });
  }

  get most() {
    return Math.max(0, this.run.steps - this.count);
  }

  // How many events have room.
  get count() {
    return Math.max(1, Math.floor((this.width - NAME_ROOM - MARGIN_RIGHT) / this.each));
  }

  update(moment, chosen) {
    const isOther = moment !== this.moment;
    Object.assign(this, { moment, chosen });
    if (!this.place.clientWidth) return;
    this.measure();
    const k = Math.min(moment.step, this.run.steps);
    if (isOther && (k <= this.first + 1 || k >= this.first + this.count)) this.first = Math.round(k - STEP_AT * this.count);
    this.draw();
    if (isOther) this.reveal(moment.mover);
    this.learnRest();
  }

  measure() {
    const { clientWidth, clientHeight } = this.place, { length } = this.run.wiring.processes;
    this.width = Math.max(LEAST_DIAGRAM, clientWidth - 4);
    this.row = clamped(Math.floor((clientHeight - TICKS - 8) / length), LEAST_ROW, MOST_ROW);
  }

  // Learns what isn't known of the part in sight, from the step outwards.
  async learnRest() {
    const { run } = this, { timeline } = run, asked = (this.asked = {}), near = Math.min(this.moment.step, run.steps);
    let shown = performance.now(), isOpen = false;
    for (const k of openBounds(timeline, this.first, Math.min(run.steps, this.first + this.count), near)) {
      if (!(await this.learn(timeline.learn(k)))) return;
      if (this.asked !== asked || this.run.timeline !== timeline || !this.place.clientWidth) return;
      isOpen = performance.now() - shown < SHOWN_EVERY;
      if (!isOpen) {
        this.draw();
        shown = performance.now();
      }
    }
    if (isOpen) this.draw();
  }

  // Moves the part that is shown, by a number of events.
  move(to) {
    const first = clamped(Math.round(to), 0, this.most);
    if (!this.moment || first === this.first) return;
    this.first = first;
    this.draw();
    this.learnRest();
  }

  // Makes events wider by a factor, around a place from the left or around the step.
  zoom(factor, x) {
    if (!this.moment) return;
    const k = x === undefined ? clamped(this.moment.step, this.first, this.first + this.count) : this.eventAt(x), before = this.xOf(k);
    this.each = clamped(this.each * factor, LEAST_COLUMN, MOST_COLUMN);
    this.first = clamped(Math.round(k - (before - NAME_ROOM) / this.each), 0, this.most);
    this.draw();
    this.learnRest();
  }

  xOf(k) {
    return NAME_ROOM + (k - this.first - 0.5) * this.each;
  }

  yOf(i) {
    return (i + 0.5) * this.row;
  }

  eventAt(x) {
    return clamped(Math.round((x - NAME_ROOM) / this.each + this.first + 0.5), this.first + 1, Math.min(this.run.steps, this.first + this.count));
  }

  draw() {
    const { run } = this, height = run.wiring.processes.length * this.row;
    this.first = clamped(this.first, 0, this.most);
    this.high = Math.min(run.steps, this.first + this.count);
    this.events = eventsWithin(run.timeline, this.first, this.high, run.streams);
    this.byNumber = new Map(this.events.map((it) => [it.k, it]));
    this.drawNames(height);
    const all = passages(this.events, run.timeline), x = this.cursorX(), cursor = svg("line", { class: "cursor", x1: x, x2: x, y1: 0, y2: height });
    this.inner.replaceChildren(...this.unknown(height), cursor, ...all.flatMap((it) => this.arrow(it)), ...this.events.map((it) => this.sign(it)), ...this.labels(all));
    this.numbers.replaceChildren(...this.ticks());
    this.list.replaceChildren(...this.events.map((it) => made("li", {}, this.words(it, all))));
  }

  // The lifelines and their names, which stay from step to step as long as their room does.
  drawNames(height) {
    const { processes } = this.run.wiring, looks = `${this.width} ${this.row}`, isSame = this.drawn?.run === this.run && this.drawn.looks === looks;
    if (!isSame) {
      this.drawn = { run: this.run, looks };
      this.inner = svg("g");
      this.names = processes.map((it, i) => this.name(it, i));
      const tips = ["", "now", "chain"].map((it) => this.tip(it));
      this.svg = svg("svg", { width: this.width, height, role: "presentation" }, svg("defs", {}, ...tips), ...this.names.map(({ line }) => line), this.inner,
        ...this.names.map(({ who }) => who));
      this.numbers = svg("svg", { class: "ticks", width: this.width, height: TICKS, "aria-hidden": "true" });
      this.list = made("ul", { className: "unseen", "aria-label": "Events that are shown" });
      this.place.replaceChildren(this.numbers, this.svg, this.list);
    }
    this.names.forEach((it, i) => this.colour(it, i));
  }

  // How the process of a lifeline is at the step, and whether it is chosen.
  colour({ line, who }, i) {
    const isChain = this.chosen.processes.includes(i), { state } = this.moment.processes[i];
    alter(line, "class", classesOf("life", isChain && "chain"));
    alter(who, "class", classesOf("who", state, this.moment.ring.has(i) && "ring", isChain && "chain", this.chosen.process === i && "chosen"));
  }

  // The end of an event is the step, the start before the first one.
  cursorX() {
    return NAME_ROOM + (Math.min(this.moment.step, this.run.steps) - this.first) * this.each;
  }

  tip(kind) {
    const size = { viewBox: "0 0 8 8", refX: 7, refY: 4, markerWidth: 8, markerHeight: 8, markerUnits: "userSpaceOnUse", orient: "auto" };
    return svg("marker", { id: `tip${kind}`, class: kind, ...size }, svg("path", { d: "M0 0.5L8 4L0 7.5z" }));
  }

  // The lifeline of a process and its name, which chooses it.
  name({ number, name }, i) {
    const y = this.yOf(i), words = `${number} ${name}`, line = svg("line", { x1: NAME_ROOM, x2: this.width - MARGIN_RIGHT / 2, y1: y, y2: y });
    const back = svg("rect", { class: "back", x: 0, y: y - this.row / 2, width: NAME_ROOM - 4, height: this.row });
    const who = svg("g", { role: "button", tabindex: i === this.here ? 0 : -1 }, svg("title", {}, words), back, svg("text", { x: 8, y: y + 4 }, clipped(words, 17)));
    who.addEventListener("click", () => this.choose({ process: i }));
    return { line, who };
  }

  // What isn't known yet.
  unknown(height) {
    const found = [];
    for (let k = this.first + 1; k <= this.high; k++) {
      if (!this.byNumber.has(k)) found.push(svg("rect", { class: "unknown", x: this.xOf(k) - this.each / 2, y: 0, width: this.each, height }));
    }
    return found;
  }

  // How far an event or a value is: done, the one of the step, or later; and whether it is chosen.
  classOf(k, stream) {
    const { step } = this.moment, { channel } = this.run.streams[stream] ?? {}, { value } = this.chosen;
    return classesOf(k === step ? "now" : k > step && "later", channel !== undefined && this.chosen.channels.includes(channel) && "chain",
      value && value.stream === stream && "chain");
  }

  // The arrow of a value: from its send to its take, from or to what isn't shown, from an input, or to an output.
  arrow({ stream, row, sent, taken, isLeft }) {
    const { writer, reader } = this.run.wiring.channels[stream], { step } = this.moment, isNow = sent === step || taken === step;
    const start = sent && [this.xOf(sent), this.yOf(writer)], end = taken && [this.xOf(taken), this.yOf(reader)], kind = classesOf("arrow", isNow ? "now" : this.classOf(sent ?? taken, stream).replace("now", ""));
    const head = { "marker-end": `url(#tip${isNow ? "now" : kind.includes("chain") ? "chain" : ""})` };
    const line = (d, more) => {
      const it = svg("g", { class: kind }, svg("path", { class: "touch", d }), svg("path", { class: classesOf("line", more), d, ...(more === "left" ? {} : head) }), svg("title", {}, this.valueWords({ stream, row })));
      it.addEventListener("click", () => { if (!this.wasDragged) this.goTo(stream, row); });
      return it;
    };
    if (start && end) return [line(writer === reader ? this.bow(start, end) : `M${start.join(" ")}L${this.before(start, end).join(" ")}`)];
    if (end) return [line(writer < 0 ? `M${end[0] - STUB} ${end[1] - STUB}L${this.before([end[0] - STUB, end[1] - STUB], end).join(" ")}` : this.fromBefore(end, writer), writer < 0 ? "outside" : "part")];
    if (reader < 0) return [line(`M${start.join(" ")}L${start[0] + STUB} ${start[1] + STUB}`, "outside")];
    return [line(this.toLater(start, reader), isLeft ? "left" : "part")];
  }

  // The end of an arrow, before the sign of the take.
  before([x, y], [toX, toY]) {
    const length = Math.hypot(toX - x, toY - y) || 1, part = Math.max(0, length - 5) / length;
    return [x + (toX - x) * part, y + (toY - y) * part].map((it) => it.toFixed(1));
  }

  bow([x, y], [toX]) {
    return `M${x} ${y}C${x} ${y - 18} ${toX} ${y - 18} ${toX} ${y - 5}`;
  }

  // Of a value that was sent before what is shown, and of one that is taken after it or never: towards the other process.
  fromBefore([x, y], writer) {
    const up = Math.sign(this.yOf(writer) - y) * Math.min(STUB, this.row / 2 - 4);
    return `M${Math.max(NAME_ROOM, x - 2 * STUB)} ${y + up || y - 8}L${x - 5} ${y}`;
  }

  toLater([x, y], reader) {
    const up = Math.sign(this.yOf(reader) - y) * Math.min(STUB, this.row / 2 - 4);
    return `M${x} ${y}L${x + 2 * STUB} ${y + up || y - 8}`;
  }

  sign({ k, who, kind, stream }) {
    const x = this.xOf(k), y = this.yOf(who), classes = classesOf("sign", kind, this.classOf(k, stream), this.chosen.process === who && "chain");
    const shapes = {
      send: () => svg("circle", { cx: x, cy: y, r: 4 }), take: () => svg("circle", { cx: x, cy: y, r: 4 }),
      print: () => svg("rect", { x: x - 4, y: y - 4, width: 8, height: 8 }), turn: () => svg("line", { x1: x, x2: x, y1: y - 5, y2: y + 5 }),
    };
    return svg("g", { class: classes }, shapes[kind](), svg("title", {}, this.words(this.byNumber.get(k), [])));
  }

  valueOf(stream, row) {
    return this.run.final.streams[stream].valueAt(row);
  }

  valueWords({ stream, row }) {
    const { name } = this.run.streams[stream];
    return `${name} ${numbered(row + 1)}: ${this.valueOf(stream, row)}`;
  }

  // The values above the lifelines: at its send, or at its take if the send isn't shown. Each is whole, or left out.
  labels(all) {
    const rows = this.run.wiring.processes.map(() => []);
    const put = ({ k, who, stream, row }) => rows[who].push({ k, stream, text: this.valueOf(stream, row) });
    const isShown = new Set(all.filter((it) => it.sent && it.taken).map((it) => `${it.stream} ${it.row}`));
    for (const it of this.events) if (it.kind === "send" || it.kind === "print" || (it.kind === "take" && !isShown.has(`${it.stream} ${it.row}`))) put(it);
    return rows.flatMap((row, who) => row.flatMap(({ k, stream, text }, i) => {
      const room = ((row[i + 1]?.k ?? this.high + 1.5) - k) * this.each;
      if (this.row < LEAST_ROW || text.length * DIGIT > room - 2) return [];
      return [svg("text", { class: classesOf("value", this.classOf(k, stream)), x: this.xOf(k) - 3, y: this.yOf(who) - OVER_LINE }, text)];
    }));
  }

  ticks() {
    const rough = 46 / this.each, power = 10 ** Math.floor(Math.log10(Math.max(1, rough))), wide = numbered(this.high).length * 7 / this.each;
    const step = [1, 2, 5, 10, 20].map((it) => it * power).find((it) => it >= Math.max(rough, wide)) ?? 1, found = [svg("text", { class: "role", x: 8, y: 15 }, "event")];
    for (let k = Math.ceil((this.first + 1) / step) * step; k <= this.high; k += step) found.push(svg("text", { class: "tick", x: this.xOf(k), y: 15 }, numbered(k)));
    const { step: now } = this.moment;
    if (now > this.first && now <= this.high) found.unshift(svg("rect", { class: "now", x: this.xOf(now) - this.each / 2, y: 0, width: this.each, height: TICKS }));
    return found;
  }

  // An event in words, with what it leads to if that is shown.
  words({ k, who, kind, stream, row }, all) {
    const { number, name } = this.run.wiring.processes[who], doer = `Event ${numbered(k)}: ${number} ${name}`;
    if (kind === "turn") return `${doer} begins a turn of a loop`;
    const value = this.valueOf(stream, row), on = this.run.streams[stream].name;
    if (kind === "print") return `${doer} prints ${value}`;
    if (kind === "take") return `${doer} takes ${value} from ${on}`;
    const taken = all.find((it) => it.stream === stream && it.row === row)?.taken;
    return `${doer} sends ${value} on ${on}${taken ? `, which event ${numbered(taken)} takes` : ""}`;
  }

  // Scrolls to the lifeline of a process.
  reveal(i) {
    const { scrollTop, clientHeight } = this.place, y = this.yOf(Math.max(0, i)), room = clientHeight - TICKS;
    if (i >= 0 && (y - this.row < scrollTop || y + this.row > scrollTop + room)) this.place.scrollTop = Math.round((y - room / 2) / this.row) * this.row;
  }

  click({ clientX, target }) {
    if (!this.svg || this.wasDragged || target.closest(".who, .arrow")) return;
    const x = clientX - this.svg.getBoundingClientRect().left;
    if (x >= NAME_ROOM - 4) this.go(this.eventAt(x));
  }

  drag({ clientX, buttons }) {
    if (!this.isPressed || !buttons || !this.moment) return;
    if (Math.abs(clientX - this.from) >= LEAST_DRAG) this.wasDragged = true;
    if (this.wasDragged) this.move(this.begin - (clientX - this.from) / this.each);
  }

  wheel(event) {
    if (!this.moment) return;
    const { deltaX, deltaY, shiftKey, ctrlKey, metaKey, clientX } = event, along = shiftKey && !deltaX ? deltaY : deltaX;
    if (ctrlKey || metaKey) this.zoom(Math.exp(-deltaY * WIDER_BY_WHEEL), clientX - this.svg.getBoundingClientRect().left);
    else if (Math.abs(along) > Math.abs(shiftKey ? 0 : deltaY)) this.move(this.first + (Math.sign(along) * Math.max(this.each, Math.abs(along))) / this.each);
    else return;
    event.preventDefault();
  }

  // Keys: the width of events; from name to name, and Enter chooses one.
  key(event) {
    const { key, target, ctrlKey, metaKey, altKey } = event, isName = Boolean(target.closest(".who")), down = { ArrowUp: -1, ArrowDown: 1 }[key];
    if (ctrlKey || metaKey || altKey || !this.moment) return;
    const acts = { "+": () => this.zoom(WIDER), "=": () => this.zoom(WIDER), "-": () => this.zoom(1 / WIDER), 0: () => this.zoom(COLUMN / this.each) };
    const act = isName && key === "Enter" ? () => this.choose({ process: this.here }) : isName && down ? () => this.focus(this.here + down) : acts[key];
    if (!act) return;
    event.preventDefault();
    event.stopPropagation();
    act();
  }

  focus(i) {
    this.here = clamped(i, 0, this.names.length - 1);
    this.names.forEach(({ who }, at) => who.setAttribute("tabindex", at === this.here ? 0 : -1));
    this.names[this.here].who.focus({ preventScroll: true });
    this.reveal(this.here);
  }
}
