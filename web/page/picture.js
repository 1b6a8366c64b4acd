// The picture of the network at a moment: drawn once, then only its states, colours and values change.

import { alter, classesOf, numbered, svg } from "./elements.js";
import { fitted, LETTER, MOST_SCALE, READABLE } from "./layout.js";
import { stateWords } from "./moment.js";
import { View } from "./view.js";

// The least scale at which names can be read.
const NAMED = 0.5;

export const ICONS = {
  ready: "M1 0L8 4.5L1 9z",
  waits: "M1 0H3.4V9H1zM5.6 0H8V9H5.6z",
  ended: "M0.5 0.5H8.5V8.5H0.5z",
  fault: "M0 2L2 0L4.5 2.5L7 0L9 2L6.5 4.5L9 7L7 9L4.5 6.5L2 9L0 7L2.5 4.5z",
  unknown: "",
};

// What keys lead to; how much farther something aside is; and where each arrow key leads.
const STOP = { role: "button", tabindex: -1 }, ASIDE = 2;
const WAYS = { ArrowLeft: [-1, 0], ArrowRight: [1, 0], ArrowUp: [0, -1], ArrowDown: [0, 1] };

const shortly = (it) => (it < 10000 ? numbered(it) : it.toLocaleString("en", { notation: "compact", maximumFractionDigits: 1 }));

function stateText({ state, on, events }) {
  return state === "fault" ? (on === "division" ? "division by 0" : on) : `${state} · ${shortly(events)}`;
}

const briefly = (it) => ({ true: "T", false: "F" })[it] ?? it;
// A value is shown whole or not at all.
const orDots = (text, most) => (text.length > most ? "…" : text);

// The values that wait, the next to be taken where the arrow ends, as far as there is room; logical ones as T and F.
function waitingText(stream, most, isBack) {
  const { count, taken, values, last } = stream, next = briefly(stream.valueAt(taken)), newest = briefly(last);
  const inOrder = (list) => (isBack ? list : list.reverse()).join(" ");
  const all = count - taken <= most && count <= values.length ? inOrder(values.slice(taken).map(briefly)) : undefined;
  if (all !== undefined && all.length <= most) return all;
  if (newest.length + next.length + 3 <= most) return inOrder([next, "…", newest]);
  return count - taken > 1 && next.length + 2 <= most ? inOrder([next, "…"]) : orDots(next, most);
}

// The last value of an output, and whether there are others before it.
function lastText({ count, last }, most) {
  const text = count > 1 ? `… ${briefly(last)}` : briefly(last);
  return orDots(text, most);
}

// (as `alter` does)
function say(element, text) {
  if (element.textContent !== text) element.textContent = text;
}

export class Picture {
  constructor(place) {
    Object.assign(this, { place, scale: 1, choose: () => {} });
    this.view = new View(place, MOST_SCALE, (scale) => this.scaled(scale));
    place.addEventListener("keydown", (event) => this.key(event));
    // (with a mouse the arrow keys stay those of the steps)
    place.addEventListener("mousedown", (event) => {
      event.preventDefault();
      place.focus({ preventScroll: true });
    });
  }

  draw(wiring) {
    const laid = fitted(wiring, this.place.clientWidth - 20, this.place.clientHeight - 20);
    Object.assign(this, { wiring, laid });
    const size = { viewBox: "0 0 9 8", refX: 8, refY: 4, markerWidth: 9, markerHeight: 8, markerUnits: "userSpaceOnUse", orient: "auto" };
    const heads = ["", "now", "ring", "chain"].map((it) => svg("marker", { id: `head${it}`, class: it, ...size }, svg("path", { d: "M0 0L9 4L0 8z" })));
    this.arrows = laid.edges.map((it) => this.arrow(it));
    this.boxes = laid.boxes.map((it) => this.box(it));
    const words = laid.edges.filter((it) => it.word).map(({ word, wordAt: [x, y] }) => svg("text", { x, y, class: "end", "aria-hidden": "true" }, word));
    this.stops = [...this.boxes.map(({ group, node }) => ({ ...node, element: group })),
      ...this.arrows.map(({ label }, i) => ({ x: laid.edges[i].nameAt[0], y: laid.edges[i].nameAt[1], width: 0, height: 0, element: label }))];
    this.stops[0]?.element.setAttribute("tabindex", 0);
    this.svg = svg("svg", { class: "whole", role: "presentation" }, svg("defs", {}, ...heads),
      ...this.arrows.map((it) => it.line), ...words, ...this.boxes.map((it) => it.group), ...this.arrows.map((it) => it.label));
    this.view.open(this.svg, laid, laid.boxes, laid.isDown ? READABLE : 0);
    this.place.replaceChildren(this.svg, ...(this.view.small ? [this.view.small.element] : []));
  }

  // What is drawn depends on how large its letters are: all, names without values, or only numbers of processes, colours and rings.
  scaled(scale) {
    this.scale = scale;
    alter(this.svg, "class", `whole ${scale >= READABLE ? "all" : scale >= NAMED ? "names" : "numbers"}`);
  }

  arrow({ number, path, nameAt, valuesAt: [x, y], isBack }) {
    const channel = this.wiring.channels[number], kind = channel.isLogical ? "line dashed" : "line";
    const shown = svg("path", { d: path, class: kind, "marker-end": "url(#head)" });
    const line = svg("g", { class: "arrow", "aria-hidden": "true" }, svg("path", { d: path, class: "touch" }), shown);
    const count = svg("text", { class: "count", y, x }), last = svg("text", { class: "last", y }), tip = svg("title");
    const label = svg("g", { class: "label", ...STOP }, svg("text", { x: nameAt[0], y: nameAt[1], class: "name" }, channel.name), count, last, tip);
    for (const it of [line, label]) it.addEventListener("click", () => this.choose({ channel: number }));
    return { line, shown, label, count, last, tip, labelX: x, isBack };
  }

  box(node) {
    const { x, y, width, height } = node, left = x - width / 2, top = y - height / 2;
    const middle = y - (node.values ? 8 : 0), row = middle + (node.values ? 30 : 14);
    const frame = (more, name) => {
      const size = { width: width + 2 * more, height: height + 2 * more, rx: 6 + more };
      return svg("rect", { x: left - more, y: top - more, ...size, class: name });
    };
    const slip = `M${left + width - 19} ${top + 7}h10v13l-2.5-2-2.5 2-2.5-2-2.5 2zm2.5 4h5m-5 3.5h5`;
    const icon = svg("path", { transform: `translate(${left + 10} ${row - 8})` }), tip = svg("title");
    const state = svg("text", { class: "state", x: left + 24, y: row });
    const number = svg("tspan", { class: "number" }, String(node.number));
    const title = svg("text", { class: "title", x: left + 10, y: middle - 6 }, number, svg("tspan", { dx: 6 }, node.name));
    const far = svg("text", { class: "far", x, y: y + 9 }, String(node.number));
    const parts = [frame(5, "halo"), frame(0, "frame"), title, icon, state, far, tip];
    if (node.prints) parts.push(svg("path", { class: "prints", d: slip }));
    if (node.values) parts.push(svg("text", { class: "values", x: left + 10, y: middle + 10 }, node.values));
    const group = svg("g", { class: "box", ...STOP }, ...parts);
    group.addEventListener("click", () => this.choose({ process: node.i }));
    return { group, icon, state, tip, node };
  }

  // isResult: the end of a run, at which nothing is blue.
  update(moment, chosen, isResult) {
    this.boxes.forEach((it, i) => this.updateBox(it, moment, chosen, !isResult && moment.mover === it.node.i, this.view.small?.marks[i]));
    const waits = new Map(moment.processes.map((it, i) => [it.state === "waits" ? it.on : "", moment.ring.has(i)]));
    this.arrows.forEach((it, number) => {
      const channel = this.wiring.channels[number], { name } = channel, isRing = waits.get(name) === true;
      const isNow = !isResult && moment.event?.channel === number, isChain = chosen.channels.includes(number), isChosen = chosen.channel === number;
      const classes = classesOf(waits.has(name) && "dry", isRing && "ring", isNow && "now", isChain && "chain", isChosen && "chosen");
      alter(it.line, "class", classesOf("arrow", classes));
      alter(it.label, "class", classesOf("label", classes));
      alter(it.shown, "marker-end", `url(#head${isNow ? "now" : isRing ? "ring" : isChain ? "chain" : ""})`);
      this.updateLabel(it, channel, moment.streams[number]);
    });
  }

  updateBox({ group, icon, state, tip, node }, moment, chosen, isNow, mark) {
    const it = moment.processes[node.i], isChain = chosen.processes.includes(node.i);
    const isRing = moment.ring.has(node.i), isChosen = chosen.process === node.i;
    const classes = classesOf("box", it.state, isRing && "ring", isNow && "now", isChain && "chain", isChosen && "chosen");
    alter(group, "class", classes);
    if (mark) alter(mark, "class", classes);
    alter(icon, "d", ICONS[it.state]);
    say(state, stateText(it));
    say(tip, `${node.number} ${node.name}: ${stateWords(it)}, after ${numbered(it.events)} events`);
  }

  // What is below an arrow: how many values wait, and which; of an output, how many it has, and the last one. At the end of a run whose
  // inner channels weren't kept, nothing.
  updateLabel({ count, last, tip, labelX, isBack }, { name, role }, stream) {
    const isOutput = role === "output", isKnown = isOutput || stream.taken !== undefined;
    const waiting = isOutput ? stream.count : stream.count - stream.taken;
    const number = isKnown && waiting ? shortly(waiting) : "", room = this.laid.shown - number.length;
    say(count, number);
    say(last, !number ? "" : isOutput ? lastText(stream, room) : waitingText(stream, room, isBack));
    alter(last, "x", String(labelX + LETTER * number.length + 8));
    const newest = stream.count ? `, the last is ${stream.last}` : "";
    const more = isOutput ? newest : `, ${numbered(stream.taken ?? 0)} taken, ${numbered(waiting)} wait`;
    say(tip, isKnown ? `${name}: ${numbered(stream.count)} sent${more}` : name);
  }

  // An arrow key leads to the nearest box or name that way, Enter chooses it.
  key(event) {
    const here = this.stops?.find((it) => it.element === event.target), [dx, dy] = WAYS[event.key] ?? [], { ctrlKey, metaKey, altKey } = event;
    if (!here || ctrlKey || metaKey || altKey || (dx === undefined && event.key !== "Enter")) return;
    event.preventDefault();
    event.stopPropagation();
    if (dx === undefined) {
      here.element.dispatchEvent(new MouseEvent("click", { bubbles: true }));
      return;
    }
    const away = (it) => ({ it, along: dx * (it.x - here.x) + dy * (it.y - here.y), across: Math.abs(dy * (it.x - here.x) + dx * (it.y - here.y)) });
    const found = this.stops.filter((it) => it.element.checkVisibility()).map(away).filter(({ along, across }) => along > 1 && across <= 2 * along);
    const next = found.sort((a, b) => a.along + ASIDE * a.across - b.along - ASIDE * b.across)[0]?.it;
    if (!next) return;
    here.element.setAttribute("tabindex", -1);
    next.element.setAttribute("tabindex", 0);
    next.element.focus({ preventScroll: true });
    this.view.reveal(next);
  }

  // Moves the picture so far that the first of these boxes is seen.
  reveal([number]) {
    const box = this.boxes[number];
    if (box) this.view.reveal(box.node);
  }
}
