// The part of a picture that is in sight: all of it at first; it is moved and made larger by wheel, fingers and keys. Of a large network a small
// picture of the whole shows which part that is.

import { svg } from "./elements.js";

const ZOOM = 1.25, WHEEL = 0.0022, MOST = 3, SLACK = 1.01, DRAGGED = 4;
// Room around a whole picture; the size of the small one, which a network of more than so many boxes has.
const MARGIN = 10, SMALL = { width: 140, height: 90 }, MANY = 40;

const middle = (points, key) => points.reduce((all, it) => all + it[key], 0) / points.length;
const distance = ([one, other]) => (other ? Math.hypot(one.clientX - other.clientX, one.clientY - other.clientY) : 0);

export class View {
  // changed: what is called with each other scale; mostWhole: the greatest scale of a whole picture.
  constructor(place, mostWhole, changed) {
    Object.assign(this, { place, mostWhole, changed, fingers: new Map(), scale: 1, least: 1, x: 0, y: 0, size: { width: 1, height: 1 } });
    place.addEventListener("wheel", (event) => this.wheel(event), { passive: false });
    place.addEventListener("pointerdown", (event) => this.down(event));
    place.addEventListener("pointermove", (event) => this.move(event));
    for (const it of ["pointerup", "pointercancel"]) place.addEventListener(it, ({ pointerId }) => this.fingers.delete(pointerId));
    place.addEventListener("click", (event) => this.wasDragged && event.stopPropagation(), true);
    new ResizeObserver(() => this.resized()).observe(place);
  }

  // Another picture, of this size: the whole of it, or its beginning if that wouldn't be larger than the least scale.
  open(picture, { width, height }, boxes, least) {
    Object.assign(this, { picture, size: { width, height } });
    this.small = boxes.length > MANY ? this.overview(boxes) : undefined;
    this.fit();
    if (this.least < least) this.put(Math.min(1, this.room().width / width), width / 2, 0);
  }

  get isWhole() {
    return this.scale <= this.least * SLACK;
  }

  room() {
    return { width: Math.max(1, this.place.clientWidth - 2 * MARGIN), height: Math.max(1, this.place.clientHeight - 2 * MARGIN) };
  }

  within(scale) {
    return Math.max(this.least, Math.min(Math.max(MOST, this.least), scale));
  }

  fit() {
    const { width, height } = this.room();
    this.least = Math.min(this.mostWhole, width / this.size.width, height / this.size.height);
    this.put(this.least, this.size.width / 2, this.size.height / 2);
  }

  // Shows a point of the picture in the middle of the room, as far as the picture goes.
  put(scale, x, y) {
    const room = this.room(), to = this.within(scale);
    const inside = (at, size, part) => (size <= part ? size / 2 : Math.max(part / 2, Math.min(size - part / 2, at)));
    Object.assign(this, { scale: to, x: inside(x, this.size.width, room.width / to), y: inside(y, this.size.height, room.height / to) });
    this.show((room.width + 2 * MARGIN) / to, (room.height + 2 * MARGIN) / to);
  }

  show(width, height) {
    if (!this.picture) return;
    const values = { x: this.x - width / 2, y: this.y - height / 2, width, height };
    this.picture.setAttribute("viewBox", Object.values(values).join(" "));
    this.place.classList.toggle("part", !this.isWhole);
    if (this.small) Object.entries(values).forEach(([key, it]) => this.small.frame.setAttribute(key, it));
    this.changed(this.scale);
  }

  resized() {
    if (!this.picture || !this.place.clientWidth) return;
    const wasWhole = this.isWhole, { scale, x, y } = this;
    this.fit();
    if (!wasWhole) this.put(scale, x, y);
  }

  // Makes the picture larger by a factor, around a point of the window or the middle.
  zoom(factor, clientX, clientY) {
    const { left, top, width, height } = this.place.getBoundingClientRect(), before = this.scale, to = this.within(before * factor);
    const dx = clientX === undefined ? 0 : clientX - left - width / 2, dy = clientY === undefined ? 0 : clientY - top - height / 2;
    this.put(to, this.x + dx / before - dx / to, this.y + dy / before - dy / to);
  }

  step(steps) {
    this.zoom(ZOOM ** steps);
  }

  wheel(event) {
    if (event.ctrlKey || event.metaKey) this.zoom(Math.exp(-event.deltaY * WHEEL), event.clientX, event.clientY);
    else if (!this.isWhole) this.put(this.scale, this.x + event.deltaX / this.scale, this.y + event.deltaY / this.scale);
    else return;
    event.preventDefault();
  }

  down(event) {
    this.fingers.set(event.pointerId, event);
    Object.assign(this, { wasDragged: false, from: event });
  }

  // One finger moves the picture, two make it larger too.
  move(event) {
    if (!this.fingers.has(event.pointerId)) return;
    const before = [...this.fingers.values()];
    this.fingers.set(event.pointerId, event);
    const now = [...this.fingers.values()], [dx, dy] = ["clientX", "clientY"].map((key) => middle(now, key) - middle(before, key));
    if (!this.wasDragged) {
      if (distance([this.from, event]) < DRAGGED && now.length < 2) return;
      this.place.setPointerCapture(event.pointerId);
      this.wasDragged = true;
    }
    this.put(this.scale, this.x - dx / this.scale, this.y - dy / this.scale);
    if (now.length > 1 && distance(before)) this.zoom(distance(now) / distance(before), middle(now, "clientX"), middle(now, "clientY"));
  }

  // Moves so far that a box is seen.
  reveal({ x, y, width, height }) {
    if (this.isWhole) return;
    const room = this.room(), isOut = (at, size, mine, part) => Math.abs(at - mine) > (part - size) / 2;
    if (isOut(x, width, this.x, room.width / this.scale) || isOut(y, height, this.y, room.height / this.scale)) this.put(this.scale, x, y);
  }

  overview(boxes) {
    const { width, height } = this.size, frame = svg("rect", { class: "frame" });
    const marks = boxes.map((it) => svg("rect", { x: it.x - it.width / 2, y: it.y - it.height / 2, width: it.width, height: it.height }));
    const element = svg("svg", { class: "overview", viewBox: `0 0 ${width} ${height}`, ...SMALL, "aria-hidden": "true" }, ...marks, frame);
    const to = (event) => {
      event.stopPropagation();
      if (!event.buttons) return;
      const { x, y } = new DOMPoint(event.clientX, event.clientY).matrixTransform(element.getScreenCTM().inverse());
      this.put(this.scale, x, y);
    };
    for (const it of ["pointerdown", "pointermove"]) element.addEventListener(it, to);
    return { element, frame, marks };
  }
}
