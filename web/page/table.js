// The values of the streams as a table: a row for each place, a column for each stream. Outputs and prints come first.

import { made, numbered } from "./elements.js";

// The height of a row, and how many rows beside those in sight are in the document.
const ROW = 24, SPARE = 8;
// So many rows are kept between the head and the value of an event, and so many below it.
const ABOVE = 2, BELOW = 1;
const ORDER = ["output", "prints", "input", "inner"], ROLES_INSIDE = ["inner", "input"];

const columnsOf = (streams) => streams.map((stream, i) => ({ stream, i })).sort((a, b) => ORDER.indexOf(a.stream.role) - ORDER.indexOf(b.stream.role) || a.i - b.i);

export class Table {
  constructor(place) {
    Object.assign(this, { place, columns: [], cells: [], first: -1, here: { row: -1, column: 0 }, choose: () => {}, goTo: () => {} });
    place.addEventListener("scroll", () => this.fill());
    place.addEventListener("keydown", (event) => this.key(event));
    place.addEventListener("click", ({ target }) => this.click(target.closest("td")));
  }

  // isWhole: whether channels that are no outputs were kept to the end of the run.
  show(streams, isWhole, steps) {
    this.columns = columnsOf(streams);
    this.rows = Math.max(0, ...streams.map((it) => it.values.length));
    for (const it of this.columns) it.head = this.head(it.stream);
    this.body = made("tbody", {}, this.space(this.rows));
    const corner = made("th", { scope: "col", className: "place" }, "place");
    this.top = made("thead", {}, made("tr", {}, corner, ...this.columns.map((it) => it.head)));
    // (with a mouse the arrow keys stay those of the steps)
    this.top.addEventListener("mousedown", (event) => {
      event.preventDefault();
      this.place.focus({ preventScroll: true });
    });
    const isCut = streams.some((it) => it.count > it.values.length), isPart = !isWhole && streams.some((it) => ROLES_INSIDE.includes(it.role));
    const words = [isCut && `The first ${numbered(this.rows)} values of each are shown.`, isPart && `Of channels that are no outputs, those of the first ${numbered(steps)} events.`];
    this.hint = isCut || isPart ? made("p", { className: "hint" }, words.filter(Boolean).join(" ")) : undefined;
    this.place.replaceChildren(...(this.hint ? [this.hint] : []), made("table", { role: "grid", "aria-rowcount": this.rows + 1 }, this.top, this.body));
    Object.assign(this, { moment: undefined, cells: [], first: -1, here: { row: -1, column: 0 } });
    this.stop();
  }

  head(stream) {
    const act = { className: "stream", title: "Its process and places", tabIndex: -1, onclick: () => this.choose(stream) };
    return made("th", { scope: "col" }, made("button", act, stream.name, made("small", {}, stream.role)));
  }

  // What is shown first after a run are its results, from the first row on; then the value of each step.
  update(moment, chosen) {
    const isFirst = !this.moment, isOther = moment !== this.moment;
    Object.assign(this, { moment, chosen });
    if (isFirst && moment.isEnd) this.place.scrollTo(0, 0);
    else if (isOther) this.follow();
    this.fill();
    this.colour();
  }

  // Scrolls to the value that came or went.
  follow() {
    const { event, k } = this.moment, column = this.columns.find((it) => it.i === event?.stream);
    if (column) this.reveal(column, event.row);
    else if (k === 0) this.place.scrollTop = 0;
  }

  // Scrolls so far that a row of a column is in sight.
  reveal(column, row) {
    const { scrollTop, scrollLeft, clientHeight, clientWidth } = this.place, { offsetLeft, offsetWidth } = column.head, room = clientHeight - this.top.offsetHeight;
    const corner = this.top.rows[0].cells[0].offsetWidth, y = (this.hint?.offsetHeight ?? 0) + row * ROW;
    const isAbove = y < scrollTop + ABOVE * ROW, isBelow = y + (1 + BELOW) * ROW > scrollTop + room;
    if (isAbove || isBelow) this.place.scrollTop = y - Math.max(0, Math.min(ABOVE * ROW, room - 2 * ROW));
    if (offsetLeft < scrollLeft + corner || offsetLeft + offsetWidth > scrollLeft + clientWidth) this.place.scrollLeft = offsetLeft - corner - ROW;
  }

  // The rows in sight alone are in the document.
  fill() {
    if (!this.moment || !this.place.clientHeight) return;
    const first = Math.max(0, Math.floor(this.place.scrollTop / ROW) - SPARE);
    const last = Math.min(this.rows, first + Math.ceil(this.place.clientHeight / ROW) + 2 * SPARE);
    if (first === this.first && this.cells.length === last - first) return;
    this.first = first;
    this.cells = Array.from({ length: Math.max(0, last - first) }, (_, i) => this.row(first + i));
    const isHere = this.body.contains(document.activeElement);
    this.body.replaceChildren(this.space(first), ...this.cells.map((it) => it.line), this.space(this.rows - last));
    this.colour();
    this.stop(isHere);
  }

  // The head or the cell to which Tab leads, if it is in the document; and whether it has the focus.
  stop(isFocused = false) {
    const { row, column } = this.here, cell = row < 0 ? this.columns[column]?.head.firstChild : this.cells[row - this.first]?.each[column];
    const next = cell ?? this.columns[column]?.head.firstChild;
    if (this.stopped !== next && this.stopped) this.stopped.tabIndex = -1;
    this.stopped = next;
    if (next) next.tabIndex = 0;
    if (isFocused) (cell ?? this.place).focus({ preventScroll: true });
  }

  // An arrow key leads to what is beside, Enter to the event of the value.
  key(event) {
    const [down, right] = { ArrowUp: [-1, 0], ArrowDown: [1, 0], ArrowLeft: [0, -1], ArrowRight: [0, 1] }[event.key] ?? [], { row, column } = this.here;
    const isCell = event.target.matches("td"), isOurs = isCell || event.target.matches(".stream");
    if (!isOurs || event.ctrlKey || event.metaKey || event.altKey || (down === undefined && !(isCell && event.key === "Enter"))) return;
    event.preventDefault();
    event.stopPropagation();
    if (down === undefined) {
      this.click(event.target);
      return;
    }
    const within = (it, most) => Math.max(0, Math.min(most, it));
    this.here = { row: Math.max(-1, Math.min(this.rows - 1, row + down)), column: within(column + right, this.columns.length - 1) };
    this.reveal(this.columns[this.here.column], this.here.row);
    this.fill();
    this.stop(true);
  }

  // The room of rows that aren't in the document.
  space(rows) {
    return made("tr", { className: "space", "aria-hidden": "true", style: `height:${rows * ROW}px` });
  }

  row(row) {
    const each = this.columns.map(({ stream }) => made("td", {}, stream.values[row] ?? ""));
    return { row, each, line: made("tr", { "aria-rowindex": row + 2 }, made("th", { scope: "row", className: "place" }, String(row + 1)), ...each) };
  }

  // Gives each cell the class of its value; those that stay as they were aren't touched.
  colour() {
    const isChosen = this.columns.map((it) => this.isChosen(it.stream));
    for (const { row, each } of this.cells) {
      each.forEach((cell, i) => {
        const kind = `${this.kindOf(this.columns[i], row)}${isChosen[i] ? " chain" : ""}`;
        if (cell.className !== kind) cell.className = kind;
      });
    }
    this.columns.forEach((it, i) => it.head.classList.toggle("chain", isChosen[i]));
  }

  kindOf({ i, stream: { role, values } }, row) {
    const { streams, event, isEnd } = this.moment, { count, taken } = streams[i];
    if (row >= values.length) return "none";
    if (!isEnd && event?.stream === i && event.row === row) return event.kind === "take" ? "took" : "newest";
    return row >= count ? "later" : ROLES_INSIDE.includes(role) && row >= taken ? "waiting" : "past";
  }

  isChosen({ channel }) {
    return channel !== undefined && this.chosen.channels.includes(channel);
  }

  click(cell) {
    const at = this.cells.find(({ each }) => each.includes(cell)), column = at && this.columns[at.each.indexOf(cell)];
    if (column && column.stream.values[at.row] !== undefined) this.goTo(column.i, at.row);
  }
}
