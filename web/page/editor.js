// The field of a text: colours, line numbers and marks lie below a plain textarea, whose letters can't be seen. The text wraps, and the
// coloured lines give the height; so nothing has to be scrolled along. Signs that turn letters round are left out of the coloured lines, and
// marked where they are.

import { made } from "./elements.js";
import { indentAfter, lexemesOf, partnerOf, turningSigns, TURNS } from "./lexer.js";
import { placeAt } from "./places.js";

// A longer text has no colours; a still longer one is shown by the field alone. A browser takes long to put in more by its own editing.
const MOST_COLOURED = 60000, MOST_PAINTED = 200000, MOST_INSERTED = 16000;

// The parts of each line: its text cut where a lexeme or a mark begins or ends, each part with its classes.
function linesOf(text, marks, lexemes) {
  const marked = marks.map((it) => ({ from: it.from, to: Math.max(it.to, it.from + 1), kind: `mark ${it.kind}`, name: it.kind }));
  let from = 0, next = 0, open = [];
  return text.split("\n").map((row) => {
    const start = from, end = start + row.length;
    while (next < lexemes.length && lexemes[next].from <= end) open.push(lexemes[next++]);
    const here = marked.length ? marked.filter((it) => it.from <= end && it.to > start) : marked;
    const parts = partsOf(row, start, [...open.filter((it) => it.to > start), ...here]);
    open = open.filter((it) => it.to > end);
    from = end + 1;
    return { parts, kinds: here.filter((it) => it.from >= start).map((it) => it.name) };
  });
}

function partsOf(row, start, spans) {
  if (!spans.length) return [[row || " ", ""]];
  const isPast = spans.some((it) => it.from >= start + row.length && it.name), shown = isPast ? `${row} ` : row || " ";
  const within = (it) => Math.max(0, Math.min(shown.length, it - start)), parts = [], open = [];
  const edges = spans.flatMap(({ from, to, kind }) => [{ at: within(from), kind, isFirst: true }, { at: within(to), kind }]).sort((a, b) => a.at - b.at);
  let from = 0;
  for (const { at, kind, isFirst } of [...edges, { at: shown.length }]) {
    if (at > from) parts.push([shown.slice(from, at), open.join(" ")]);
    from = at;
    if (isFirst) open.push(kind);
    else open.splice(open.indexOf(kind), 1);
  }
  return parts;
}

// How many there are at the beginning, and at the end, that two lists or texts have alike.
function differing(old, it) {
  const most = Math.min(old.length, it.length);
  let first = 0, last = 0;
  while (first < most && old[first] === it[first]) first += 1;
  while (last < most - first && old[old.length - 1 - last] === it[it.length - 1 - last]) last += 1;
  return { first, last };
}

const withoutTurns = (text) => text.replace(TURNS, "");

function lineElement({ parts, kinds }) {
  const inner = parts.map(([text, kind]) => (kind ? made("span", { className: kind }, withoutTurns(text)) : withoutTurns(text)));
  return made("div", { className: ["line", ...kinds.map((it) => `has-${it}`)].join(" ") }, ...inner);
}

export class Editor {
  constructor(field, ink, { isProgram }) {
    Object.assign(this, { field, ink, isProgram, marks: [], pair: [], keys: [], lexed: { text: "", lexemes: [], signs: [] }, changed: () => {} });
    field.addEventListener("input", () => {
      this.pair = [];
      this.mark([]);
      this.changed();
    });
    if (!isProgram) return;
    field.addEventListener("keydown", (event) => this.enter(event));
    document.addEventListener("selectionchange", () => this.markPair());
  }

  get text() {
    return this.field.value;
  }

  set text(text) {
    this.field.value = text;
    this.mark([]);
  }

  // Puts another text in by changing what differs, so that the browser's Undo brings the one before back.
  replace(text) {
    const old = this.text, { first, last } = differing(old, text), put = text.slice(first, text.length - last);
    if (text === old) return;
    this.field.focus({ preventScroll: true });
    this.field.setSelectionRange(first, old.length - last);
    if (document.activeElement === this.field && put.length <= MOST_INSERTED) document.execCommand(put ? "insertText" : "delete", false, put);
    if (this.text !== text) {
      this.text = text;
      this.changed();
    }
    this.field.setSelectionRange(0, 0);
  }

  // A new line begins below the one before, or deeper behind a word that opens.
  enter(event) {
    const { key, ctrlKey, metaKey, altKey, shiftKey, isComposing } = event;
    if (key !== "Enter" || ctrlKey || metaKey || altKey || shiftKey || isComposing) return;
    event.preventDefault();
    document.execCommand("insertText", false, `\n${indentAfter(this.text, this.field.selectionStart)}`);
  }

  // The word or bracket at the caret, and the one that it opens or closes.
  markPair() {
    const { selectionStart, selectionEnd } = this.field, isHere = document.activeElement === this.field && selectionStart === selectionEnd;
    const pair = isHere ? partnerOf(this.lexemes(), selectionStart) : [];
    if (String(pair.map((it) => it.from)) === String(this.pair.map((it) => it.from))) return;
    this.pair = pair;
    this.paint();
  }

  // The line of the caret.
  get line() {
    return placeAt(this.text, this.field.selectionEnd).line;
  }

  mark(marks) {
    this.marks = marks.filter((it) => it.from !== undefined);
    this.paint();
  }

  lexemes() {
    const { text } = this, isColoured = this.isProgram && text.length <= MOST_COLOURED;
    if (this.lexed.text !== text) this.lexed = { text, lexemes: isColoured ? lexemesOf(text) : [], signs: turningSigns(text) };
    return this.lexed.lexemes;
  }

  // Lines that stay as they were keep their elements.
  paint(isWhole = false) {
    const { text } = this, isBare = text.length > MOST_PAINTED && !isWhole;
    this.field.parentElement.classList.toggle("bare", isBare);
    const lexemes = isBare ? [] : this.lexemes(), pair = this.pair.map((it) => ({ ...it, kind: "pair" }));
    const lines = isBare ? [] : linesOf(text, [...this.marks, ...pair, ...this.lexed.signs], lexemes), keys = lines.map((it) => JSON.stringify(it)), old = this.keys;
    const { first, last } = differing(old, keys);
    for (let i = old.length - last - 1; i >= first; i--) this.ink.children[i].remove();
    const before = this.ink.children[first] ?? null;
    for (let i = first; i < keys.length - last; i++) this.ink.insertBefore(lineElement(lines[i]), before);
    this.keys = keys;
    this.field.parentElement.style.setProperty("--digits", Math.max(2, String(keys.length).length));
  }

  reveal(index) {
    const line = this.ink.children[placeAt(this.text, index).line - 1], pane = this.ink.closest(".scroll");
    if (!line) return;
    const top = line.getBoundingClientRect().top - pane.getBoundingClientRect().top + pane.scrollTop;
    if (top < pane.scrollTop + 26 || top > pane.scrollTop + pane.clientHeight - 40) pane.scrollTop = top - pane.clientHeight / 3;
  }

  goTo(from, to = from) {
    this.field.focus({ preventScroll: true });
    this.field.setSelectionRange(from, to);
    this.reveal(from);
  }
}
