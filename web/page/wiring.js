// What a program that was accepted is wired like: its processes in order, its channels, and where each waits, sends and prints.
// Nodes and edges are those that the module drew; the places come from the lexemes alone.

import { wordsOf } from "./lexer.js";
import { indexAt } from "./places.js";

// What stands behind the label of a line, by its names.
function attributes(text) {
  return Object.fromEntries([...text.matchAll(/, (\w+)=(?:"([^"]*)"|(\w+))/g)].map(([, name, quoted, bare]) => [name, quoted ?? bare]));
}

function processOf([heading, ...values], more, program) {
  const [number, ...name] = heading.split(" "), [line, column] = (/(\d+):(\d+)$/.exec(more.tooltip) ?? [0, 1, 1]).slice(1).map(Number);
  const from = indexAt(program, line, column), title = name.join(" "), to = from + title.length;
  return { number: Number(number), name: title, values: values.filter((it) => /=/.test(it)).join(" "), prints: "peripheries" in more, from, to };
}

// The wiring that the module drew as text for Graphviz.
function drawn(picture, program) {
  const processes = [], channels = [], ends = new Map();
  for (const line of picture.split("\n")) {
    const found = /^ {2}(\w+)(?: -> (\w+))? \[label="([^"]*)"(.*)\];$/.exec(line);
    if (!found) continue;
    const [, from, to, label, rest] = found, more = attributes(rest), lines = label.split("\\n");
    if (to) {
      const isLogical = more.style === "dashed";
      channels.push({ number: channels.length, name: lines[0], isLogical, writer: from, reader: to, written: more.taillabel, read: more.headlabel });
    } else if (more.shape !== "plaintext") {
      ends.set(from, processes.length);
      processes.push(processOf(lines, more, program));
    }
  }
  for (const it of channels) [it.writer, it.reader] = [ends.get(it.writer) ?? -1, ends.get(it.reader) ?? -1];
  return { processes, channels };
}

const NO_BODY = { waits: {}, sends: {}, prints: [], turns: [] };

// Where each process of the text waits on, and sends on, each of its parameters, where it prints, and where its loops begin.
function bodies(lexemes) {
  const found = new Map();
  let body = NO_BODY, send;
  lexemes.forEach(({ kind, text, from, to }, i) => {
    const word = kind === "keyword" ? text.toLowerCase() : "", put = (list, name, place) => (list[name] ??= []).push(place);
    if (word === "process") found.set(lexemes[i + 1]?.text, (body = { waits: {}, sends: {}, prints: [], turns: [] }));
    else if (word === "wait") put(body.waits, lexemes[i + 2]?.text, { from, to: lexemes[i + 3]?.to ?? to });
    else if (word === "print") body.prints.push({ from, to });
    else if (word === "repeat" || word === "while") body.turns.push({ from, to });
    else if (word === "send") send = { from, to };
    else if (word === "on" && send) put(body.sends, lexemes[i + 1]?.text, { from: send.from, to: lexemes[i + 1]?.to ?? to });
  });
  return found;
}

// Where each channel is declared: behind the word `channel`.
function declared(lexemes) {
  const places = new Map();
  lexemes.forEach(({ kind, text }, i) => {
    if (kind !== "keyword" || text.toLowerCase() !== "channel") return;
    for (let next = i + 1; lexemes[next]?.kind === "name"; next += 2) places.set(lexemes[next].text, { from: lexemes[next].from, to: lexemes[next].to });
  });
  return places;
}

export function wiringOf(program, picture) {
  const { processes, channels } = drawn(picture, program), lexemes = wordsOf(program);
  const byName = bodies(lexemes), places = declared(lexemes);
  for (const it of processes) it.body = byName.get(it.name) ?? NO_BODY;
  for (const it of channels) {
    it.place = places.get(it.name);
    it.role = it.writer < 0 ? "input" : it.reader < 0 ? "output" : "inner";
    it.waits = processes[it.reader]?.body.waits[it.read] ?? [];
    it.sends = processes[it.writer]?.body.sends[it.written] ?? [];
  }
  return { processes, channels };
}

// One line for each channel, for whoever doesn't see the picture.
export function wiringInWords({ processes, channels }) {
  const name = (i, otherwise) => (processes[i] ? `${processes[i].number} ${processes[i].name}` : otherwise);
  return channels.map((it) => `${it.name}: from ${name(it.writer, "the input")} to ${name(it.reader, "the output")}`);
}
