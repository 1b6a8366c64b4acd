// Reads what the module tells of a text or a run: mistakes and warnings with their places, and why each process stopped.

import { indexAt, lexemeAt, lexemeEnd, placeWords } from "./places.js";

const HEADING = /^(\w+):(\d+):(\d+): (error|warning|note): (.*)$/;
const REASON = /^(\d+) (\w+) (waits on (\w+)|has a fault, (\w+)|wants more)(.*)$/;

// The words of a command line, for whoever has a field or a table in place of an option.
const OPTIONS = [
  [/: kahn_explain --trace shows what came$/, ": the table of values shows what came"],
  [/--bound N with a greater N/, "a greater bound"],
  [/, and --watch shows it$/, ""],
  [/; a name stands before the values alone, and with --plain nowhere$/, "; a name stands before the values alone"],
];

export const plain = (words) => OPTIONS.reduce((text, [form, it]) => text.replace(form, it), words);

export const capital = (words) => words.charAt(0).toUpperCase() + words.slice(1);

// The part of a text that the carets stand below: as many characters as there are carets, within the line.
function spanOf(text, line, column, carets) {
  const from = indexAt(text, line, column), end = text.indexOf("\n", from);
  return { from, to: Math.min(Math.max(from + 1, end < 0 ? text.length : end), Math.max(lexemeEnd(text, from), from + carets)) };
}

function markOf(heading, carets, texts) {
  const [, name, line, column, severity, words] = heading, where = name === "input" ? "input" : "program";
  const spot = `${line}:${column}`;
  return { where, severity, words: plain(words), spot, helps: [], notes: [], ...spanOf(texts[where], Number(line), Number(column), carets) };
}

export function readWhy(words, texts) {
  const told = { marks: [], reasons: [], more: [] };
  let last;
  const lines = words.split("\n");
  lines.forEach((line, i) => {
    const heading = HEADING.exec(line), reason = REASON.exec(heading ? heading[5] : line), help = /^ +\d* *= (.*)$/.exec(line);
    const mark = heading && markOf(heading, (/\^+/.exec(lines[i + 2] ?? "") ?? [""])[0].length, texts);
    if (reason) {
      told.reasons.push((last = reasonOf(reason, mark, texts.program)));
    } else if (mark && mark.severity === "note") {
      if (last?.places) last.places.push(placeOf(mark, last.kind, texts.program));
      else last?.notes.push(mark);
    } else if (mark) {
      told.marks.push((last = mark));
    } else if (help) {
      last?.helps.push(plain(help[1]));
    } else if (/^and \d+ \w+ more$/.test(line)) {
      told.more.push(line);
    }
  });
  for (const it of told.reasons.filter((one) => one.isMarked && one.places.length > 1)) it.words = ` at ${eitherWords(it.places)}${it.rest}`;
  return told;
}

// Some places in words: a process waits at one of them.
const eitherWords = (places) => places.map(placeWords).join(", ").replace(/, (?=[^,]*$)/, " or ");

// Of a wait the word alone is marked.
const placeOf = (mark, kind, program) => (kind === "waits" ? lexemeAt(program, ...mark.spot.split(":").map(Number)) : mark);

// Why a process stopped: its places stand in its line, or it stands at the first of them.
function reasonOf([, number, name, , on, fault, rest], mark, program) {
  const said = /^ at ((?:\d+:\d+)(?: or \d+:\d+)*)/.exec(rest), kind = on ? "waits" : fault ? "fault" : "ready";
  const places = mark ? [placeOf(mark, kind, program)] : (said?.[1].split(" or ") ?? []).map((it) => lexemeAt(program, ...it.split(":").map(Number)));
  const from = /from (\d+) \w+/.exec(rest), cause = /, as (\d+) \w+ /.exec(rest);
  return {
    number: Number(number), name, kind, places, helps: [], from: from ? Number(from[1]) : undefined,
    isRing: /, in a deadlock/.test(rest), isForEver: /: for ever$/.test(rest), cause: cause ? Number(cause[1]) : undefined,
    isMarked: Boolean(mark && on), rest: plain(rest), words: plain(`${mark && on ? ` at ${mark.spot}` : ""}${rest}`),
  };
}

// The mistake that the line of a fault tells, if no more is known of it.
export function faultOf(line, texts) {
  const found = /^kahn: (?:(\d+):(\d+): )?(.*)$/m.exec(line), words = found?.[3] ?? line.trim();
  const where = /^input /.test(words) ? "input" : "program", place = found?.[1] ? lexemeAt(texts.program, Number(found[1]), Number(found[2])) : undefined;
  return { where, severity: "error", words: plain(words), helps: [], notes: [], ...place };
}
