// Reads what kahn_explain writes about a program: notes as data (--json), and lines with places.
"use strict";

const HEADING = /^(.+):(\d+):(\d+): (error|warning|note): (.*)$/;
const HELP = /^ +\d* *= (.*)$/;
const LEXEME = /comment(?![A-Za-z0-9_])[^;]*;?|\w+|:=|<>|<=|>=|\S/gi;
const OF_STANDARD_INPUT = "<stdin>";

// The index of byte `at` of a text.
const indexOf = (text, at) => Buffer.from(text).subarray(0, at).toString().length;

// The index of a place of a text: lines and columns are from 1, and columns count bytes.
function indexAt(text, line, column) {
  const rows = text.split("\n"), row = rows[line - 1] ?? "";
  const before = rows.slice(0, line - 1).reduce((sum, it) => sum + it.length + 1, 0);
  return before + indexOf(row, column - 1);
}

// The lexemes of a text but for comments, as indices.
function lexemesOf(text) {
  const all = [...text.matchAll(LEXEME)].map((it) => ({ from: it.index, to: it.index + it[0].length, text: it[0] }));
  return all.filter((it) => !/^comment(?![A-Za-z0-9_])/i.test(it.text));
}

// The notes on a program from standard input.
function notesOf(output) {
  return output.split("\n").filter(Boolean).map((line) => JSON.parse(line)).filter((it) => it.path === OF_STANDARD_INPUT);
}

// The places in lines that kahn_explain writes, in their order. The words below a line belong to it.
function read(output) {
  const found = [];
  for (const line of output.split("\n")) {
    const heading = HEADING.exec(line), help = HELP.exec(line);
    if (heading) {
      const [, file, row, column, severity, words] = heading;
      found.push({ file, line: Number(row), column: Number(column), severity, words: [words] });
    } else if (help && found.length) found[found.length - 1].words.push(help[1]);
  }
  return found.map(({ words, ...it }) => ({ ...it, message: words.join("\n") }));
}

// The change that a note offers, as indices, and what it is called; or none.
function changeOf(note, text) {
  if (note.fix) {
    const [from, to] = [note.fix.from, note.fix.to].map((it) => indexOf(text, it)), old = text.slice(from, to).trim(), put = note.fix.put.trim();
    const words = !put ? `Remove \`${old}\`` : old ? `Replace \`${old}\` with \`${put}\`` : `Insert \`${put}\``;
    return { words, from, to, text: note.fix.put };
  }
  const meant = /did you mean `([^`]+)`\?/.exec(note.words), from = indexOf(text, note.from);
  const here = meant && lexemesOf(text).find((it) => it.from >= from);
  return here ? { words: `Replace \`${here.text}\` with \`${meant[1]}\``, from: here.from, to: here.to, text: meant[1] } : null;
}

module.exports = { changeOf, indexAt, indexOf, lexemesOf, notesOf, read };
