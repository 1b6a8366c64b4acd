// The lexemes of a program text, as editors/ has them: what the colours, the marks and the wiring are made of.

const KEYWORDS = "and begin channel div do else end false if in input integer logical mod not on or out output par print process repeat send "
  + "then true wait while ¬";
const KEYWORD = new Set(KEYWORDS.split(" "));
const LEXEME = /comment(?![A-Za-z0-9_])[^;]*;?|[A-Za-z][A-Za-z0-9_]*|[0-9]+|:=|<>|<=|>=|[(),;+*=<>-]|¬|\S/gi;

// Each lexeme with its kind and where it stands, as indices into the text.
export function lexemesOf(text) {
  return [...text.matchAll(LEXEME)].map(({ 0: it, index }) => ({ kind: kindOf(it), text: it, from: index, to: index + it.length }));
}

// Those that aren't comments.
export const wordsOf = (text) => lexemesOf(text).filter((it) => it.kind !== "comment");

function kindOf(it) {
  if (/^comment(?![A-Za-z0-9_])/i.test(it)) return "comment";
  if (KEYWORD.has(it.toLowerCase())) return "keyword";
  if (/^[A-Za-z]/.test(it)) return "name";
  if (/^[0-9]/.test(it)) return "number";
  return /^(?::=|[(),;+*=<>-])/.test(it) ? "sign" : "other";
}

const OPENS = { begin: "end", "(": ")" }, CLOSES = { end: "begin", ")": "(" };

const wordOf = ({ kind, text }) => (kind === "comment" ? "" : text.toLowerCase());

// The lexeme at an index, if it opens or closes a block or a bracket, and the other one of the pair; or none.
export function partnerOf(lexemes, index) {
  const here = lexemes.findIndex((it) => it.from <= index && index <= it.to && wordOf(it) in { ...OPENS, ...CLOSES });
  if (here < 0) return [];
  const word = wordOf(lexemes[here]), step = word in OPENS ? 1 : -1, other = OPENS[word] ?? CLOSES[word];
  for (let i = here, depth = 0; lexemes[i]; i += step) {
    const it = wordOf(lexemes[i]);
    depth += Number(it === word) - Number(it === other);
    if (depth === 0) return [lexemes[here], lexemes[i]];
  }
  return [];
}

// The blanks at the beginning of a line that is begun at an index: those of the line before, and two more behind a word that opens.
export function indentAfter(text, index) {
  const row = text.slice(text.lastIndexOf("\n", index - 1) + 1, index), [blanks] = /^[ \t]*/.exec(row);
  return /\b(?:begin|do|then|else|repeat)\s*$/i.test(row) ? `${blanks}  ` : blanks;
}

// Signs that can't be seen, and that turn the letters behind them round.
export const TURNS = /[\u061c\u200e\u200f\u202a-\u202e\u2066-\u2069]/g;

export function turningSigns(text) {
  return [...text.matchAll(TURNS)].map(({ 0: it, index }) => {
    const name = `U+${it.charCodeAt(0).toString(16).toUpperCase().padStart(4, "0")}`;
    return { from: index, to: index + 1, kind: "turning", name };
  });
}
