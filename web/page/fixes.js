// The exact change that the module offers for a mistake, so that it can be applied by a press. Words that aren't known here offer no change.

import { wordsOf } from "./lexer.js";
import { indexAt } from "./places.js";

// Each form of words, and what stands where then: `at` is the place of the change, `here` the lexeme there.
const FORMS = [
  [/^fix: replace `(`?[^`]+`?)` with `([^`]+)`(?: at (\d+):(\d+))?$/, ([, old, put], at) => ({ from: at, to: at + old.length, text: put })],
  [/^fix: insert `([^`]+)` (?:after|before) `[^`]+`(?: at (\d+):(\d+))?$/, ([, put], at) => ({ from: at, to: at, text: put })],
  [/^fix: remove `([^`]+|`)`(?: at (\d+):(\d+))?$/, ([, old], at) => ({ from: at, to: at + old.length, text: "" })],
];

// Of a name that is nothing in sight the nearest one is told in the heading.
const MEANT = /did you mean `([^`]+)`\?/;

export const isOffer = (help) => /^fix: /.test(help) || MEANT.test(help);

const STANDS_CLOSE = [";", ",", ")", "("];

// The edit with blanks, if two words would stand side by side, and before what is put in.
function apart(text, edit) {
  const isBetween = (one, other) => /^\w\w$/.test(`${one ?? ""}${other ?? ""}`), before = text[edit.from - 1], after = text[edit.to], put = edit.text;
  if (put === "") return { ...edit, text: isBetween(before, after) ? " " : "" };
  const isLoose = edit.from === edit.to && !STANDS_CLOSE.includes(put) && /\S/.test(before ?? " ");
  return { ...edit, text: `${isBetween(before, put[0]) || isLoose ? " " : ""}${put}${isBetween(put.at(-1), after) ? " " : ""}` };
}

function editOf(words, from, text) {
  for (const [form, edit] of FORMS) {
    const found = form.exec(words);
    if (!found) continue;
    const [line, column] = found.slice(-2);
    return edit(found, column === undefined ? from : indexAt(text, Number(line), Number(column)));
  }
  return null;
}

// The lexeme that is told to be another one, if the heading alone says so.
function meantEdit(words, from, text) {
  const [, meant] = MEANT.exec(words) ?? [], here = wordsOf(text).find((it) => it.from >= from);
  return meant && here ? { from: here.from, to: here.to, text: meant } : null;
}

export function fixesOf(mark, text) {
  if (mark.severity !== "error" || mark.where !== "program" || mark.from === undefined) return [];
  const told = mark.helps.map((words) => ({ words, edit: editOf(words, mark.from, text) })).filter((it) => it.edit);
  const meant = meantEdit(mark.words, mark.from, text), inWords = meant && `replace \`${text.slice(meant.from, meant.to)}\` with \`${meant.text}\``;
  const all = told.length || !meant ? told : [{ words: inWords, edit: meant }];
  return all.map(({ words, edit }) => ({ words, ...apart(text, edit) }));
}

export const applied = (text, { from, to, text: put }) => text.slice(0, from) + put + text.slice(to);
