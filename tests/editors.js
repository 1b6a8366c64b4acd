// Plays a part of Visual Studio Code for the extension of editors/vscode: opens a program, then types another text into it. Prints as JSON, for
// each of the two, which parts are marked and the text after each change that is offered; for the first also what the problem matcher of
// package.json reads from the same output; and the milliseconds from the last key to the marks.
//
//     node editors.js FOLDER EXPLAIN PROGRAM TYPED      FOLDER is editors/vscode
"use strict";

const { execFileSync } = require("child_process");
const fs = require("fs");
const Module = require("module");
const path = require("path");

const [folder, explain, file, typed] = process.argv.slice(2);
const contributes = JSON.parse(fs.readFileSync(path.join(folder, "package.json"), "utf-8")).contributes;
let text = fs.readFileSync(file, "utf-8"), version = 1, provider, isHeard = () => {};
const heard = {}, marks = new Map();

class Range {
  constructor(start, end) { Object.assign(this, { start, end }); }
}
class Diagnostic {
  constructor(range, message, severity) { Object.assign(this, { range, message, severity }); }
}
class CodeAction {
  constructor(title, kind) { Object.assign(this, { title, kind }); }
}
class WorkspaceEdit {
  replace(_, range, put) { this.text = text.slice(0, range.start) + put + text.slice(range.end); }
}
class Location {}
class DiagnosticRelatedInformation {}

// (positions are indices here)
const position = (index) => ({ line: 0, character: index, valueOf: () => index });
const document = {
  languageId: "kahn", fileName: file, uri: { scheme: "file", toString: () => file }, getText: () => text, positionAt: position, offsetAt: Number,
  get version() { return version; },
};

function matched() {
  const { regexp, line, column, severity } = contributes.problemMatchers[0].pattern;
  let output = "";
  try {
    output = execFileSync(explain, [file], { encoding: "utf-8" });
  } catch (error) {
    output = error.stdout;
  }
  return output.split("\n").map((it) => new RegExp(regexp).exec(it)).filter(Boolean).map((it) => [`${it[line]}:${it[column]}`, it[severity]]);
}

function seen() {
  const list = [...marks.values()].flat(), actions = provider.provideCodeActions(document, undefined, { diagnostics: list });
  return { diagnostics: list.map(({ range, message, severity }) => [text.slice(range.start, range.end), message, severity]), changed: actions.map((it) => it.edit.text) };
}

const vscode = {
  Range, Diagnostic, CodeAction, WorkspaceEdit, Location, DiagnosticRelatedInformation,
  DiagnosticSeverity: { Error: "error", Warning: "warning", Information: "note" },
  CodeActionKind: { QuickFix: "quickfix" },
  workspace: {
    getConfiguration: () => ({ get: () => explain }), textDocuments: [document],
    onDidOpenTextDocument: () => {}, onDidSaveTextDocument: () => {}, onDidCloseTextDocument: () => {},
    onDidChangeTextDocument: (it) => { heard.change = it; },
  },
  languages: {
    createDiagnosticCollection: (name) => ({ set: (_, list) => { marks.set(name, list); isHeard(); }, delete: () => marks.delete(name) }),
    registerCodeActionsProvider: (_, it) => { provider = it; },
  },
};
const load = Module._load;
Module._load = (name, ...more) => (name === "vscode" ? vscode : load(name, ...more));

// Waits until so many sorts of marks are shown.
const shown = (count) => new Promise((done) => {
  isHeard = () => marks.size === count && done();
});

async function play() {
  const opened = shown(2);
  require(path.join(folder, "extension.js")).activate({ subscriptions: [] });
  await opened;
  const first = { ...seen(), matched: matched() };
  [text, version] = [fs.readFileSync(typed, "utf-8"), 2];
  marks.clear();
  const begin = Date.now(), again = shown(1);
  heard.change({ document });
  await again;
  console.log(JSON.stringify({ ...first, typed: { ...seen(), milliseconds: Date.now() - begin } }));
}

play();
