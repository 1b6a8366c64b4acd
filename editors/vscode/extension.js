// Marks mistakes and warnings as one types, and why a run stops when a program is opened or saved. Offers the exact changes that fix them.
"use strict";

const { execFile } = require("child_process");
const fs = require("fs");
const path = require("path");
const vscode = require("vscode");
const { changeOf, indexOf, lexemesOf, notesOf, read, indexAt } = require("./reading");

const PAUSE = 200, MILLISECONDS = 10000, MOST_OUTPUT = 1 << 24;
const SEVERITIES = { error: vscode.DiagnosticSeverity.Error, warning: vscode.DiagnosticSeverity.Warning, note: vscode.DiagnosticSeverity.Information };

const rangeOf = (document, from, to) => new vscode.Range(document.positionAt(from), document.positionAt(to));

// The lexeme that begins at an index, or one character.
function lexemeAt(document, from) {
  const found = lexemesOf(document.getText()).find((it) => it.from === from);
  return rangeOf(document, from, found ? found.to : from + 1);
}

// The input of a program: the file of the same name that ends with .input, if there is one.
function inputOf(document) {
  const input = document.fileName.replace(/\.kahn$/, ".input");
  return input !== document.fileName && fs.existsSync(input) ? ["--input", input] : [];
}

// Marks of one sort: asks kahn_explain, and shows what it answers, unless the text has changed or is asked about again.
class Marks {
  constructor(name, wordsOf, listOf) {
    Object.assign(this, { shown: vscode.languages.createDiagnosticCollection(name), wordsOf, listOf, asked: new Map(), changes: new Map() });
  }

  ask(document) {
    const command = vscode.workspace.getConfiguration("kahn").get("explain"), key = document.uri.toString(), { version } = document;
    if (document.languageId !== "kahn" || document.uri.scheme !== "file" || !command) return;
    this.asked.get(key)?.kill();
    const options = { cwd: path.dirname(document.fileName), timeout: MILLISECONDS, maxBuffer: MOST_OUTPUT };
    const run = execFile(command, this.wordsOf(document), options, (error, output) => {
      const isOld = this.asked.get(key) !== run || document.version !== version;
      if (isOld || (error && typeof error.code !== "number")) return;
      const list = this.listOf(document, output, error ? error.code : 0);
      this.changes.set(key, list.filter((it) => it.change));
      this.shown.set(document.uri, list.map((it) => it.diagnostic));
    });
    this.asked.set(key, run);
    run.stdin.on("error", () => {});
    run.stdin.end(document.getText());
  }

  forget(document) {
    const key = document.uri.toString();
    this.asked.get(key)?.kill();
    for (const kept of [this.asked, this.changes]) kept.delete(key);
    this.shown.delete(document.uri);
  }

  // One action for each of these diagnostics that has a change.
  actions(document, diagnostics) {
    const isOf = (one, other) => one.message === other.message && one.range.start.line === other.range.start.line && one.range.start.character === other.range.start.character;
    const offered = (this.changes.get(document.uri.toString()) ?? []).filter((it) => diagnostics.some((one) => isOf(one, it.diagnostic)));
    return offered.map(({ diagnostic, change: { words, from, to, text } }) => {
      const action = new vscode.CodeAction(words, vscode.CodeActionKind.QuickFix);
      action.edit = new vscode.WorkspaceEdit();
      action.edit.replace(document.uri, rangeOf(document, from, to), text);
      Object.assign(action, { diagnostics: [diagnostic], isPreferred: true });
      return action;
    });
  }
}

function diagnosticOf(range, message, severity) {
  return Object.assign(new vscode.Diagnostic(range, message, SEVERITIES[severity]), { source: "kahn" });
}

// Mistakes and warnings of a text, each with its change and with other places.
function notesIn(document, output) {
  const text = document.getText();
  return notesOf(output).map((note) => {
    const [from, to] = [note.from, note.to].map((it) => indexOf(text, it));
    const diagnostic = diagnosticOf(from < to ? rangeOf(document, from, to) : lexemeAt(document, from), [note.words, ...note.below].join("\n"), note.sort);
    diagnostic.relatedInformation = note.others.map((it) => {
      const place = rangeOf(document, indexOf(text, it.from), indexOf(text, it.to));
      return new vscode.DiagnosticRelatedInformation(new vscode.Location(document.uri, place), it.words);
    });
    return { diagnostic, change: changeOf(note, text) };
  });
}

// Why the run of a program stopped. Of a program that is refused nothing: its mistakes are marked as notes.
function causesIn(document, output, status) {
  const told = status === 1 ? [] : read(output).filter((it) => it.file === document.fileName && it.severity !== "warning");
  return told.map((it) => ({ diagnostic: diagnosticOf(lexemeAt(document, indexAt(document.getText(), it.line, it.column)), it.message, it.severity) }));
}

function activate(context) {
  const notes = new Marks("kahn", (it) => ["--json", ...inputOf(it)], notesIn);
  const causes = new Marks("kahn run", (it) => [it.fileName, ...inputOf(it)], causesIn);
  const both = (document) => [notes, causes].forEach((it) => it.ask(document)), waits = new Map();
  const typed = ({ document }) => {
    clearTimeout(waits.get(document));
    waits.set(document, setTimeout(() => waits.delete(document) && notes.ask(document), PAUSE));
    causes.forget(document);
  };
  const actions = { provideCodeActions: (document, _, { diagnostics }) => notes.actions(document, diagnostics) };
  context.subscriptions.push(
    notes.shown,
    causes.shown,
    vscode.workspace.onDidOpenTextDocument(both),
    vscode.workspace.onDidSaveTextDocument(both),
    vscode.workspace.onDidChangeTextDocument(typed),
    vscode.workspace.onDidCloseTextDocument((document) => [notes, causes].forEach((it) => it.forget(document))),
    vscode.languages.registerCodeActionsProvider("kahn", actions, { providedCodeActionKinds: [vscode.CodeActionKind.QuickFix] }),
  );
  vscode.workspace.textDocuments.forEach(both);
}

module.exports = { activate };
