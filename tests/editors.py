"""The files of editors/ on examples and with the editors.

    editors.py                  the grammars: each lexeme has to get the class that docs/language.md gives it. The lexemes are told apart by the
                                lists of that page, and not by the program; the grammar in TextMate's form is played by its rules
    editors.py KAHN_EXPLAIN     a mistake, a warning, a fault and a deadlock each land on their place, and changes are exact

Vim and Neovim are asked themselves, and the extension for Visual Studio Code is run by Node.js with a part that plays the editor; if one isn't there
(Debian's packages `vim`, `neovim` and `nodejs`) this is said, and nothing of it is tested."""
import glob
import json
import os
import re
import shutil
import subprocess
import sys
import tempfile

import texts
from common import TOP, Tried, text_of, write
import reference

EDITORS = f"{TOP}/editors"
VIM = {"keyword": "kahnKeyword", "name": "kahnName", "number": "kahnNumber", "sign": "kahnSign", "comment": "kahnComment"}
TEXTMATE = {"keyword": "keyword.control.kahn", "name": "variable.other.kahn", "number": "constant.numeric.kahn",
            "sign": "punctuation.kahn", "comment": "comment.block.kahn"}
MISTAKE = "begin integer output channel X; process a(integer out W); begin integer I; comment 漢字; I = 1; send I on W end; a(X) end\n"
ODD = text_of(f"{TOP}/tests/grammars.txt")
PAGE = " ".join(text_of(f"{TOP}/docs/language.md").split())
KEYWORDS = re.search(r"any letter case is a keyword: `([a-z ]+)`", PAGE)[1].split()
SIGNS = re.findall(r"`([^`]+)`", re.search(r"\*\*Signs\*\* are (.*?) and the character U\+00AC", PAGE)[1])
SIGN = "|".join(map(re.escape, sorted(SIGNS, key=len, reverse=True)))
LEXEME = re.compile(rf"[ \t\r\n]+|(?P<comment>comment\b[^;]*;)|(?P<word>[A-Za-z]\w*)|(?P<number>[0-9]+)|(?P<keyword>¬)|(?P<sign>{SIGN})", re.I | re.A)


def lexemes(text):
    """The lexemes and comments of a text: (class, from, to); or None if something in it is none."""
    at, found = 0, []
    while at < len(text):
        it = LEXEME.match(text, at)
        if not it or it[0].lower() == "comment":
            return None
        what, at = it.lastgroup, it.end()
        if what:
            found.append(("keyword" if what == "word" and it[0].lower() in KEYWORDS else "name" if what == "word" else what, *it.span()))
    return found


def textmate(text):
    """The scope of each character, by the grammar in TextMate's form, which is played line by line."""
    patterns = json.loads(text_of(f"{EDITORS}/vscode/syntaxes/kahn.tmLanguage.json"))["patterns"]
    scopes, open_pattern, start = [None] * len(text), None, 0
    for line in text.splitlines(keepends=True):
        at = 0
        while at < len(line):
            if open_pattern:
                end = re.compile(open_pattern["end"]).search(line, at)
                to = end.end() if end else len(line)
                scopes[start + at : start + to] = [open_pattern["name"]] * (to - at)
                open_pattern, at = (None if end else open_pattern), to
                continue
            found = [(re.compile(it.get("match") or it["begin"]).search(line, at), it) for it in patterns]
            found = [(match.start(), number, match, it) for number, (match, it) in enumerate(found) if match]
            if not found:
                break
            _, _, match, it = min(found, key=lambda each: each[:2])
            scopes[start + match.start() : start + match.end()] = [it["name"]] * (match.end() - match.start())
            open_pattern, at = (it if "begin" in it else None), match.end()
        start += len(line)
    return scopes


def vim(text):
    """The group of each character, by Vim."""
    with tempfile.TemporaryDirectory() as folder:
        write(f"{folder}/text.kahn", text)
        write(f"{folder}/ask.vim", text_of(f"{TOP}/tests/grammars.vim").replace("SYNTAX", f"{EDITORS}/vim/syntax/kahn.vim"))
        subprocess.run(["vim", "-es", "-u", "NONE", "-i", "NONE", "-S", "ask.vim"], cwd=folder, stdin=subprocess.DEVNULL, timeout=600)
        rows = [line.split(",") for line in text_of(f"{folder}/groups").split("\n")]
    return [name for row, line in zip(rows, text.splitlines()) for name in [*row[: len(line)], ""]]


def try_grammars(tried):
    rows = {path: re.sub("\r\n?", "\n", text_of(path)) for path in sorted(glob.glob(f"{TOP}/tests/rows/*/program.kahn"))}
    every = {"odd lexemes": ODD, **{path: text_of(path) for path in sorted(glob.glob(f"{TOP}/examples/*.kahn"))}}
    every.update({path: text for path, text in rows.items() if lexemes(text)})
    grammars = [("TextMate", textmate, TEXTMATE)] + [("Vim", vim, VIM)] * bool(shutil.which("vim"))
    if not grammars[1:]:
        print("vim is not there (Debian's package vim): its grammar is not tested")
    for grammar, classes_of, names in grammars:
        for path, text in every.items():
            classes = classes_of(text)
            wrong = [(text[start:to], start, classes[k], names[what]) for what, start, to in lexemes(text) for k in range(start, to)
                     if text[k] != "\n" and classes[k] != names[what]]
            tried.same(f"{grammar}, {os.path.relpath(path, TOP)}", wrong, [])


def ran(folder, *words):
    """What a command in the folder prints; kahn_explain is the one there."""
    return subprocess.run(words, cwd=folder, stdin=subprocess.DEVNULL, capture_output=True, timeout=600, text=True,
                          env={**os.environ, "PATH": f"{folder}:{os.environ['PATH']}"}).stdout


def try_vim(folder, name, places, marked, changed, tried):
    write(f"{folder}/script.vim", text_of(f"{TOP}/tests/editors.vim").replace("EDITORS", EDITORS))
    ran(folder, "vim", "-es", "-u", "NONE", "-i", "NONE", "-S", "script.vim")
    tried.same(f"Vim, {name}", text_of(f"{folder}/places").splitlines(), [*(f"{place} {kind}" for place, kind in places), f"{places[0][0]} comment %s;"])


def try_extension(folder, name, places, marked, changed, tried):
    """The program is opened, and then a mistake is typed into it."""
    write(f"{folder}/typed", MISTAKE)
    told = json.loads(ran(folder, "node", f"{TOP}/tests/editors.js", f"{EDITORS}/vscode", f"{folder}/kahn_explain", f"{folder}/a program.kahn", f"{folder}/typed"))
    given = [it[0] for it in told["diagnostics"]], [it[0] for it in told["matched"]], told["changed"]
    tried.same(f"Visual Studio Code, its problem matcher and its changes, {name}", given, (marked, [place for place, _ in places], changed))
    given = [it[0] for it in told["typed"]["diagnostics"]], told["typed"]["changed"], told["typed"]["milliseconds"] < 1000
    tried.same(f"Visual Studio Code, a mistake that is typed after {name}", given, (["="], [MISTAKE.replace("=", ":=")], True))


def try_ale(folder, name, places, marked, changed, tried):
    if not glob.glob("/usr/share/vim*/**/ale", recursive=True):
        return print("ALE isn't there (Debian's package vim-ale): marks in Vim as one types are not tried")
    write(f"{folder}/typed", MISTAKE)
    write(f"{folder}/script.vim", text_of(f"{TOP}/tests/ale.vim").replace("EDITORS", EDITORS))
    ran(folder, "vim", "-es", "-u", "NONE", "-i", "NONE", "-S", "script.vim")
    tried.same(f"Vim with ALE, a mistake that is typed after {name}", text_of(f"{folder}/shown"), f"{reference.spot(MISTAKE.encode(), MISTAKE.encode().index(b'='))} E\n")


def try_nvim(folder, name, places, marked, changed, tried):
    """The program is opened, and then a mistake is typed into it. What a run shows isn't marked here."""
    write(f"{folder}/typed", MISTAKE)
    write(f"{folder}/script.lua", text_of(f"{TOP}/tests/editors.lua").replace("EDITORS", EDITORS))
    ran(folder, "nvim", "--headless", "-u", "NONE", "-i", "NONE", "-S", "script.lua")
    shown = json.loads(text_of(f"{folder}/shown"))
    tried.same(f"Neovim, a mistake that is typed after {name}", (shown["marked"], shown["fixed"], shown["milliseconds"] < 1000), (["="], MISTAKE.replace("=", ":="), True))


def try_editors(explain, tried):
    for editor, package, look in (("vim", "vim", try_vim), ("vim", "vim", try_ale), ("nvim", "neovim", try_nvim), ("node", "nodejs", try_extension)):
        if not shutil.which(editor):
            print(f"{editor} isn't there: what it shows of editors/ is not tried (Debian's package {package})")
            continue
        for name, lines in texts.sections(f"{TOP}/tests/editors.txt"):
            with tempfile.TemporaryDirectory() as folder:
                os.symlink(explain, f"{folder}/kahn_explain")
                program = text_of(write(f"{folder}/a program.kahn", lines[""] + "\n"))
                places = [(reference.spot(program.encode(), program.encode().index(words.encode())), kind) for kind, words in (line.split(" ", 1) for line in lines["%"].split("\n"))]
                changed = [program.replace(*lines["=>"].split(" -> "))] if "=>" in lines else []
                look(folder, name, places, lines["?"].split("\n"), changed, tried)


def main(*explain):
    tried = Tried()
    try_editors(os.path.abspath(*explain), tried) if explain else try_grammars(tried)
    return tried.finish()


if __name__ == "__main__":
    sys.exit(main(*sys.argv[1:]))
