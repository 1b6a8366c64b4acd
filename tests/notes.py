"""What kahn_explain says of tests/mistakes and tests/warnings: what NAME.note has of NAME.kahn, byte for byte.

A mistake is refused with its note, and nothing else is said; so is an input of tests/mistakes/inputs, for the program there. A warning comes
before the explanation of the run, and alone with --strict, which refuses the program; a program without a note has no warning."""
import glob
import json
import os
import re
import subprocess

from common import TOP, read, write

HEAD = re.compile(r"^[\w.-]+:(\d+:\d+: (?:error|warning|note): .*)$", re.M)
PUT = re.compile(r"= fix: (?:remove `.*`|(?:insert|replace `.*?` with) `(.*?)`(?= at | after | before |$))", re.M)
MORE = re.compile(r"^and \d+ (?:fault|warning)s? more$", re.M)
UNSHOWN = re.compile("[\x00-\x1f\x7f-\x9f\u061c\u200b-\u200f\u2028-\u202e\u2060-\u206f\ufeff]")
MISTAKES, WARNINGS, ROWS = (f"{TOP}/tests/{name}" for name in ("mistakes", "warnings", "rows"))


def explain(program, folder, *words):
    """Status, standard output and standard error, within some minutes."""
    try:
        done = subprocess.run([program, *words], cwd=folder, stdin=subprocess.DEVNULL, capture_output=True, timeout=600, check=False)
    except subprocess.TimeoutExpired:
        return -1, b"", b"no answer in ten minutes\n"
    return done.returncode, done.stdout, done.stderr


def names_in(folder, end, only=""):
    return [name for path in sorted(glob.glob(f"{folder}/*{end}")) if only in (name := os.path.basename(path)[: -len(end)])]


def note_of(path, given, words):
    """The note of this path, which may have to be what was given."""
    if words.write:
        write(path, given)
    return read(path) if os.path.exists(path) else b""


def data_of(data, shown):
    """The status, the headings, the changes and how many more there are, of notes as data, and of the same notes as they are shown."""
    every = [json.loads(line) for line in data[1].splitlines()]
    notes = [it for it in every if not MORE.match(it["words"])]
    more = [it["words"] for it in every if MORE.match(it["words"])]
    heads = [f"{it['line']}:{it['column']}: {it.get('sort', 'note')}: {it['words']}" for note in notes for it in (note, *note["others"])]
    put = [it["fix"]["put"].strip() for it in notes if it["fix"]]
    told = shown[1].decode()
    seen = (data[0], [UNSHOWN.sub("\ufffd", it) for it in heads], put, more)
    return seen, (shown[0], HEAD.findall(told), [it.strip() for it in PUT.findall(told)], MORE.findall(told))


def try_mistakes(program, words, tried):
    cases = [(MISTAKES, name, (f"{name}.kahn",)) for name in names_in(MISTAKES, ".kahn", words.only)]
    inputs = f"{MISTAKES}/inputs"
    cases += [(inputs, name, ("program.kahn", "--input", f"{name}.input")) for name in names_in(inputs, ".input", words.only)]
    for folder, name, line in cases:
        given = explain(program, folder, *line)
        tried.same(f"mistakes: {name}", given, (1, note_of(f"{folder}/{name}.note", given[1], words), b""))
        tried.same(f"data: {name}", *data_of(explain(program, folder, *line, "--json"), given))


def try_warnings(program, words, tried):
    for name in names_in(WARNINGS, ".kahn", words.only):
        status, out, err = explain(program, WARNINGS, f"{name}.kahn")
        strict, alone, more = explain(program, WARNINGS, f"{name}.kahn", "--strict")
        note = note_of(f"{WARNINGS}/{name}.note", alone if strict == 1 else b"", words)
        rest = out.removeprefix(note)
        tried.same(f"warnings: {name}", (strict, alone, err + more), (1, note, b"") if note else (status, out, b""))
        tried.same(f"warnings: {name}, before the explanation", (status != 1, out.startswith(note), b": warning: " in rest), (True, True, False))


def try_rows(program, words, tried):
    """What is warned of in the rows of tests/rows, all in one note."""
    outputs = [explain(program, ROWS, path, "--bound", "100")[1] for path in sorted(glob.glob("*/program.kahn", root_dir=ROWS))]
    told = b"".join(line for out in outputs for line in out.splitlines(True) if b": warning: " in line)
    tried.same("warnings of the rows", told, note_of(f"{WARNINGS}/rows.note", told, words))


def try_notes(program, words, tried):
    try_mistakes(program, words, tried)
    try_warnings(program, words, tried)
    if words.only in "rows":
        try_rows(program, words, tried)
