#!/usr/bin/env python3
"""Counts what passes a limit of the house, and compares the counts with checks/limits.txt, which may only fall.

lint.py           the counts; a part with more than its limit fails, and so does one with less, until the limit is lowered
lint.py --all     each place that is counted, too
lint.py --lower   first lowers each limit that is above its count

It reads src/, specs/ and proofs/ of each crate and the pages, and proves nothing. If the toolchain is there, it asks that for the layout.
Words of pages, comments and messages (words.py) are only listed if their limit isn't met."""
import collections
import glob
import os
import re
import shutil
import subprocess
import sys

sys.path.append(f"{os.path.dirname(os.path.abspath(__file__))}/../tests")
import words
from common import TOP, text_of as read, write

LIMITS = f"{TOP}/checks/limits.txt"
LONG_CLAUSE, LONG_BODY, LONG_FILE, LONG_IMPORT = 160, 40, 500, 200

CLAUSE = re.compile(r"^ *(?:requires|ensures|(?:pub )?ghost \w+(?: =|:))[^{\n]*\{", re.M)
FUNCTION = re.compile(r"^( *)(?:pub(?:\([a-z]+\))? )?(?:unsafe )?fn (\w+)")
PUBLIC = re.compile(r"^ *pub (?:unsafe )?(fn|struct|enum|trait|type|const|static) (\w+)")
DEFINED = re.compile(r"^(?: *abbrev pub |(?:abbrev |unfoldable )?(?:pub )?(?:record |data )?)([^\s:(={]+)(?: [^=]*)?:")
CODE = re.compile(r"(?:pub(?:\([a-z]+\))? )?(?:unsafe |const )*(?:fn|impl|trait)\b")
DATA = re.compile(r"(?:pub(?:\([a-z]+\))? )?(?:struct|enum|const|static|type) (\w+)")
IMPORT = re.compile(r" *(?:pub )?(?:ghost )?use .{%d,}" % (LONG_IMPORT - 10))
SOURCES, SPECS, PROOFS = "src/**/*.rt", "specs/**/*.antt", "proofs/**/*.antt"


def files(*patterns):
    """The files of the crates that fit, each as a path from the top and a text."""
    for pattern in patterns:
        for path in sorted(glob.glob(f"{TOP}/crates/*/{pattern}", recursive=True)):
            yield os.path.relpath(path, TOP), read(path)


def long_clauses():
    for path, text in files(SOURCES):
        for found in CLAUSE.finditer(text):
            depth, at = 1, found.end()
            while depth:
                depth += {"{": 1, "}": -1}.get(text[at], 0)
                at += 1
            length = len(" ".join(text[found.start() : at].split()))
            if length > LONG_CLAUSE:
                yield f"{path}:{text.count(chr(10), 0, found.start()) + 1}: {length} characters"


def body_from(lines, start, indent):
    """The lines of code of the body of the function that begins there, after its clauses; none if it has no body."""
    opened = start
    while lines[opened] != indent + "{" and not re.match(rf"{indent}\S.* \{{$", lines[opened]):
        if lines[opened].endswith((";", "}")) and opened > start and not lines[opened].startswith(indent + " "):
            return []
        opened += 1
        if opened == len(lines) or lines[opened - 1].endswith(";"):
            return []
    body = lines[opened + 1 : lines.index(indent + "}", opened)]
    return [line for line in body if line.strip() and not line.strip().startswith("//")]


def found_lines(pattern, *patterns):
    """The lines of files that fit: (path, all lines, number from 0, match)."""
    for path, text in files(*patterns):
        lines = text.split("\n")
        for at, line in enumerate(lines):
            if found := pattern.match(line):
                yield path, lines, at, found


def long_bodies():
    for path, lines, at, found in found_lines(FUNCTION, SOURCES):
        length = len(body_from(lines, at, found[1]))
        if length > LONG_BODY:
            yield f"{path}:{at + 1}: {found[2]}, {length} lines"


def long_files():
    lengths = ((path, text.count("\n")) for path, text in files(SOURCES, SPECS, PROOFS))
    return (f"{path}: {length} lines" for path, length in lengths if length > LONG_FILE)


def without_head():
    """Sources and definitions whose first line doesn't say what they are; lists of modules say nothing."""
    return (path for path, text in files(SOURCES, SPECS) if not text.startswith(("//!", "-- ")) and os.path.basename(path) not in ("Lib.antt", "inner.antt"))


def without_words():
    for path, lines, at, found in found_lines(PUBLIC, SOURCES):
        if not "".join([line.strip() for line in lines[:at] if not line.strip().startswith("#[")][-1:]).startswith("///"):
            yield f"{path}:{at + 1}: {found[2]}"


def names_twice():
    """Names that specs/ of the crates define in more places than one."""
    places = collections.defaultdict(list)
    for path, lines, at, found in found_lines(DEFINED, SPECS):
        if not lines[at].startswith(("--", "pub use ", "use ", "module ")):
            places[found[1]].append(f"{path}:{at + 1}")
    return (f"{name}: {', '.join(where)}" for name, where in sorted(places.items()) if len(where) > 1)


def unfit_edits():
    """Must-fail edits that can't be applied: what is old is one line, and stands once in the file."""
    for path in sorted(glob.glob(f"{TOP}/crates/*/must-fail/*.edit") + glob.glob(f"{TOP}/checks/edits/*/*.edit")):
        crate, text, old = re.sub(f"{TOP}/(?:crates|checks/edits)/([^/]+)/.*", r"\1", path), "", None
        for word, rest in (line.split(":", 1) for line in read(path).splitlines()):
            rest = rest.removeprefix(" ")
            if word == "file":
                text = read(f"{TOP}/crates/{crate}/{rest}")
            elif word == "old" and text.count(rest) == 1:
                old = rest
            elif word == "new" and old is not None:
                text, old = text.replace(old, rest), None
            else:
                yield f"{os.path.relpath(path, TOP)}: {word}: {rest}"


def late_data():
    """Types and constants that come after the first function of their file."""
    for path, text in files(SOURCES):
        lines = text.split("\n")
        first = next((at for at, line in enumerate(lines) if CODE.match(line)), len(lines))
        yield from (f"{path}:{at + 1}: {found[1]}" for at, line in enumerate(lines) if at > first and (found := DATA.match(line)) and not CODE.match(line))


def long_imports():
    return (f"{path}:{at + 1}: {len(lines[at])} characters" for path, lines, at, _ in found_lines(IMPORT, SOURCES) if len(lines[at]) > LONG_IMPORT)


def not_laid_out():
    """Files that `rt fmt` would change: rt ci takes the crate of such a file for one that isn't proved."""
    if rt := shutil.which("rt"):
        rattle = f"{os.path.dirname(os.path.realpath(rt))}/rattle"
        all_files = [f"{TOP}/{path}" for path, _ in files(SOURCES, SPECS, PROOFS)]
        said = subprocess.run([rattle, "fmt", "--check", *all_files], stderr=subprocess.PIPE, text=True, check=False).stderr
        yield from (line.replace(f"{TOP}/", "") for line in said.splitlines() if line.endswith(" is not in the layout"))


def page_cycles():
    """The modules of the page that import each other in a circle, and those that page.html puts before one that they import."""
    named = re.findall(r"^@(\w+\.js)@$", read(f"{TOP}/web/page/page.html"), re.M)
    imports = {it: re.findall(r'^import .* from "\./(\w+\.js)";$', read(f"{TOP}/web/page/{it}"), re.M) for it in named}
    for it in named:
        reached, following = set(), [it]
        while following:
            more = set(imports[following.pop()]) - reached
            reached |= more
            following += more
        if it in reached:
            yield f"web/page/{it}"
        yield from (f"web/page/page.html: {it} comes before {other}" for other in imports[it] if named.index(other) > named.index(it) and it not in reached)


PARTS = {
    "clauses over 160 characters": long_clauses,
    "names of specs that are defined more than once": names_twice,
    "bodies over 40 lines": long_bodies,
    "files over 500 lines": long_files,
    "types and constants after a function": late_data,
    "imports over 200 characters": long_imports,
    "sources and definitions without a head": without_head,
    "public items without words": without_words,
    "must-fail edits that can't be applied": unfit_edits,
    "files in another layout than rt fmt's": not_laid_out,
    "modules of the page in import cycles": page_cycles,
}


def limits():
    """The number of each part that checks/limits.txt has."""
    lines = (line.split(" ", 1) for line in read(LIMITS).splitlines() if line and not line.startswith("#"))
    return {part: int(number) for number, part in lines}


def lowered(counts):
    """Writes the counts that are below their limits."""
    def line_with(line):
        number, _, part = line.partition(" ")
        return f"{min(int(number), counts.get(part, 0))} {part}" if number.isdigit() else line
    write(LIMITS, "\n".join(map(line_with, read(LIMITS).split("\n"))))


def main():
    counted = {**{part: list(places()) for part, places in PARTS.items()}, **words.found()}
    if "--lower" in sys.argv:
        lowered({part: len(places) for part, places in counted.items()})
    allowed, failed = limits(), 0
    for part, found in counted.items():
        most = allowed.get(part, 0)
        failed += len(found) != most
        if part in PARTS or len(found) != most:
            print(f"{len(found):4} of {most:4} {part}{['', ' FAILED: may not grow', ' FAILED: lint.py --lower lowers the limit'][(len(found) > most) - (len(found) < most)]}")
        if "--all" in sys.argv and part in PARTS or len(found) > most:
            print("".join(f"          {place}\n" for place in found), end="")
    print(f"{len(counted) - failed} passed, {failed} failed")
    return failed > 0


if __name__ == "__main__":
    sys.exit(main())
