#!/usr/bin/env python3
"""The list of crates, crates/README.md: a line a crate, by the headings of crates.txt, made of the first sentence of its root. And what the
pages for those who change something name: each crate, each file of the crate that is named before it, each word of the sources has to be there.

crates.py            whether all this is so; its last line says how much passed and failed
crates.py --write    makes the list"""
import glob
import os
import re
import sys

sys.path.append(f"{os.path.dirname(os.path.abspath(__file__))}/../tests")
from common import TOP, text_of as read, write

LIST = f"{TOP}/crates/README.md"
PAGES = ("CONTRIBUTING.md", *(f"docs/{name}.md" for name in "contract faults-rules meaning needs reading".split()),
         *(f"docs/dev/{name}.md" for name in "architecture board checks decisions toolchain-notes".split()))
# Words of the toolchain that pages name.
LIBRARY = "split_at_mut LocalHeap std_alloc TheLink try_lock try_unproved sanitize_address".split() + ["src/x.rt", "src/m.rt"]
HEAD = """# The crates

From the bottom up: a crate uses only crates that stand before it. crates.txt says which, and docs/dev/architecture.md which file holds what.
(`python3 checks/crates.py --write` makes this list.)
"""


def subject(crate):
    """The first sentence of the comment of a crate's root."""
    root = next(path for path in (f"{TOP}/crates/{crate}/src/{name}.rt" for name in ("lib", "main")) if os.path.exists(path))
    comment = " ".join(line[3:].strip() for line in re.match(r"(//!.*\n)+", read(root)).group().splitlines())
    return re.match(r".*?[.](?= |$)", comment).group()


def made():
    """What the list has to be."""
    text = HEAD
    for line in read(f"{TOP}/crates.txt").splitlines()[1:]:
        if line.startswith("# "):
            text += f"\n## {line[2:].rstrip('.')}\n\n"
        elif line:
            crate = re.match(r"\w+", line).group()
            text += f"- [{crate}]({crate}/src): {subject(crate)}\n"
    return text


def sources():
    """The files of the crates and of the scripts: path to text."""
    kinds = ("crates/*/src/**/*.rt", "crates/*/specs/**/*.antt", "crates/*/proofs/**/*.antt", "tests/*.py", "checks/*.py", "fuzz/*.py")
    return {os.path.relpath(path, TOP): read(path) for kind in kinds for path in glob.glob(f"{TOP}/{kind}", recursive=True)}


def named(page):
    """What a page names beside commands: files and words, each with the crates that its paragraph, item of a list or row named before."""
    text = re.sub(r"(?ms)^```.*?^```", "", read(f"{TOP}/{page}"))
    for block in re.split(r"\n\n|\n(?=- |\||\d+\. )", text):
        crates = []
        for name, span in re.findall(r"(?<!`)\b(kahn_\w+|kahn(?= `))|`([^`\n]+)`", block):
            for word in [name] if name else re.findall(r"(?<![\w/.])(?:[\w/]+\.(?:rt|antt)\b|[A-Z][a-z]+[A-Z]\w*|[a-z]+(?:_[a-z]+)+\b(?!\.))", span):
                if os.path.isdir(f"{TOP}/crates/{word}"):
                    crates.append(word)
                yield crates, word


def lost():
    """What the pages name and nothing has."""
    files = sources()
    words = set(re.findall(r"\w+", " ".join([*files, *files.values()])))
    for page in PAGES:
        for crates, word in named(page):
            below = "" if re.match("(crates/)?kahn", word) else f"({'|'.join(crates) or '.*'})/(.*/)?"
            place = re.compile(f"crates/{below}{word.removeprefix('crates/')}$")
            if word not in words and word not in LIBRARY and not any(place.match(path) for path in files):
                yield f"{page}: {word}{f' of {crates[-1]}' if crates and '.' in word else ''}"


def main(*words):
    if words == ("--write",):
        return not write(LIST, made())
    wrong = [] if os.path.exists(LIST) and read(LIST) == made() else ["crates/README.md: python3 checks/crates.py --write makes it anew"]
    wrong += (f"{name} isn't there" for name in lost())
    print(*(f"FAILED {line}" for line in wrong), sep="\n", end="\n" if wrong else "")
    print(f"{max(0, 1 + len(PAGES) - len(wrong))} passed, {len(wrong)} failed")
    return bool(wrong)


if __name__ == "__main__":
    sys.exit(main(*sys.argv[1:]))
