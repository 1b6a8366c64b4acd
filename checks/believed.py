"""What must be believed: which files of specs/ the clauses of public calls reach, against what the files and docs/meaning.md say.

A public call is one of an item that a crate's `src/lib.rt` passes on by a `pub use` line above the line `// For the crates above.`; of
a program it is any item that its other modules see. A definition is reached where such a clause names it, or a definition that is reached.
A file of specs/ with one begins with `-- Believed. ..`; any other stands in specs/inner/, and begins with `-- Inner. ..`.

The reading list of docs/meaning.md has just the files that the clauses of `kahn_report::work` reach, and names definitions that they reach.
What docs/reading.md shows stands so in one of the files that it names: the lines of each block, in their order.

With `--files CRATE::ITEM ..` it tells which files those items reach, or all public ones, with their lines of definitions and their subjects."""
import glob
import os
import re
import sys

sys.path.append(f"{os.path.dirname(os.path.abspath(__file__))}/../tests")
from common import TOP, text_of as read

BELOW = "// For the crates above."
ITEM = re.compile(r"(?m)^pub (?:const |extern \"C\" )?(?:fn|struct|enum|trait|const|type) (\w+)")
HEAD = re.compile(r"(?m)^(?:pub(?:\(\w+\))? )?(?:unsafe |const |extern \"C\" )*(fn|struct|enum|trait|impl|const|type)\b(?:<[^{]*?>)?\s+(.*)")
WORD = re.compile(r"[A-Za-z_][\w'-]*(?:\.[A-Za-z_][\w'-]*)*")
DEFINED = re.compile(r"\s*(?:abbrev |unfoldable |unfolding \S+ )*pub (data |record )?([A-Za-z_][\w'-]*)")


def parts(names):
    return [name.strip() for name in names.strip("{}; ").split(",") if name.strip()]


def module_at(path):
    """The file of specs/ that a path names, as `crate/File`, or none."""
    found = re.match(r"Rattle\.(kahn\w*)\.specs\.(?!declared\.|contracts\.|formers\.)([\w.'-]+)$", path)
    return f"{found.group(1)}/{found.group(2).replace('.', '/')}" if found else None


class Names:
    """What the `use` lines of a text mean: a name for (module, definition), and a module's name for (module, None)."""

    def __init__(self, text, start):
        self.of = {}
        for line in re.findall(rf"(?m)^{start}use (Rattle\.kahn[^;\n]*(?:{{[^}}]*}})?[^;\n]*)", text):
            path, brace, names = line.strip().partition("{")
            path, _, other = path.strip().rstrip(".").partition(" as ")
            for each in parts(names):
                old, _, new = each.partition(" as ")
                place, _, name = f"{path}.{old.strip()}".rpartition(".")
                self.of[new.strip() or name] = (module_at(place), name)
            if not brace:
                self.of[other.strip() or path.rsplit(".", 1)[-1]] = (module_at(path), None)

    def meant(self, text):
        """The (module, definition) that the words of a text may mean."""
        for word in set(WORD.findall(text)):
            first, _, rest = word.partition(".")
            module, name = self.of.get(first, (None, None))
            yield module, name or rest.split(".")[0]


def definitions(text):
    """The definitions of a file of specs/: name to its lines. What stands in a record or a `data` counts as of its type."""
    held, inside, name, deep, block = {}, {}, None, 0, False
    for line in text.split("\n"):
        if not line.strip() or re.match(r"\s*(--|(abbrev )?mutual$|module _)|(pub )?(use|mod) ", line):
            continue
        found, indent = DEFINED.match(line), len(line) - len(line.lstrip())
        parts_of = re.match(r"\s*(?:pub )?((?:[\w'-]+ )+):", line)
        if found and not (block and indent > deep):
            name, deep, block = found.group(2), indent, bool(found.group(1))
        elif block and indent > deep and parts_of:
            for part in parts_of.group(1).split():
                inside.setdefault(part, name)
        if name:
            held.setdefault(name, []).append(line)
    return held, inside


class House:
    """All files of specs/ that define something: what their words mean, their definitions, their first lines. And those that pass words on."""

    def __init__(self):
        self.names, self.held, self.inside, self.heads, self.passed = {}, {}, {}, {}, {}
        for path in sorted(glob.glob(f"{TOP}/crates/*/specs/**/*.antt", recursive=True)):
            module, text = os.path.relpath(path, f"{TOP}/crates")[:-5].replace("/specs/", "/"), read(path)
            held, inside = definitions(text)
            self.passed[module] = Names(text, "pub ").of
            if held:
                self.names[module], self.held[module], self.inside[module] = Names(text, "(?:pub )?"), held, inside
                self.heads[module] = text.split("\n", 1)[0]

    def reached(self, roots):
        seen, todo = set(), list(roots)
        while todo:
            module, name = todo.pop()
            module, name = self.passed.get(module, {}).get(name, (module, name))
            if module not in self.held:
                continue
            name = name if name in self.held[module] else self.inside[module].get(name)
            if name and (module, name) not in seen:
                seen.add((module, name))
                text = "\n".join(self.held[module][name])
                todo += self.names[module].meant(text)
                todo += [(module, word.split(".")[0]) for word in set(WORD.findall(text))]
        return seen


def items(text):
    """The top items of a source: (kind, name, text), an `impl` by the name of its type."""
    for chunk in re.split(r"\n(?=pub[ (]|impl|struct |enum |trait |fn |unsafe |const |mod |use |ghost )", text):
        found = HEAD.search(chunk)
        if found:
            name = re.sub(r"^.*? for ", "", found.group(2)) if found.group(1) == "impl" else found.group(2)
            yield found.group(1), (re.match(r"(?:&?(?:mut )?)(\w+)", name) or re.match("()", "")).group(1), chunk


def clauses(kind, chunk):
    """The clauses of an item: the heads of its functions, without what only its crate calls, and the ghosts that callers see."""
    if kind == "fn":
        return chunk.split("\n{", 1)[0]
    if kind in ("struct", "enum"):
        return "\n".join(re.findall(r"(?m)^    pub ghost .*(?:\n     .*)*", chunk))
    of_trait = kind == "trait" or re.search(r"(?m)^(?:unsafe )?impl\b.* for ", chunk)
    hidden = r"    ghost (invariant|view|coded|use)\b" if of_trait else r"    (ghost use |(pub\(crate\) )?(unsafe |const )*fn )"
    kept, take, body = [], False, False
    for line in chunk.split("\n"):
        if not body and re.match(r"    [^ }]", line) and not re.match(r"    [{)]", line):
            take = not re.match(hidden, line)
        if take and not body:
            kept.append(line)
        body = not re.match(r"    }", line) and (body or bool(re.match(r"    {$|    (?:pub(?:\(\w+\))? )?fn .*{$|    \).*{$", line)))
    return "\n".join(kept)


def home(module, name):
    """The file of an item that a module has or passes on."""
    for path, names in re.findall(r"(?m)^pub use ([\w:]+?)::(\{[^}]*\}|\w+);", read(f"{module}.rt")):
        if name in parts(names):
            return home(f"{module}/{path.replace('::', '/')}", name)
    return f"{module}.rt"


def exported(crate, whole=False):
    """The public items of a crate above the line, or all of them: (crate, file, name); the crate may be one below."""
    lib = f"{TOP}/crates/{crate}/src/lib.rt"
    if not os.path.exists(lib):
        for path in glob.glob(f"{TOP}/crates/{crate}/src/*.rt"):
            yield from ((crate, path, name) for name in re.findall(r"(?m)^pub(?:\(crate\))? (?:fn|struct|enum|trait) (\w+)", read(path)))
        return
    text = read(lib) if whole else read(lib).split(BELOW)[0]
    yield from ((crate, lib, name) for name in ITEM.findall(text))
    for path, names in re.findall(r"(?m)^pub use ([\w:]+?)::(\{[^}]*\}|\w+);", text):
        if path.startswith("kahn_"):
            yield from (item for item in exported(path, True) if item[2] in parts(names))
        else:
            yield from ((crate, home(f"{TOP}/crates/{crate}/src/{path.replace('::', '/')}", name), name) for name in parts(names))


def roots(wanted):
    """What the clauses of these items name: (module, definition)."""
    for crate in {crate for crate, _, _ in wanted}:
        for path in sorted(glob.glob(f"{TOP}/crates/{crate}/src/**/*.rt", recursive=True)):
            text = read(path)
            top = Names(text, "ghost ")
            for kind, name, chunk in items(text):
                if any(each == (crate, path, name) or kind == "impl" and each[::2] == (crate, name) for each in wanted):
                    yield from Names(chunk, " +ghost ").meant(clauses(kind, chunk))
                    yield from top.meant(clauses(kind, chunk))


def listed():
    """The reading list of docs/meaning.md: each file with the definitions that are named beside it."""
    part = read(f"{TOP}/docs/meaning.md").split("## The reading list")[-1].split("\n## ")[0]
    rows = re.findall(r"(?m)^\| (kahn_\w+) `specs/([\w/]+)\.antt` \|.*\| ([^|]*) \|[^|]*\|$", part)
    return {f"{crate}/{name}": re.findall(r"`([^`]+)`", names) for crate, name, names in rows}


def differences(house, public):
    """Where floors, first lines and the reading list aren't what the clauses reach: lines."""
    seen = {module for module, _ in house.reached(roots(public))}
    said = house.reached(roots([item for item in public if item[::2] == ("kahn_report", "work")]))
    named = listed()
    for module, head in house.heads.items():
        word = "Believed" if module in seen else "Inner"
        if not re.match(rf"-- {word}\.( |$)", head):
            yield f"{module}: its first line doesn't begin with `-- {word}.`"
        elif ("/inner/" in module) == (module in seen):
            yield f"{module}: it belongs in specs/{'' if module in seen else 'inner/'}"
    for module in sorted(set(named) | {module for module, _ in said}):
        if module not in named:
            yield f"{module}: the clauses of work reach it, and the reading list lacks it"
        elif not named[module] or any((module, name) not in said for name in named[module]):
            yield f"{module}: the reading list names what the clauses of work don't reach there"


def shown():
    """The blocks of docs/reading.md, and those that stand in no file that it names: two lists of blocks."""
    page = read(f"{TOP}/docs/reading.md")
    texts = [read(f"{TOP}/{path}").split("\n") for path in set(re.findall(r"crates/[\w/]+\.(?:antt|rt)", page))]
    blocks = [[line[4:] for line in block.splitlines()] for block in re.findall(r"(?m)(?:^ {4}.*\n)+", page)]

    def stands(block, lines):
        rest = iter(lines)
        return all(line in rest for line in block)

    return blocks, [block for block in blocks if not any(stands(block, lines) for lines in texts)]


def main():
    house = House()
    crates = sorted(os.path.basename(os.path.dirname(path)) for path in glob.glob(f"{TOP}/crates/*/src"))
    public = [item for crate in crates for item in exported(crate)]
    if sys.argv[1:2] == ["--files"]:
        seen = house.reached(roots([item for item in public if not sys.argv[2:] or f"{item[0]}::{item[2]}" in sys.argv[2:]]))
        total = 0
        for module, held in house.held.items():
            lines = sum(len(held[name]) for at, name in seen if at == module)
            total += lines
            if lines:
                print(f"{lines:4} of {sum(map(len, held.values())):4} {module}: {re.sub('^-- [A-Z][a-z]+[.] *', '', house.heads[module])}")
        print(f"{total:4} in all")
        return 0 if total else "nothing public is called so"
    wrong = list(differences(house, public))
    blocks, strange = shown()
    wrong += [f"docs/reading.md: this stands in no file that the page names: {block[0]}" for block in strange]
    print(*(f"FAILED {line}" for line in wrong), sep="\n", end="\n" if wrong else "")
    print(f"{len(house.heads) + len(listed()) + len(blocks) - len(wrong)} passed, {len(wrong)} failed")
    return 1 if wrong or not listed() else 0


if __name__ == "__main__":
    sys.exit(main())
