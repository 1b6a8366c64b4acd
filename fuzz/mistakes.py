"""Mistakes with known repairs, made in the programs of examples/: what kahn_explain says of each, against the repair.

    mistakes.py KAHN_EXPLAIN [COUNT] [SEED] [-v]     the same seed makes the same mistakes; -v prints those that aren't told rightly

Right: the first remark, or the heading if there is none, names the repair. Misled: there is a remark, and the word of the repair is nowhere.
Silent: nothing is said. One: exactly one error is told. It fails if fewer are told rightly than LEAST_RIGHT, or more mislead."""
import collections
import glob
import itertools
import random
import re
import subprocess
import sys
from concurrent.futures import ThreadPoolExecutor

import fuzz
import reference as ref

LEFT_OUT = (";", "(", ")", ",", ":=", "do", "then", "on", "par")
GUARDS = ("do", "then", "else", "repeat")
LEAST_RIGHT, MOST_MISLED, LEAST_ONE = 96, 2, 97
# sort: which; text: with the mistake; line: of it; words: any of these names the repair.
Mistake = collections.namedtuple("Mistake", "sort text line words")


def lexemes(text):
    """Each lexeme with its place, but those of comments."""
    return [(what, text[a:b], a, b) for what, _, a, b in ref.lex(text.encode())]


def line_of(text, at):
    return text.count("\n", 0, at) + 1


def slip(word, rng):
    """The word with a letter left out, doubled or put in place of another, or two interchanged."""
    i, how = rng.randrange(len(word)), rng.randrange(4)
    if how == 0 and len(word) > 2:
        return word[:i] + word[i + 1:]
    if how == 1:
        return word[:i] + word[i] + word[i:]
    if how == 2 and i + 1 < len(word) and word[i] != word[i + 1]:
        return word[:i] + word[i + 1] + word[i] + word[i + 2:]
    return word[:i] + rng.choice("abcdefghijklmnopqrstuvwxyz") + word[i + 1:]


def other_of(one, other):
    return lambda word, _: other if word == one else one


DECLARED = ("process", "in", "out", "integer", "logical", "channel", ",")
# Mistakes of one lexeme: of which (its number, itself, all), what is put in its place, and the words that name the repair.
ONE = {
    "misspelt keyword": (lambda i, x, _: x[0] == "word" and x[1] not in ("true", "false") and x[1].isalpha(), slip, "`{}`"),
    "misspelt name": (lambda i, x, lex: x[0] == "name" and i and lex[i - 1][1] not in DECLARED and len(x[1]) > 1, slip, "`{}`"),
    "lost": (lambda i, x, _: x[1] in LEFT_OUT, lambda *_: " ", "insert `{}`|`{}`"),
    "doubled": (lambda i, x, _: x[1] not in ("+", "-", "(") and x[0] != "number", lambda word, _: f"{word} {word}", "fix: remove|second `{}`"),
    "= and :=": (lambda i, x, _: x[1] in (":=", "="), other_of("=", ":="), "with `{}`"),
    "end twice": (lambda i, x, lex: x[1] == "end" and i < len(lex) - 1, lambda *_: "end end", "has no `begin`|remove `end`"),
    "direction": (lambda i, x, _: x[1] in ("in", "out"), other_of("in", "out"), "direction|writer|reader|`in`|`out`"),
    "kind": (lambda i, x, _: x[1] in ("integer", "logical"), other_of("integer", "logical"), "kind|wanted"),
}


def of_one(sort):
    """What makes a mistake of one lexeme. A slip makes no word that is there already."""
    which, put, words = ONE[sort]

    def made(text, lex, rng):
        _, word, a, b = rng.choice([x for i, x in enumerate(lex) if which(i, x, lex)])
        new = put(word, rng)
        if put is slip and (new.lower() in ref.KEYWORDS or any(x[1].lower() == new.lower() for x in lex)):
            return None
        return Mistake(sort, text[:a] + new + text[b:], line_of(text, a), words.replace("{}", word).split("|"))

    return made


def block_of(lex, i):
    """The number of the end of the block that begins at i."""
    depths = itertools.accumulate((x[1] == "begin") - (x[1] == "end") for x in lex[i:])
    return next((i + k for k, depth in enumerate(depths) if depth == 0), None)


def lost_end(text, lex, rng):
    i = rng.choice([i for i, x in enumerate(lex) if x[1] == "begin" and i])
    _, _, a, b = lex[block_of(lex, i)]
    place = ref.spot(text.encode(), lex[i][2])
    return Mistake("lost end", text[:a] + text[b:], line_of(text, lex[i][2]), [f"p:{place}: error: `begin` has no `end`", place])


def lost_begin(text, lex, rng):
    i = rng.choice([i for i, x in enumerate(lex) if x[1] == "begin" and i and lex[i - 1][1] in GUARDS])
    if not any(x[1] == ";" for x in lex[i:block_of(lex, i)]):
        return None
    _, guard, at, _ = lex[i - 1]
    words = [f"p:{ref.spot(text.encode(), at)}: error: several statements", f"insert `begin` after `{guard}`", f"`then` at {ref.spot(text.encode(), at)}"]
    return Mistake("lost begin", text[:lex[i][2]] + text[lex[i][3]:], line_of(text, at), words)


def late_else(text, lex, rng):
    a = rng.choice([x for i, x in enumerate(lex) if x[1] == "else" and any(y[1] in ("send", ":=", "print", "end") for y in lex[max(0, i - 6):i])])[2]
    return Mistake("; before else", text[:a].rstrip() + "; " + text[a:], line_of(text, a), ["remove `;`"])


def commas_of(lex):
    """The commas between the arguments of instances."""
    last = max((i for i, x in enumerate(lex[:-2]) if x[1] == "end"), default=0)
    return [i for i, x in enumerate(lex) if x[1] == "," and i > last]


def arguments(text, lex, rng):
    i = rng.choice([i for i in commas_of(lex) if lex[i - 1][1] != lex[i + 1][1]])
    (_, one, a, _), (_, other, _, b) = lex[i - 1], lex[i + 1]
    return Mistake("arguments", f"{text[:a]}{other}, {one}{text[b:]}", line_of(text, a), [one, other, "interchanged", "expected"])


def argument_lost(text, lex, rng):
    i = rng.choice(commas_of(lex))
    return Mistake("argument lost", text[:lex[i][2]] + text[lex[i + 1][3]:], line_of(text, lex[i][2]), ["number of arguments", "wanted", "not declared"])


MADE = {sort: of_one(sort) for sort in ONE}
FIRST = [MADE[sort] for sort in ("misspelt keyword", "lost", "doubled", "= and :=")]


def two(text, lex, rng):
    """Two mistakes: the first is to be told."""
    one = rng.choice(FIRST)(text, lex[:len(lex) // 2], rng)
    far = [x for x in lexemes(one.text) if line_of(one.text, x[2]) > one.line + 3] if one else ()
    other = one and rng.choice(FIRST)(one.text, far, rng)
    return other and Mistake("two mistakes", other.text, one.line, one.words)


SORTS = [*MADE.values(), MADE["misspelt keyword"], MADE["lost"], lost_end, lost_begin, late_else, arguments, argument_lost, two, two]


def made(count, seed):
    """So many mistakes; a sort for which a text has no place makes none."""
    rng = random.Random(seed)
    texts = [fuzz.read(path).decode() for path in sorted(glob.glob(f"{fuzz.TOP}/examples/*.kahn"))]
    texts = [text for text in texts if len(text) < 6000 and text.isascii() and not ref.fault_of(text.encode())]
    out = []
    while len(out) < count:
        text = rng.choice(texts)
        try:
            one = rng.choice(SORTS)(text, lexemes(text), rng)
        except (IndexError, ref.Fault):
            continue
        if one and ref.fault_of(one.text.encode()):
            out.append(one)
    return out


# The first line of what a run tells.
VERDICT = re.compile(r"(?m)^(?:no deadlock and no fault|deadlock: |\d+ deadlocks|\d+ process(?:es have| has) a fault|stopped (?:by the bound|for want))")


def said_of(explain, text):
    """What is said of the text, but what a run tells."""
    ran = subprocess.run([explain, "--bound", "1"], input=text, capture_output=True, text=True)
    return VERDICT.split(ran.stdout.replace("<stdin>", "p"), maxsplit=1)[0]


def judged(mistake, said):
    """right, misled, and whether it is one error."""
    errors, warnings = (re.findall(rf"^p:\d+:\d+: {kind}: (.*)", said, re.M) for kind in ("error", "warning"))
    if not errors and not warnings:
        return "silent", 1
    first = re.split(r"\n\np:", said.lower())[0]
    remarks = re.findall(r"^ +\d* *= (.*)", first, re.M)
    heads = [*(errors or warnings)[:1], *re.findall(r"^p:\d+:\d+: note: (.*)", first, re.M)]
    places = [first.split("\n")[0], *(remarks[:1] or heads)]
    if mistake.sort in ("kind", "direction", "arguments", "misspelt name", "argument lost"):
        places = heads + remarks
    words = [word.lower() for word in mistake.words]
    if any(word in line.lower() for word in words for line in places):
        return "right", len(errors)
    return "misled" if remarks and not any(word in first for word in words) else "meh", len(errors)


def main(explain, count="1500", seed=None, *rest):
    seed = seed if seed is not None else str(random.randrange(10**9))
    mistakes, sorts, ones = made(int(count), seed), collections.defaultdict(list), 0
    with ThreadPoolExecutor(4) as pool:
        for mistake, said in zip(mistakes, pool.map(lambda m: said_of(explain, m.text), mistakes)):
            verdict, errors = judged(mistake, said)
            sorts[mistake.sort].append(verdict)
            ones += errors <= 1
            if "-v" in rest and verdict != "right":
                print(f"--- {verdict}: {mistake.sort}, line {mistake.line}, {mistake.words}\n{said[:900]}")
    every = [verdict for verdicts in sorts.values() for verdict in verdicts]
    for sort, verdicts in [*sorted(sorts.items()), (f"seed {seed}", every)]:
        print(f"{sort:18} {len(verdicts):5}" + "".join(f"  {name} {100 * verdicts.count(name) / len(verdicts):5.1f}" for name in ("right", "meh", "misled", "silent")))
    right, misled, one = (100 * number / len(every) for number in (every.count("right"), every.count("misled"), ones))
    print(f"{one:.1f} % have one error")
    good = right >= LEAST_RIGHT and misled <= MOST_MISLED and one >= LEAST_ONE
    print("1 passed, 0 failed" if good else "0 passed, 1 failed")
    return not good


if __name__ == "__main__":
    sys.exit(main(*sys.argv[1:]))
