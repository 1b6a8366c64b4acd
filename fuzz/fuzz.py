"""Random programs and inputs, valid and broken: the built program against reference.py.

    fuzz.py PROGRAM [COUNT] [SEED]    the same seed makes the same texts; without one it is chosen at random

Each difference is printed, with the words of the command line; its texts are kept where these name them."""
import collections
import functools
import glob
import os
import random
import re
import shutil
import subprocess
import sys
import tempfile
from concurrent.futures import ProcessPoolExecutor

sys.path.append(f"{os.path.dirname(os.path.abspath(__file__))}/../tests")
import reference as ref
from common import TOP, read, write

KINDS = ("integer", "logical")
NUMBERS = (0, 1, 2, 3, 5, 7, 10, 1000, 2**31, 2**62, 2**63 - 1)


class Maker:
    INSTANCES, CHANNELS = 5, 7

    def __init__(self, rng):
        self.r = rng

    def pick(self, *xs):
        return self.r.choice(xs)

    def chance(self, p):
        return self.r.random() < p

    def case(self, word):
        return self.pick(word, word, word, word.upper(), word.capitalize())

    def blank(self):
        return self.pick(" ", " ", " ", "\n", "\t", "\r\n", " comment a; ", "\n  ", "  ")

    def expr(self, kind, depth):
        if depth <= 0 or self.chance(0.3):
            return self.leaf(kind)
        if self.chance(0.12):
            text = f"if {self.expr('logical', depth - 1)} then {self.expr(kind, depth - 1)} else {self.expr(kind, depth - 1)}"
            return text if self.chance(0.3) else f"({text})"
        if kind == "integer":
            if self.chance(0.15):
                return f"-{self.part('integer', depth)}"
            signs = [self.pick("+", "-", "*", "div", "mod", "+", "-") for _ in range(self.r.randint(1, 3))]
            return self.part("integer", depth) + "".join(f" {sign} {self.part('integer', depth)}" for sign in signs)
        if self.chance(0.2):
            return f"{self.pick('not ', 'NOT ', '¬', '¬ ')}{self.part('logical', depth)}"
        kind, sign = self.pick(("logical", self.pick("and", "or", "=", "<>")), ("integer", self.pick(*ref.COMPARISONS)))
        return f"{self.part(kind, depth)} {sign} {self.part(kind, depth)}"

    def part(self, kind, depth):
        if self.chance(0.5):
            return self.leaf(kind)
        return f"({self.expr(kind, depth - 1)})"

    def leaf(self, kind):
        values = [n for n, k in self.values if k == kind]
        ins = [n for n, k in self.ins if k == kind]
        form = self.r.random()
        if ins and form < 0.35:
            return f"wait({self.r.choice(ins)})"
        if values and form < 0.75:
            return self.r.choice(values)
        if kind == "logical":
            return self.pick("true", "false", "TRUE")
        n = self.r.choice(NUMBERS) if self.chance(0.4) else self.r.randint(0, 9)
        return ("0" if self.chance(0.05) else "") + str(n)

    def simple(self, depth):
        form = self.r.random()
        if form < 0.3 and self.outs:
            n, k = self.r.choice(self.outs)
            return f"send {self.expr(k, 2)} on {n}"
        if form < 0.45:
            return f"print {self.expr(self.pick(*KINDS), 2)}"
        if form < 0.75 and self.values:
            n, k = self.r.choice(self.values)
            return f"{n} := {self.expr(k, 2)}"
        if form < 0.92 and depth > 0:
            return self.block(depth - 1)
        return ""

    def block(self, depth):
        many = [self.statement(depth) for _ in range(self.r.randint(1, 4))]
        return f"{self.case('begin')} {('; ' if self.chance(0.8) else ';').join(many)} {self.case('end')}"

    def statement(self, depth):
        form = self.r.random()
        if depth <= 0 or form < 0.6:
            return self.simple(depth)
        if form < 0.75:
            out = f"if {self.expr('logical', 2)} then {self.simple(depth - 1)}"
            return out + (f" else {self.statement(depth - 1)}" if self.chance(0.5) else "")
        if form < 0.9:
            counters = [n for n, k in self.values if k == "integer"]
            if counters and self.chance(0.7):
                n = self.r.choice(counters)
                return f"while {n} < {self.r.randint(1, 6)} do begin {n} := {n} + 1; {self.statement(depth - 1)} end"
            return f"while {self.expr('logical', 2)} do {self.statement(depth - 1)}"
        return f"repeat {self.block(depth - 1)}"

    def program(self):
        count = self.r.randint(1, self.INSTANCES)
        ends = [[] for _ in range(count)]  # of each instance: (way, kind, channel)
        channels = []
        for i in range(self.r.randint(0, self.CHANNELS)):
            role = self.pick("inner", "inner", "inner", "input", "output")
            kind = self.pick("integer", "integer", "integer", "logical")
            name = f"{self.pick('X', 'Y', 'chan_', 'Z')}{i}"
            channels.append((name, kind, role))
            if role != "input":
                self.r.choice(ends).append(("out", kind, name))
            if role != "output":
                self.r.choice(ends).append(("in", kind, name))
        self.channels = channels
        declarations = [f"{self.case(k)}{'' if role == 'inner' else ' ' + self.case(role)} channel {n}" for n, k, role in channels]
        instances, made = [], {}
        for i, mine in enumerate(ends):
            self.r.shuffle(mine)
            extra = [("value", self.pick(*KINDS)) for _ in range(self.r.randint(0, 2))]
            shape = tuple((w, k) for w, k, _ in mine) + tuple(extra)
            if shape in made and self.chance(0.5):
                process = made[shape]
            else:
                process = f"{self.pick('p', 'q', 'Proc', 'f_')}{i}"
                made[shape] = process
                declarations.append(self.process(process, shape))
            args = [c for _, _, c in mine]
            args += [self.pick("true", "false") if kind == "logical" else str(self.r.choice((-1, 1)) * self.r.choice(NUMBERS)) for _, kind in extra]
            instances.append(f"{process}({', '.join(args)})")
        # processes stand after or before channels, in any order
        self.r.shuffle(declarations)
        text = f"{self.case('begin')} " + "".join(d + ";\n" for d in declarations) + f"{self.pick(' par ', ' PAR ').join(instances)}" \
            + self.pick("", ";") + f" {self.case('end')}" + self.pick("", ";", ";\n", "\n")
        if self.chance(0.3):
            text = re.sub(r" ", lambda m: self.blank() if self.chance(0.15) else " ", text)
        return text

    def process(self, name, shape):
        self.ins, self.outs, self.values, groups = [], [], [], []
        for k, (way, kind) in enumerate(shape):
            n = f"{self.pick('a', 'b', 'U')}{k}"
            {"in": self.ins, "out": self.outs}.get(way, self.values).append((n, kind))
            groups.append(f"{kind}{' ' + way if way != 'value' else ''} {n}")
        variables = ""
        for k in range(self.r.randint(0, 3)):
            n, kind = f"v{k}", self.pick(*KINDS)
            self.values.append((n, kind))
            variables += f"{kind} {n}; "
        many = [self.statement(3) for _ in range(self.r.randint(1, 4))]
        if self.chance(0.5):
            many.append(f"repeat {self.block(2)}")
        if self.chance(0.3) and self.ins and self.outs:
            (i, ki), (o, ko) = self.r.choice(self.ins), self.r.choice(self.outs)
            if ki == ko:
                many.append(f"repeat send wait({i}) on {o}")
        return f"process {name}({'; '.join(groups)}); begin {variables}{'; '.join(many)} end"

    def input(self):
        out = []
        for n, kind, role in self.channels:
            if role == "input" and self.chance(0.85):
                values = [str(self.r.randint(-9, 9)) if self.chance(0.9) else str(self.r.choice((-1, 1)) * self.r.choice(NUMBERS))
                          for _ in range(self.r.randint(0, 8))]
                if kind == "logical":
                    values = [self.pick("true", "false", "TRUE", "False") for _ in values]
                blank = self.pick(" ", " ", "\t", "  ")
                out.append(self.pick("", "", " ", "\t") + n + self.pick("", "", " ") + ":" + self.pick("", " ") + blank.join(values) + self.pick("", " "))
        self.r.shuffle(out)
        text = self.pick("\n", "\r\n", "\n\n", "\n \t\n").join(out)
        return text + self.pick("", "\n", "\r\n", "\r")


LEXEMES = re.compile(r"\w+|:=|<>|<=|>=|\s+|.", re.S)
ODD = ["begin", "end", ";", "(", ")", ",", "if", "then", "else", "while", "do", "repeat", "wait", "send", "on", "par", "process",
       "integer", "logical", "channel", "input", "output", "in", "out", "true", "false", "not", "¬", "-", "+", "*", "div", "mod", "=",
       "<", "<=", "<>", ":=", "print", "X0", "Y1", "p0", "q1", "v0", "v1", "a0", "b1", "U0", "1", "0", "9223372036854775808", "comment", ":",
       "é", "_", "#", "a" * 64, "a" * 65, "comment x;", "or", "and", "\0", "\u00a0", "9223372036854775807", "007"]


def broken(rng, text):
    """A text with some lexemes taken out, put in, exchanged or doubled, or bytes changed."""
    parts = LEXEMES.findall(text)
    for _ in range(rng.choice((1, 1, 1, 2, 3))):
        form = rng.random()
        dark = [i for i, p in enumerate(parts) if p.strip()]
        if not dark:
            break
        i, j = rng.choice(dark), rng.choice(dark)
        if form < 0.75:
            parts[i : i + (not 0.2 < form < 0.4)] = [] if form < 0.2 else [rng.choice(ODD) + " " * (form < 0.4)] if form < 0.6 else [parts[j]]
        elif form < 0.85:
            parts.insert(i, parts[i] + " ")
        elif form < 0.9:
            del parts[i:]
        else:
            parts[i], parts[j] = parts[j], parts[i]
    return "".join(parts)


def renamed(rng, text):
    """A text with a name, a kind, a direction or a literal put in the place of another of its sort."""
    parts = LEXEMES.findall(text)
    sorts = (lambda p: p.lower() in ("integer", "logical"), lambda p: p.lower() in ("in", "out"), lambda p: p.lower() in ("input", "output"),
             lambda p: p[0].isdigit() or p.lower() in ("true", "false"), lambda p: p in ("+", "<", "=", "and", "or", "*", "<>", "mod"))
    for _ in range(rng.choice((1, 1, 2))):
        sort = rng.choice(sorts) if rng.random() < 0.4 else lambda p: p[0].isalpha() and p.lower() not in ref.KEYWORDS
        at = [i for i, p in enumerate(parts) if sort(p)]
        if at:
            parts[rng.choice(at)] = parts[rng.choice(at)]
    return "".join(parts)


def bytes_of(rng, text):
    data = bytearray(text.encode())
    if rng.random() < 0.01 and data:
        data[rng.randrange(len(data))] = rng.randrange(128, 256)
    return bytes(data)


def case(seed):
    rng = random.Random(seed)
    maker = Maker(rng)
    text, source, form = maker.program(), maker.input(), rng.random()
    if form < 0.2:
        text = broken(rng, text)
    elif form < 0.45:
        text = renamed(rng, text)
    elif form < 0.53:
        source = broken(rng, source) if source else rng.choice((": 1", "X0", "A: x", "a: +1", "X0: 1", "begin:", "a" * 65 + ": 1"))
    names = [n for n, _, _ in maker.channels] + (["Q", "p0"] if rng.random() < 0.2 else [])
    watch = rng.choice(names) if names and rng.random() < 0.3 else None
    bound = rng.choice((None, None, 0, 1, 5, 10, 37, 100, 1000, 3000))
    return (bytes_of(rng, text), bytes_of(rng, source) if rng.random() < 0.9 else None, watch, bound if bound is not None else rng.randint(0, 5000),
            rng.choice((None, 1, 2, 3, 8, 16)), rng.choice((None, 1, 2, 7, 1000000)), rng.random() < 0.5)


def asked(*words, text=b""):
    """What a program gives."""
    return subprocess.run(words, input=text, capture_output=True, timeout=600)


def one(program, at, seed):
    """Runs a case, with its texts in files that begin so: (None, what kind of case it was), or (what differs, the words)."""
    text, source, watch, bound, workers, quantum, piped = case(seed)
    options = {"--bound": bound, "--watch": watch, "--workers": workers, "--quantum": quantum}
    words = [program, *(str(it) for option, value in options.items() if value is not None for it in (option, value))]
    write(at + ".kahn", text)
    if source is not None:
        words += ["--input", write(at + ".input", source)]
    if not piped:
        words.append(at + ".kahn")
    wanted = ref.run(text, source, bound, watch, ("standard input" if piped else at + ".kahn", at + ".input"))
    what = difference(asked(*words, text=text if piped else b""), wanted)
    return what, ' '.join(words) if what else kind_of(wanted)


def difference(ran, wanted):
    """What is wrong with a run, or None. A run that is too long to follow has no wanted status."""
    if wanted.status is None:
        return None
    if (ran.returncode, ran.stderr) != (wanted.status, wanted.err):
        return f"status {ran.returncode}, not {wanted.status}: {ran.stderr!r} not {wanted.err!r}"
    if wanted.stopped:
        return wanted.stopped(ran.stdout)
    return f"standard output {ran.stdout!r}, not {wanted.out!r}" if ran.stdout != wanted.out else None


def kind_of(wanted):
    """A word for what became of a case: that it was stopped or finished, or its fault."""
    if wanted.status is None:
        return "skipped"
    fault = (wanted.err or b"").split(b": ")[-1].decode().strip()
    return re.sub(r"\d+", "N", fault) or ("stopped" if wanted.stopped else "finished")


def tell_kinds(given):
    """How many cases were of each kind."""
    for kind, number in collections.Counter(given).most_common():
        print(f"{number:6} {kind}")


def kept(one, paths, room, seed):
    """What comes of one seed, whose texts are kept if something differs."""
    try:
        what, more = one(*paths, f"{room}/{seed}", seed)
    except (OSError, subprocess.TimeoutExpired) as error:
        what, more = str(error), f"{room}/{seed}"
    for path in glob.glob(f"{room}/{seed}.*") if what is None else ():
        os.remove(path)
    return what, more


def drive(one, programs=1, count=150, tell=tell_kinds):
    """Runs a script of this folder by its words, PROGRAM .. [COUNT] [SEED], and gives its status. It tries `one(*programs, at, seed)` for
    each seed: (None, what to tell of it) or (what differs, what leads there), which is printed. If something failed its texts, in files whose names begin with
    `at`, are kept in their folder."""
    words = sys.argv[1:]
    paths, numbers = [os.path.abspath(path) for path in words[:programs]], [int(it) for it in words[programs : programs + 2]]
    count, first = [*numbers, *(count, random.randrange(10**9))[len(numbers) :]]
    print(f"seed {first}", flush=True)
    room, given, failed = tempfile.mkdtemp(prefix="kahn-fuzz-"), [], 0
    seeds = range(first, first + count)
    with ProcessPoolExecutor(os.cpu_count()) as workers:
        for seed, (what, more) in zip(seeds, workers.map(functools.partial(kept, one, paths, room), seeds, chunksize=8)):
            if what is None:
                given.append(more)
            else:
                failed += 1
                print(f"FAILED {seed}: {what}\n   {more}", flush=True)
    tell(given)
    print(f"the texts are kept in {room}") if failed else shutil.rmtree(room)
    print(f"{len(given) - given.count('skipped')} passed, {failed} failed")
    return failed > 0


if __name__ == "__main__":
    sys.exit(drive(one, count=300))
