"""Random networks, tested by kahn_test: their values pass, and a file with one mistake fails, with a line that names it.

    values.py KAHN_TEST KAHN KAHN_EXPLAIN KAHN_LIVE [COUNT] [SEED]     the same seed makes the same texts; without one it is chosen at random

The values that --values prints, and those that --update writes, are compared with a second reading of the report of kahn. Then a value is
changed, one is added or removed, a line is removed or renamed, or another status is expected."""
import collections
import os
import random
import re
import sys

import causes
import fuzz
import reference as ref

BOUND, MOST = 5000, 20
OPTIONS = ("--lax", "--bound", str(BOUND))
NAMED = re.compile(r"# (?:(?:print )?\w+(?: \d+)?(?::\d+ (?:is|doesn't come:) .*|: no such output|: no line has it.*)|status \d, wanted \d)")


class Wrong(Exception):
    pass


def demand(is_so, what):
    if not is_so:
        raise Wrong(what)


def case(rng):
    """A program that is valid, and an input that fits."""
    while True:
        maker = rng.choice((causes.Maker, fuzz.Maker))(rng)
        text, source = maker.program(), maker.input()
        try:
            ref.input_of(ref.checked_of(text.encode()), source.encode())
            return text, source
        except ref.Fault:
            pass


def streams_of(report):
    """The values of each stream of a report, by the names that a file of values has, with how kahn_explain calls each; and whether the run finished."""
    *lines, last = report.decode().splitlines()
    ends = [line.split()[1:3] for line in lines if line.startswith("end ")]
    streams, by_process = {}, collections.defaultdict(list)
    for number, process in ends:
        by_process[process.rstrip(":")].append(number)
    for head, _, values in (line.partition(":") for line in lines if not line.startswith("end ")):
        name = asked = head
        if head.startswith("print "):
            _, number, process = head.split()
            same = by_process[process]
            name, asked = f"print {process}" + (f" {same.index(number) + 1}" if len(same) > 1 else ""), f"{number} {process}"
        streams[name] = (values.split(), asked)
    return streams, last.startswith("finished")


def mistaken(rng, lines, status, finished):
    """One mistake: its form, lines with it, the status to expect, how the line begins that names it, and the place of the value that is asked for its needs, or None."""
    name = rng.choice(sorted(lines))
    values, form = lines[name], rng.choice(("change", "change", "change", "add", "remove", "lose", "rename", "status"))
    n, changed = len(values), dict(lines)
    if form == "change" and n:
        at = rng.randrange(n)
        other = {"true": "false", "false": "true"}.get(values[at]) or str(int(values[at]) + rng.choice((1, -1, 10)))
        changed[name] = values[:at] + [other] + values[at + 1 :]
        return form, changed, status, f"{name}:{at + 1} is {values[at]}, wanted {other}", at + 1
    if form == "add" and finished:
        changed[name] = values + ["7"]
        return form, changed, status, f"{name}:{n + 1} doesn't come: {n} values, wanted {n + 1}", None
    if form == "remove" and finished and n:
        changed[name] = values[:-1]
        return form, changed, status, f"{name}:{n} is {values[-1]}, wanted no more than {n - 1} values", n
    if form == "lose":
        del changed[name]
        return form, changed, status, f"{name}: no line has it", None
    if form == "rename":
        return form, {("no_such_name" if it == name else it): values for it, values in lines.items()}, status, "no_such_name: no such output", None
    other = rng.choice([it for it in (0, 7, 8) if it != status and (finished or it)])
    return "status", changed, other, f"status {status}, wanted {other}", None


def has_status(lines, status):
    """Whether the file has to say the status: a stream that goes on says that the run is stopped by its bound."""
    return status in (7, 8) or status == 3 and not lines


class Trial:
    def __init__(self, test, kahn, explain, live, at, seed):
        self.rng, self.at, self.kahn, self.explain = random.Random(seed), at, kahn, explain
        bin_of = f"{os.path.dirname(at)}/bin.{os.getpid()}"
        if not os.path.exists(bin_of):
            os.mkdir(bin_of)
            for name, path in (("kahn_test", test), ("kahn", kahn), ("kahn_explain", explain), ("kahn_live", live)):
                os.symlink(path, f"{bin_of}/{name}")
        self.test = f"{bin_of}/kahn_test"
        text, source = case(self.rng)
        fuzz.write(f"{at}.kahn", text)
        fuzz.write(f"{at}.input", source)

    def ran(self, program, *words):
        return fuzz.asked(program, f"{self.at}.kahn", *words)

    def tested(self, *words):
        return self.ran(self.test, *OPTIONS, *words)

    def put(self, lines, status, finished):
        """Writes a file of values, its lines in any order."""
        texts = [f"{name}:{''.join(f' {it}' for it in values)}{'' if finished else ' ..'}\n" for name, values in lines.items()]
        texts += [f"status {status}\n"] * (has_status(lines, status) or self.rng.random() < 0.3 and finished)
        self.rng.shuffle(texts)
        fuzz.write(f"{self.at}.values", "".join(texts))

    def try_all(self):
        text = ("--input", f"{self.at}.input", "--bound", str(BOUND))
        streams, finished = streams_of(self.ran(self.kahn, *text, "--workers", "1").stdout)
        status = self.ran(self.explain, *text).returncode
        if finished:
            ran = self.ran(self.test, "--values", f"{self.at}.input", "--bound", str(BOUND))
            given = [line.partition(":")[::2] for line in ran.stdout.decode().splitlines()]
            demand([(name, values.split()) for name, values in given] == [(name, it[0]) for name, it in streams.items()], f"--values: {ran.stdout!r}")
        lines = {name: values if finished else values[:MOST] for name, (values, _) in streams.items()}
        ran = self.tested("--update")
        demand(ran.returncode == 0 and b"# wrote " in ran.stdout, f"--update: {ran.stdout!r} {ran.stderr!r}")
        self.try_file(lines, status, finished)
        self.put(lines, status, finished)
        ran = self.tested()
        demand(ran.returncode == 0 and ran.stdout.count(b"ok") == 2 and not ran.stderr, f"right values: {ran.stdout!r} {ran.stderr!r}")
        if not lines:
            return "no stream"
        form, changed, other, named, place = mistaken(self.rng, lines, status, finished)
        self.put(changed, other, finished)
        ran = self.tested()
        told = ran.stdout.decode().splitlines()[2:-1]
        demand(ran.returncode == 1 and any(it.startswith(f"# {named}") for it in told), f"`{named}` isn't in {ran.stdout!r} {ran.stderr!r}")
        if place:
            name, value = named.split(":")[0], named.split(" is ")[1].split(",")[0]
            demand(any(it.startswith(f"# {streams[name][1]}:{place} = {value} needs") for it in told), f"no needs of {streams[name][1]}:{place} in {told}")
        wrong = [it for it in told if NAMED.fullmatch(it)]
        # a stream that was lost doesn't say any more that the run is stopped
        more = form == "lose" and status == 3 and len(lines) == 1
        demand(len(wrong) == 1 + (form == "rename" or more), f"more than `{named}` in {told}")
        return form

    def try_file(self, lines, status, finished):
        """What --update wrote."""
        with open(f"{self.at}.values", encoding="utf-8") as file:
            told = file.read().splitlines()
        wanted = [f"{name}:{''.join(f' {it}' for it in values)}{'' if finished else ' ..'}" for name, values in lines.items()]
        demand(told == wanted + [f"status {status}"] * has_status(lines, status), f"--update wrote {told}, not {wanted}")


def one(test, kahn, explain, live, at, seed):
    trial = Trial(test, kahn, explain, live, at, seed)
    try:
        return None, trial.try_all()
    except Wrong as wrong:
        return str(wrong), f"{at}.kahn"


if __name__ == "__main__":
    sys.exit(fuzz.drive(one, programs=4))
