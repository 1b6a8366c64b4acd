"""Random networks: what their values need, as kahn_explain tells it, against runs of kahn.

    needs.py KAHN_EXPLAIN KAHN [COUNT] [SEED]     the same seed makes the same texts; without one it is chosen at random

A value of an output, of a print stream or of a channel between processes is chosen. kahn runs the network on inputs that are cut to the
numbers of values told: the value comes and is the same. With one value less of one of them it doesn't come. In each run in which it comes,
each process has done the events told, and with a bound of one event less than all of them it doesn't come. The row of the value in the table
of its line says the same, and a table of a run that finished has a row for each value; the place after the last never comes. --wakes tells
the first row that has enough of an input. A difference is printed, and its texts are kept."""
import re
import subprocess
import sys

import causes
import fuzz
from reference import Fault, demand

REPLY = re.compile(r"(.+):(\d+) = (\S+) needs (.+)\nevents of (.+)\n\Z")
STREAM = re.compile(r"(?m)^(?:print (\d+) (\w+)|(\w+)):(.*)$")
ENDS = re.compile(r"(?m)^end (\d+) (\w+): .* after (\d+)$")
BOUND, MORE = 3000, 100000  # of the run that is asked about, and of one on inputs that are cut


class Trial:
    """A network with its texts in a folder, and the programs."""

    def __init__(self, explain, kahn, at, seed):
        self.explain, self.kahn, self.at = explain, kahn, at
        self.text, _, self.checked, inputs, _, self.rng = causes.case(seed)
        self.inputs = {name: list(inputs.get(c, ())) for c, (name, _, role, *_) in enumerate(self.checked.channels) if role == "input"}
        self.inner = [name for name, _, role, *_ in self.checked.channels if role == "inner"]
        fuzz.write(self.at + ".kahn", self.text)

    def run(self, program, inputs, *words):
        lines = (f"{name}: {' '.join(str(v).lower() for v in values)}\n" for name, values in inputs.items())
        source = fuzz.write(self.at + ".input", "".join(lines))
        return subprocess.run([program, self.at + ".kahn", "--input", source, "--workers", "1", *words], capture_output=True, text=True, timeout=600)

    def needs(self, asked):
        return self.run(self.explain, self.inputs, "--needs", asked, "--bound", str(BOUND))

    def report(self, inputs, line, bound=BOUND):
        """The values of a line in a run, the events of each process, and whether it finished."""
        watch = ["--watch", line] if line in self.inner else []
        out = self.run(self.kahn, inputs, "--bound", str(bound), *watch).stdout
        values = next((it.group(4).split() for it in STREAM.finditer(out) if line in (it.group(1), it.group(3))), [])
        return values, {f"{number} {name}": int(events) for number, name, events in ENDS.findall(out)}, "\nfinished " in "\n" + out

    def lines(self):
        """The lines with values, each with these."""
        names = [name for name, _, role, *_ in self.checked.channels if role != "input"] + [str(p + 1) for p in range(len(self.checked.instances))]
        return [(name, values) for name in names for values in [self.report(self.inputs, name)[0]] if values]


def counts_of(words):
    """The counts of a reply: for each name how many, and of how many."""
    found = [re.fullmatch(r"(.+): (\d+)(?: of (\d+))?", word) for word in words.split(", ")] if words != "no values" else []
    return {it.group(1): (int(it.group(2)), int(it.group(3)) if it.group(3) else None) for it in found}


def try_cut(trial, line, place, values):
    """Runs on inputs that are cut to these numbers of values, and gives the events of each process."""
    whole = {name: trial.inputs[name][:values.get(name, (0,))[0]] for name in trial.inputs}
    first = trial.report(trial.inputs, line)[0][:place]
    came, ends, _ = trial.report(whole, line, MORE)
    demand(came[:place] == first, f"not enough: {came[:place]}, not {first}")
    for name in trial.inputs:
        if values.get(name, (0,))[0] > 0:
            less = {**trial.inputs, name: trial.inputs[name][:values[name][0] - 1]}
            demand(len(trial.report(less, line, MORE)[0]) < place, f"one value of {name} too many")
    return ends


def try_row(trial, line, place, told, finished, count):
    """The row of a value in the table of its line."""
    ran = trial.needs(line)
    rows = [row.split(",") for row in ran.stdout.splitlines()]
    demand(not finished or (len(rows) - 1, ran.returncode) == (count, 0), f"{len(rows) - 1} rows, not {count}; status {ran.returncode}")
    row = {name: int(n) for name, n in zip(rows[0][2:], rows[place][2:]) if n != "0"}
    demand(row == {name: n for name, (n, _) in told.items()}, f"row {place}: {row}")
    name = trial.rng.choice(sorted(trial.inputs) or [None])
    if name is not None and line not in trial.inner:
        try_wakes(trial, line, rows, name)


def try_wakes(trial, line, rows, name):
    """The first value of the line that needs one of an input, by the line's table."""
    wanted, column = trial.rng.randint(1, len(trial.inputs[name]) + 1), rows[0].index(name)
    first = next((row[0] for row in rows[1:] if int(row[column]) >= wanted), None)
    ran = trial.run(trial.explain, trial.inputs, "--wakes", f"{name}:{wanted}", "--bound", str(BOUND))
    told = [row for row in ran.stdout.splitlines() if re.match(rf"{line}(?: \w+)?:", row)]
    right = f":{first} = {rows[int(first)][1]} needs " if first else ": no value needs it"
    demand(told and right in told[0], f"--wakes {name}:{wanted}: {ran.stdout!r}, not {right}")


def try_value(trial, line, place, all_values):
    """What is told of a value."""
    ran = trial.needs(f"{line}:{place}")
    reply = REPLY.match(ran.stdout)
    good = reply and ran.returncode == 0 and reply.group(2, 3) == (str(place), all_values[place - 1])
    demand(good, f"{ran.stdout!r}, {ran.stderr!r}, status {ran.returncode}")
    values, events = counts_of(reply.group(4)), counts_of(reply.group(5))
    _, whole, finished = trial.report(trial.inputs, line)
    ends = try_cut(trial, line, place, values)
    for name, (count, of) in events.items():
        is_so = ends[name] >= count and of == (whole[name] if finished else None)
        demand(is_so, f"events of {name}: {count} of {of}; {ends[name]}, {whole[name]}")
    demand(len(trial.report(trial.inputs, line, sum(n for n, _ in events.values()) - 1)[0]) < place, "an event too many")
    try_row(trial, line, place, {**values, **events}, finished, len(all_values))
    if finished:
        ran = trial.needs(f"{line}:{len(all_values) + 1}")
        demand(" never comes" in ran.stdout and ran.returncode == 0, f"the next: {ran.stdout!r}, status {ran.returncode}")


def one(explain, kahn, at, seed):
    trial = Trial(explain, kahn, at, seed)
    lines = trial.lines()
    if not lines:
        return None, "no value"
    line, values = trial.rng.choice(lines)
    place = trial.rng.randint(1, len(values))
    try:
        try_value(trial, line, place, values)
    except Fault as fault:
        return f"--needs {line}:{place}: {fault.text}", f"{at}.kahn"
    return None, "print" if line.isdigit() else "inner" if line in trial.inner else "output"


if __name__ == "__main__":
    sys.exit(fuzz.drive(one, programs=2))
