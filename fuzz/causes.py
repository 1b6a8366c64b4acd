"""Random networks that stop: why each process waits, as kahn_explain says it, against what the report of kahn and the tree say.

    causes.py KAHN_EXPLAIN KAHN [COUNT] [SEED]     the same seed makes the same texts; without one it is chosen at random

Who waits on whom is read off the report's end lines and the wiring of reference.py, the places of waits off its tree. Whoever has gone as
many waits onward as there are instances, and still waits on one of them, is in a ring, whose mending is told once. Both forms are compared:
each cause once, with those that wait because of it, and each process (`--all`). What is said to be for ever is tried: reference.py runs the
network on a longer input, and each such process has to end there as it did; if it has a fault, the place where that came has to be one of
those that are told, or not told beside twenty others. A difference is printed, and its texts are kept."""
import functools
import random
import re
import sys

import fuzz
import reference as ref

WARNED = re.compile(r"[^\n]*:\d+:\d+: warning: ")
NOTE = r"[^\n]*:(\d+:\d+): note: or here\n[^\n]*\n[^\n]*\n"
UNTOLD = r"and (?:1 place|\d+ places) more\n"
PLACED = re.compile(rf"(?m)^[^\n]*:(\d+:\d+): error: ((\d+) \w+ (?:waits on|has a fault)[^\n]*)\n[^\n]*\n[^\n]*\n((?: *= [^\n]*\n)*)((?:{NOTE})*(?:{UNTOLD})?)")
REFERRED = re.compile(r"(?m)^(\d+) \w+ has a fault, \w+: see (\d+) \w+$")
OWN = "its own queue is empty: let it send before it waits"
RING = "this ring wants a first value (let one of its processes send before it waits), or one of them takes more than another sends: kahn_explain --trace shows what came"
GO_ON = "--bound N with a greater N lets the run go on"
FOR_EVER = ("ring", "ended", "fault overflow", "fault division")


class Maker(fuzz.Maker):
    """Networks of short processes, each with what it does to its channels in an order of its own."""

    INSTANCES, CHANNELS = 12, 20

    def process(self, name, shape):
        if self.chance(0.15):
            return super().process(name, shape)
        ports = [(f"U{k}", way, kind) for k, (way, kind) in enumerate(shape)]
        steps = [self.step(*port) for port in ports if self.chance(0.95)]
        steps += [self.step(*self.r.choice(ports)) for _ in range(self.r.randint(0, 2)) if ports]
        self.r.shuffle(steps)
        first = [self.step(*port) for port in ports if port[1] == "out" and self.chance(0.3)]
        steps = [step for step in steps if step] + ([self.pick("I := 12 div (3 - I)", "I := I * 9223372036854775807")] if self.chance(0.12) else [])
        turn = "I := I + 1; " + "; ".join(steps)
        form = self.r.random()
        body = f"repeat begin {turn} end" if form < 0.55 else f"while I < {self.r.randint(1, 4)} do begin {turn} end" if form < 0.8 else turn
        groups = "; ".join(f"{kind}{'' if way == 'value' else ' ' + way} {port}" for port, way, kind in ports)
        return f"process {name}({groups}); begin integer I; logical B; {'; '.join(first + [body])} end"

    def step(self, port, way, kind):
        if way == "in":
            return f"{'I' if kind == 'integer' else 'B'} := wait({port})"
        return "" if way == "value" else f"send {'I' if kind == 'integer' else 'B'} on {port}"


def case(seed):
    """A program, an input, and the words of the command line for a run by one worker."""
    rng = random.Random(seed)
    while True:
        maker = Maker(rng)
        text = maker.program()
        try:
            checked = ref.checked_of(text.encode())
            source = maker.input()
            inputs = ref.input_of(checked, source.encode())
        except ref.Fault:
            continue
        bound = rng.choice((0, 3, 10, 100, 1000, 3000, 3000, 3000))
        return text, source, checked, inputs, ["--bound", str(bound), "--quantum", str(rng.choice((1, 2, 10, 1000)))], rng


def ends_of(checked, report):
    """How each instance stands, what it waits on and its events; and the last line."""
    lines = report[:-1].split("\n")
    found = [ref.END.match(line) for line in lines[-1 - len(checked.instances):-1]]
    names = {name: c for c, (name, _, _, _) in enumerate(checked.channels)}
    return [(m.group(3), names.get(m.group(4)), int(m.group(5))) for m in found], lines[-1]


def awaited(checked, ends, p):
    """The instance that p waits on, or None."""
    channel = ends[p][1]
    return None if channel is None or checked.channels[channel][2] == "input" else checked.writer[channel][0]


def cause(checked, ends, p):
    """(why, z, round): what the waits of p lead to, the instance by which that is told, and whether they lead back to p."""
    first = p
    for _ in ends:
        onward = awaited(checked, ends, p)
        if onward is None:
            return ("an input" if ends[p][1] is not None else ends[p][0]), p, False
        p = onward
    ring = [p]
    while awaited(checked, ends, ring[-1]) != p:
        ring.append(awaited(checked, ends, ring[-1]))
    return "ring", min(ring), first in ring


def taken(count, fed):
    """How many values there were on an input, all of which are taken."""
    nothing = f", to which nothing came: {'the input text has no values for it' if fed else '--input FILE brings values'}"
    return [nothing, ", of which the one value is taken"][count] if count < 2 else f", of which all {count} values are taken"


def waits_in(part, name):
    """Where the waits on a name begin, in the order of the text."""
    if part[0] == "wait":
        return [part[1][0]] if part[2][1] == name else []
    return [at for inner in part if isinstance(inner, (tuple, list)) and inner for at in waits_in(inner, name)]


def spots(checked, text, channel):
    """The places of the waits on a channel."""
    number, k = checked.reader[channel]
    _, _, params, _, body = checked.globals[checked.instances[number][0][1]][1]
    return [ref.spot(text.encode(), at) for at in waits_in(body, params[k][2][1])]


def named(checked, z):
    return f"{z + 1} {checked.instances[z][0][1]}"


def those(checked, found, one, several):
    """Up to four instances by their names, or how many they are, and what they do."""
    if len(found) > 4:
        return f"{len(found)} processes{several}"
    names = [named(checked, p) for p in found]
    return (" and ".join([", ".join(names[:-1]), names[-1]]) if names[1:] else names[0]) + (several if names[1:] else one)


def line_of(checked, text, inputs, ends, p):
    """What is said of an instance that hasn't ended, without the place of a deadlock."""
    who, (word, channel, events) = functools.partial(named, checked), ends[p]
    if word == "wants more":
        return f"{who(p)} wants more, after {events} event{'' if events == 1 else 's'}"
    if channel is None:
        first = next(z for z, (other, _, _) in enumerate(ends) if other == word and checked.instances[z][0][1] == checked.instances[p][0][1])
        return f"{who(p)} has a fault, {word.split()[1]}" + (f": see {who(first)}" if first != p else "")
    name, writer = checked.channels[channel][0], awaited(checked, ends, p)
    why, z, is_round = cause(checked, ends, p)
    at = spots(checked, text, channel)
    told = at[:1] + (at[1:] if len(at) < 4 else [f"{len(at) - 1} places more"])
    out = f"{who(p)} waits on {name}" + ("" if is_round else f" at {' or '.join(told)}")
    out += ", an input" + taken(len(inputs.get(channel, [])), any(inputs.values())) if writer is None else f" from {who(writer)}"
    if is_round:
        return f"{out}, in a deadlock: for ever"
    if why == "an input" and z == p:
        return out
    return f"{out}, as {who(z)} {'has ended' if why == 'ended' else 'goes no further'}" + ": for ever" * (why in FOR_EVER)


def below(checked, ends, causes, p, waiting):
    """The sentences below the line of an instance."""
    is_first = p in causes and causes[p][:2] == ("ring", p)
    out = ["  = " + (OWN if awaited(checked, ends, p) == p else RING)] if is_first else []
    if waiting:
        lasts = ": for ever" if causes[waiting[0]][0] in FOR_EVER else ""
        out.append(f"  = {those(checked, waiting, ' waits', ' wait')} because of it{lasts}")
    return out


def verdict_of(checked, inputs, ends, causes, last):
    """What came of the run, in one line."""
    faults, more = (sum(word.startswith(kind) for word, _, _ in ends) for kind in ("fault", "wants more"))
    out = [f"{faults} process{' has' if faults == 1 else 'es have'} a fault"] * (faults > 0)
    firsts = sorted({z for why, z, _ in causes.values() if why == "ring"})
    if firsts[1:]:
        out.append(f"{len(firsts)} deadlocks")
    elif firsts:
        out.append("deadlock: " + those(checked, [p for p, (_, _, is_round) in causes.items() if is_round], " waits on itself", " wait on one another"))
    if last.startswith("stopped by bound"):
        out.append("stopped by the bound" + (f": {more} process{' wants' if more == 1 else 'es want'} more events" if more else ""))
    fed = [c for c, values in inputs.items() if values]
    is_taken = fed and all(any(channel == c for _, channel, _ in ends) for c in fed)
    return "; ".join(out) or "no deadlock and no fault" + "; all input was taken" * bool(is_taken)


def counts_of(checked, inputs, last):
    """How many values each channel had and its reader took, and how many turns and prints each process did, of a run that finished; else nothing."""
    network = ref.Network(checked, inputs)
    if not last.startswith("finished") or not network.run(int(last.split()[1])):
        return [], []
    taken = {c: n for p in network.processes for c, n in p.taken.items()}
    others = [p.events - sum(p.taken.values()) - sum(len(sent) for line, sent in p.sent.items() if line != "print") for p in network.processes]
    return [(len(network.tape(c)), taken.get(c, 0)) for c in range(len(checked.channels))], others


def are_events(rows, others, ends):
    """Whether the events that the report tells of each process are what it sent and took by these rows, and its turns and prints."""
    sent = [sum(int(row[3 + side]) for row in rows for side in (0, 1) if row[1 + side].startswith(f"{p + 1} ")) for p in range(len(ends))]
    return [events for _, _, events in ends] == [both + other for both, other in zip(sent, others)]


def untaken(checked, counts):
    """The line on the channel of which most values are left that a process reads, if of one some are."""
    left = [(sent - taken) * (role != "output") for (sent, taken), (_, _, role, _) in zip(counts, checked.channels)]
    most = max(left, default=0)
    if most == 0:
        return []
    c = left.index(most)
    sent, name = counts[c][0], checked.channels[c][0]
    if most == sent > 1:
        return [f"none of the {sent} values of {name} was taken"]
    some = f"{most} of the {sent} values" if sent > 1 else "the value"
    return [f"{some} of {name} {'was' if most == 1 else 'were'} never taken"]


def wanted_of(checked, text, inputs, ends, last):
    """The explanation by its causes and of each process, its status, and the causes of those that wait or have a fault."""
    open_ones = [p for p, (word, _, _) in enumerate(ends) if word != "ended"]
    causes = {p: cause(checked, ends, p) for p in open_ones}
    lines = {p: line_of(checked, text, inputs, ends, p) for p in open_ones}
    each = [line for p in open_ones for line in [lines[p], *below(checked, ends, causes, p, [])]]
    once = []
    for z, (word, _, _) in enumerate(ends):
        waiting = [p for p in open_ones if causes[p][1] == z and p != z and not causes[p][2]]
        if word == "ended" and waiting:
            once += [f"{named(checked, z)} has ended", *below(checked, ends, causes, z, waiting)]
        elif word != "ended" and causes[z][1] == z:
            members = [p for p in open_ones if causes[p][1] == z and causes[p][2]] or [z]
            once += [line for p in members for line in [lines[p], *below(checked, ends, causes, p, waiting if p == z else [])]]
    first, end = [verdict_of(checked, inputs, ends, causes, last), *untaken(checked, counts_of(checked, inputs, last)[0])], [GO_ON] * last.startswith("stopped by bound") + [last]
    told = tuple("".join(line + "\n" for line in [*first, *lines, *end]) for lines in (once, each))
    whys = [why for why, _, _ in causes.values()]
    status = 8 if any(word.startswith("fault") for word, _, _ in ends) else 7 if "ring" in whys else 3 if last.startswith("stopped by bound") else 0
    return told, status, {p: (why, z) for p, (why, z, _) in causes.items() if why != "wants more" or z != p}


def without_places(told):
    """The same without the places of deadlocks and faults, and these: the lines and columns by the number of the process, and whether these are all."""
    places = {int(it.group(3)) - 1: ([it.group(1), *re.findall(NOTE, it.group(5))], re.search(UNTOLD, it.group(5)) is None) for it in PLACED.finditer(told)}
    for it in REFERRED.finditer(told):
        places[int(it.group(1)) - 1] = places[int(it.group(2)) - 1]
    return PLACED.sub(lambda it: it.group(2) + "\n" + re.sub("(?m)^ *=", "  =", it.group(4)), told), places


def differs(ran, wanted, status, placed):
    """What is wrong with an explanation, or None, and the places that it tells."""
    got, places = without_places(ran.stdout.decode())
    before = got[:-len(wanted)]
    known = all(places[p][0] == at[:20] for p, at in placed.items() if at and p in places)
    if not got.endswith(wanted) or set(places) != set(placed) or not known or before and not WARNED.match(before) or ran.returncode != status or ran.stderr:
        return f"status {ran.returncode}, not {status}, {got!r}, not {wanted!r}, {placed} {ran.stderr[:200]!r}", places
    return None, places


def lasts(checked, inputs, ends, causes, text, places, rng):
    """What isn't for ever of what is said to be, by a longer input; or how many processes were looked at."""
    longer = {}
    for c, (_, kind, role, _) in enumerate(checked.channels):
        more = [rng.randint(-5, 5) if kind == "integer" else rng.random() < 0.5 for _ in range(rng.randint(0, 6))]
        if role == "input":
            longer[c] = inputs.get(c, []) + more
    network = ref.Network(checked, longer)
    finished = network.run(4000)
    count = 0
    for p, (why, _) in causes.items():
        if why in FOR_EVER:
            it = network.processes[p]
            now = network.state(it)
            if it.events > ends[p][2] or finished and (now, it.events) != (ends[p][0], ends[p][2]):
                return f"{p + 1} {ends[p]}, and with a longer input {now} after {it.events}"
            told, all_told = places.get(p, ([], True))
            if it.failed_at is not None and (all_told or len(told) != 20) and ref.spot(text.encode(), it.failed_at) not in told:
                return f"{p + 1} {now} at {ref.spot(text.encode(), it.failed_at)}, which isn't told"
            count += finished
    return count


def one(explain, kahn, at, seed):
    """(None, the causes and how many of them were tried), or (what differs, the texts' paths)."""
    number = seed * 1000
    while True:
        text, source, checked, inputs, words, rng = case(number)
        words = [fuzz.write(f"{at}.kahn", text), "--input", fuzz.write(f"{at}.input", source), *words, "--workers"]
        ran = fuzz.asked(kahn, *words, "1")
        ends, last = ends_of(checked, ran.stdout.decode())
        wanted, status, causes = wanted_of(checked, text, inputs, ends, last)
        if causes:
            break
        number += 1
    workers = str(rng.choice((1, 4, 16))) if last.startswith("finished") else "1"
    faulted = {p: None for p, (word, _, _) in enumerate(ends) if word.startswith("fault")}
    placed = faulted | {p: spots(checked, text, ends[p][1]) for p in causes if cause(checked, ends, p)[2]}
    for told, more in zip(wanted, ([], ["--all"])):
        ran = fuzz.asked(explain, *words, workers, *more)
        wrong, places = differs(ran, told, status, placed)
        if wrong:
            return wrong, " ".join(words + more)
    counts, others = counts_of(checked, inputs, last)
    if counts:
        rows = [row.split(",") for row in fuzz.asked(explain, *words, workers, "--channels").stdout.decode().splitlines()[1:]]
        if [tuple(map(int, row[3:])) for row in rows] != [(sent, taken, sent - taken) for sent, taken in counts] or not are_events(rows, others, ends):
            return f"{rows}, not {counts} {others} {ends}", " ".join(words + ["--channels"])
    tried = lasts(checked, inputs, ends, causes, text, places, rng)
    if isinstance(tried, str):
        return tried, " ".join(words)
    return None, ([why for why, _ in causes.values()], tried)


def tell(given):
    """How many waits had each reason, and how many were tried with a longer input."""
    fuzz.tell_kinds(why for whys, _ in given for why in whys)
    print(f"{sum(tried for _, tried in given):6} for ever, tried with a longer input")


if __name__ == "__main__":
    sys.exit(fuzz.drive(one, programs=2, tell=tell))
