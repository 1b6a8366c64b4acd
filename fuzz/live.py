"""Random programs whose inputs come in lines: what the built kahn_live prints, against the report of kahn on the same values.

    live.py KAHN_LIVE KAHN [COUNT] [SEED]     the same seed makes the same texts; without one it is chosen at random

The values of all input channels come in lines of one to four, in any order, and a line after them is refused, so that the ends are reported.
Those of a stream, line after line, have to be a beginning of it; if both have finished the same, with ends and events, if these were reported."""
import random
import sys

import causes
import fuzz
import reference as ref

ENOUGH = 100000


def case(seed):
    """A program with values on its input channels, these as an input text, and as lines in which they come one after the other."""
    rng, lines = random.Random(seed), []
    while not lines:
        maker = rng.choice((causes.Maker, fuzz.Maker))(rng)
        text, source = maker.program(), maker.input()
        try:
            checked = ref.checked_of(text.encode())
            left = {checked.channels[c][0]: [str(v).lower() for v in values] for c, values in ref.input_of(checked, source.encode()).items()}
        except ref.Fault:
            continue
        while names := [name for name, values in left.items() if values]:
            name, most = rng.choice(names), rng.randint(1, 4)
            lines.append(f"{name}: {' '.join(left[name][:most])}\n")
            del left[name][:most]
    return text, source, "".join(lines), rng.choice((ENOUGH, ENOUGH, 1000, 3))


def read(text):
    """The values of each stream by what stands before the colon, and the lines of a report's ends."""
    streams, lines = {}, text.decode().splitlines()
    ends = [line for line in lines if line.startswith(("end ", "finished", "stopped"))]
    for name, _, values in (line.partition(":") for line in lines if line not in ends):
        streams.setdefault(name, []).extend(values.split())
    return {name: values for name, values in streams.items() if values}, ends


def difference(ran, whole, step):
    """What is wrong with a live run, or None."""
    (streams, stray), (_, told), (solution, ends) = map(read, (ran.stdout, ran.stderr, whole))
    finished = [not lines or lines[-1].startswith("finished") for lines in (told, ends)]
    good = not stray and ran.returncode in ((0, 1) if finished[0] else (3,)) and (finished[0] or not finished[1] or step < ENOUGH)
    if all(finished):
        good = good and streams == solution and told in ([], ends)
    good = good and all(one == other for name in streams.keys() & solution.keys() for one, other in zip(streams[name], solution[name]))
    return None if good else f"status {ran.returncode}, {streams} {stray} {told}, not {solution} {ends}"


def one(live, kahn, at, seed):
    """(what differs or None, the live run's last line or the texts' path)."""
    text, source, lines, step = case(seed)
    path = fuzz.write(f"{at}.kahn", text)
    fuzz.write(f"{at}.lines", lines)
    whole = fuzz.asked(kahn, path, "--input", fuzz.write(f"{at}.input", source), "--bound", str(ENOUGH), "--workers", "1").stdout
    ran = fuzz.asked(live, path, "--step", str(step), text=lines.encode() + b"refused\n")
    what = difference(ran, whole, step)
    return what, "finished" if what is None and ran.returncode < 2 else f"{path} --step {step} < {at}.lines" if what else "stopped"


if __name__ == "__main__":
    sys.exit(fuzz.drive(one, programs=2))
