"""Whether work grows no faster than texts and inputs do (growth.txt, texts.py).

A text has n, 2n and 4n of a part: the work that the last 2n take is at most 2.3 times the work that the n before them take. What costs the square
has 4. If what is read or written grows more than twice, work may grow by as much more.

run.py growth      some texts and commands, the rows `=>`. `valgrind` counts the blocks of machine instructions that a run enters, which are the
                   same each time. Without it nothing is counted, and one thing passed.
growth.py [-k PATTERN] [-c PATTERN] [--bytes N] [--jobs N]
                   the search: each text of at most N bytes, on one line and on many, by each command of its groups, by processor time. It
                   prints a line for each, first `FOUND`, `known` (a row `%`) or `good`. What seems to grow is measured three times."""
import argparse
import concurrent.futures
import fnmatch
import itertools
import os
import re
import resource
import shutil
import subprocess
import sys
import tempfile

sys.dont_write_bytecode = True
import texts
from common import NAMES, TOP, program, write

MOST, MOST_INPUT = 1048576, 16777216
GROWTH, SECONDS, MEGABYTES = 2.3, 1, 300
# What a step has to take before it is judged: seconds, megabytes, bytes.
LEAST_SECONDS, LEAST_MEGABYTES, LEAST_BYTES = 0.03, 60, 2000
KILLED_AFTER, MOST_ROOM = 5, 5 << 30
READS = ["kahn", "kahn_explain", "kahn_explain --json", "kahn_draw", "kahn_live"]
RUNS = [
    *READS,
    "kahn --workers 1",
    "kahn --bound $bound",
    "kahn_explain --check",
    "kahn_explain --bound $bound",
    "kahn_explain --all --bound $bound",
    "kahn_explain --strict",
    "kahn_explain --trace --bound $bound",
    "kahn_explain --channels --bound $bound",
    "kahn_explain --needs B --bound $bound",
    "kahn_explain --needs B:1 --bound $bound",
    "kahn_explain --needs B:$n --bound $bound",
    "kahn_explain --wakes A:1 --bound $bound",
    "kahn_explain --wakes A:$n --bound $bound",
    "kahn_draw --input @INPUT --bound $bound",
    "kahn_live --in A --step $bound",
    "kahn_live --in A --out B --step $bound",
]
GROUPS = {"reads": READS, "runs": RUNS}


class Case:
    """A text with one part, on one line or on many."""

    def __init__(self, name, lines, unit, broken):
        self.lines, self.unit, self.broken = lines, unit, broken
        self.values = dict(word.split("=") for word in lines.get("$", "").split())
        self.label = f"{name}: {unit}{' (lines)' if broken else ''}"

    def commands(self):
        words = self.lines.get("?", "runs").split("\n")
        return list(dict.fromkeys(itertools.chain.from_iterable(GROUPS.get(word, [word]) for word in words)))

    def expanded(self, text, n):
        return texts.expanded(text.replace("@", self.unit), {"n": n, "bound": n * int(self.values.get("bound", 10))})

    def text(self, n):
        text = self.expanded(self.lines[""], n)
        return text.replace(";", ";\n").replace(" par ", " par\n") if self.broken else text

    def input(self, n):
        return self.expanded(self.lines.get("<", ""), n)

    def most(self, room):
        """About the most parts that there is room for, a number that 16 divides."""
        n, most, rooms = 64, int(self.values.get("most", MOST)), (min(room, MOST), min(16 * room, MOST_INPUT))
        for room, made in zip((MOST, MOST_INPUT) if "most" in self.values else rooms, (self.text, self.input)):
            first, second = len(made(n).encode()), len(made(2 * n).encode())
            most = min(most, (room - first) * n // (second - first)) if second > first else most
            while (size := len(made(most).encode())) > room:
                most = most * room * 99 // (size * 100)
        return most // 16 * 16

    def put(self, n, folder):
        """The files of the text and the input, and how many bytes they have."""
        files = write(f"{folder}/{n}.kahn", self.text(n)), write(f"{folder}/{n}.input", self.input(n))
        return files, sum(map(os.path.getsize, files))

    def words(self, command, n, files, paths):
        """The words of a command, and the file of its standard input."""
        name, *words = self.expanded(command.replace("@INPUT", "INPUT"), n).split()
        more = ["--input", files[1]] if "<" in self.lines and name in ("kahn", "kahn_explain") else []
        return [paths[name], files[0], *(files[1] if word == "INPUT" else word for word in words), *more], files[1] if name == "kahn_live" else os.devnull

    def known(self, command):
        """The most that this may grow, and why, if that is more than the limit."""
        for row in filter(None, self.lines.get("%", "").split("\n")):
            words, unit, why = row.split(" | ")
            most, known = words.split(" ", 1)
            if fnmatch.fnmatchcase(command, known) and fnmatch.fnmatchcase(self.unit + " (lines)" * self.broken, unit):
                return float(most), why
        return GROWTH, ""


def all_cases():
    for name, lines in texts.sections(f"{TOP}/tests/growth.txt"):
        for unit, broken in itertools.product(lines.get("->", "").split("\n"), (False, True)):
            yield Case(name, lines, unit, broken)


def gate_rows():
    """Cases, each with a number of parts and a command."""
    for name, lines in texts.sections(f"{TOP}/tests/growth.txt"):
        for row in filter(None, lines.get("=>", "").split("\n")):
            words, _, unit = row.partition(" | ")
            n, command = words.split(" ", 1)
            unit = unit or lines.get("->", "").split("\n")[0]
            yield Case(name, lines, unit, command.startswith("lines ")), int(n), command.removeprefix("lines ")


def growth(three, least):
    """How many times as much the second step takes as the first; 0 if it takes less than the least."""
    first, second = three[1] - three[0], three[2] - three[1]
    return second / max(first, second / 100) if second >= max(least, 1e-9) else 0


def allowed(*sizes):
    """How many times as much work may grow as it does where all sizes double."""
    return max(1, *(growth(three, LEAST_BYTES) / 2 for three in sizes))


def counted(words, given, folder):
    """Blocks that a run enters, and bytes that it writes."""
    log, out = f"{folder}/log", f"{folder}/out"
    with open(given, "rb") as it, open(out, "wb") as told:
        subprocess.run(["valgrind", "--tool=none", "--stats=yes", f"--log-file={log}", *words], stdin=it, stdout=told, stderr=told, check=False)
    with open(log, errors="replace") as it:
        return int(re.search(r"scheduler: ([\d,]+) event checks", it.read())[1].replace(",", "")), os.path.getsize(out)


def try_row(case, top, command, paths, folder):
    """What a row grows by, the most that it may, and why."""
    blocks, made, wrote = [], [], []
    os.mkdir(folder)
    for n in (top // 4, top // 2, top):
        files, size = case.put(n, folder)
        count, bytes_out = counted(*case.words(command, n, files, paths), folder)
        for sizes, it in ((blocks, count), (made, size), (wrote, bytes_out)):
            sizes.append(it)
    grown = growth(blocks, blocks[2] / 50) / allowed(made, wrote)
    return f"{case.label}, {top}: {command}: {grown:.2f}, {blocks[2]} blocks", grown, *case.known(command)


def try_growth(paths, folder, only, tried):
    """The rows, or those that have the word in their texts. An exception that isn't needed any more fails."""
    if not shutil.which("valgrind"):
        print("there is no valgrind: nothing is counted")
        return tried.same("growth", True)
    rows = [row for row in gate_rows() if only in row[0].label]
    with concurrent.futures.ThreadPoolExecutor(os.cpu_count()) as pool:
        for line, grown, most, why in pool.map(lambda it: try_row(*it[1], paths, f"{folder}/{it[0]}"), enumerate(rows)):
            print(line, flush=True)
            tried.same(f"{line}: grows by at most {most}", grown <= most)
            tried.same(f"{line}: needs no exception: {why}", not why or grown > GROWTH)


def limited():
    resource.setrlimit(resource.RLIMIT_CPU, (KILLED_AFTER, KILLED_AFTER))
    resource.setrlimit(resource.RLIMIT_AS, (MOST_ROOM, MOST_ROOM))


def measured(words, given):
    """Seconds of processor time of a run, its megabytes, the bytes that it wrote, and its status."""
    with open(given, "rb") as it:
        run = subprocess.Popen(words, stdin=it, stdout=subprocess.PIPE, stderr=subprocess.STDOUT, preexec_fn=limited)
    with run.stdout:
        wrote = sum(map(len, iter(lambda: run.stdout.read(1 << 20), b"")))
    _, status, used = os.wait4(run.pid, 0)
    run.returncode = os.waitstatus_to_exitcode(status)
    return used.ru_utime + used.ru_stime, used.ru_maxrss // 1024, wrote, run.returncode


def judged(rows, made):
    """What is too much about the runs of three sizes."""
    seconds, rooms, wrote, statuses = zip(*rows)
    if len(rows) == 3:
        grown = growth(seconds, LEAST_SECONDS) / allowed(made, wrote)
        wide = rooms[2] / rooms[1] / allowed(made)
        yield from [f"grows {grown:.1f}"] * (grown > GROWTH) + [f"memory grows {wide:.1f}"] * (rooms[2] > LEAST_MEGABYTES and wide > GROWTH)
    yield from [f"{seconds[-1]:.2f} s"] * (seconds[-1] > SECONDS or statuses[-1] < 0) + [f"{rooms[-1]} MB"] * (rooms[-1] > MEGABYTES)


def search(case, paths, words):
    """Prints a line for each command of a case."""
    with tempfile.TemporaryDirectory() as folder:
        top = case.most(words.bytes)
        sizes = (top // 4, top // 2, top)
        files, made = zip(*(case.put(n, folder) for n in sizes))
        for command in filter(re.compile(words.command).search, case.commands()):
            calls = [case.words(command, *it, paths) for it in zip(sizes, files)]
            rows = [measured(*it) for it in calls]
            for _ in range(2):
                if any(it.startswith("grows") for it in judged(rows, made)):
                    rows = [min(pair) for pair in zip(rows, (measured(*it) for it in calls))]
            marks, why = ", ".join(judged(rows, made)), case.known(command)[1]
            told = "good" if not marks else "known" if why else "FOUND"
            figures = "  ".join(f"{n}: {row[0]:.2f} s {row[1]} MB {row[2]} B" for n, row in zip(sizes, rows))
            print(f"{told} | {case.label} | {command} | {marks} | {made[-1]} bytes, status {rows[-1][3]} | {figures} | {why}\n", end="", flush=True)


def main():
    words = argparse.ArgumentParser(usage=__doc__)
    words.add_argument("-k", dest="only", default="")
    words.add_argument("-c", dest="command", default="")
    words.add_argument("--bytes", type=int, default=MOST)
    words.add_argument("--jobs", type=int, default=os.cpu_count())
    words = words.parse_args()
    paths = {name: program(name) for name in NAMES}
    with concurrent.futures.ProcessPoolExecutor(words.jobs) as pool:
        for job in [pool.submit(search, it, paths, words) for it in all_cases() if re.search(words.only, it.label)]:
            job.result()


if __name__ == "__main__":
    sys.exit(main())
