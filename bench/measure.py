"""Times of the workloads, by interleaved runs of the whole program.

    measure.py [--runs N] [WORKLOAD ..]      without names all workloads; nine runs each, or N, by the program that ./kahn runs
    measure.py --beside [--runs N]           beside other languages

The first prints, for each workload, the events; the milliseconds with 1, 2, 4 and 16 workers, medians; and for the last three the time by
the clock and that of all processors as multiples of those of one worker. The second prints seconds of processor time, least of the runs.
What isn't on the machine is left out there: go, ghc, luajit, lua5.4, pypy3 (Debian's packages golang, ghc, luajit, lua5.4, pypy3). What
each prints for a workload must be what kahn prints for it, but for the ends of its processes.
"""
import shutil
import statistics
import subprocess
import sys
import tempfile
import time

sys.dont_write_bytecode = True
import workloads
from common import program as program_of

WORKERS = (1, 2, 4, 16)
BOUND = ("--bound", str(2**48 - 1))
# name: the workload, its sizes, and further words of the command line
WORKLOADS = {
    "counting": ("../examples/count.kahn",), "pipeline": ("pipeline", 1_000_000), "sample": ("sample", 200_000), "pipelines": ("pipelines", 10_000),
    "arithmetic": ("arithmetic", 10_000_000), "ring": ("ring", 4_000), "ring-against": ("ring_against", 4_000), "chain": ("chain", 4_000),
    "farm": ("farm", 4_000_000), "farm-7": ("farm", 4_000_000, "--quantum", "7"), "farm-63": ("farm", 4_000_000, "--quantum", "63"),
    "two": ("farm", 8_000_000, 2), "late": ("serial", 120_000, 8_000_000), "later": ("serial", 2_000_000, 8_000_000), "stages": ("stages", 60_000),
    "operators": ("operators", 400_000), "dealt": ("dealt", 30_000), "star-40": ("star", 50_000, 40), "star-200": ("star", 10_000, 200),
}
# A peer: its tool, how it is built, and the words of a run before and behind the workload's name and size.
PEERS = {
    "Haskell's lists": ("ghc", ["ghc", "-v0", "-O2", "-outputdir", "ROOM/hs", "-o", "ROOM/haskell", f"{workloads.HERE}/beside.hs"], ["ROOM/haskell"], []),
    "Go, room 1,024": ("go", ["go", "build", "-o", "ROOM/go", f"{workloads.HERE}/beside.go"], ["ROOM/go"], ["1024"]),
    "Go, no room": ("go", [], ["ROOM/go"], ["0"]),
    "LuaJIT": ("luajit", [], ["luajit", f"{workloads.HERE}/beside.lua"], []),
    "Lua": ("lua5.4", [], ["lua5.4", f"{workloads.HERE}/beside.lua"], []),
    "PyPy": ("pypy3", [], ["pypy3", f"{workloads.HERE}/beside.py"], []),
}


def ran(words):
    """Seconds by the clock and of all processors, and what was printed."""
    with tempfile.TemporaryFile() as out:
        start = time.perf_counter()
        used = workloads.used(words, stdout=out)
        taken = time.perf_counter() - start
        out.seek(0)
        return taken, used.ru_utime + used.ru_stime, out.readlines()


def measure(name, ways, runs):
    """Prints the line of a workload."""
    times = {way: [] for way in ways}
    for _ in range(runs):
        for way, words in ways.items():
            *taken, told = ran(words)
            times[way].append(taken)
    clock, used = ({way: statistics.median(it[which] for it in found) for way, found in times.items()} for which in (0, 1))
    print(f"{name:13} {int(told[-1].split()[-1]):10}" + "".join(f" {clock[way] * 1000:8.1f}" for way in WORKERS), end="")
    print("".join(" |" + "".join(f" {of[way] / of[1]:5.2f}" for way in WORKERS[1:]) for of in (clock, used)), flush=True)


def compare(name, ways, runs):
    """Prints the line of a workload beside other languages."""
    least, wanted = dict.fromkeys(ways, float("inf")), None
    for _ in range(runs):
        for peer, words in ways.items():
            _, used, told = ran(words)
            least[peer], streams = min(least[peer], used), [line for line in told if line.startswith((b"W", b"print"))]
            wanted = streams if peer == "kahn" else wanted
            if streams != wanted:
                sys.exit(f"{peer} prints something else for {name}")
    print(f"{name:12}" + "".join(f" {least[peer]:16.3f}" for peer in ways), flush=True)


def beside(kahn, runs, room):
    def put(words):
        return [word.replace("ROOM", room) for word in words]

    peers = {name: peer for name, peer in PEERS.items() if shutil.which(peer[0])}
    for _, build, _, _ in peers.values():
        subprocess.run(put(build) or ["true"], check=True)
    print(f"{'':12}" + "".join(f" {name:>16}" for name in ("kahn", *peers)))
    for name in ("pipeline", "sample", "pipelines", "arithmetic"):
        size = WORKLOADS[name][1]
        text = workloads.made(name, size).replace("send", "print(I); send", int(name == "sample"))  # as Kahn's own f
        ways = {"kahn": [kahn, workloads.put(room, name, text), "--workers", "1", *BOUND]}
        compare(name, ways | {peer: [*put(before), name, str(size), *behind] for peer, (_, _, before, behind) in peers.items()}, runs)


def main(*words):
    is_beside, words = words[:1] == ("--beside",), [word for word in words if word != "--beside"]
    kahn, (runs, names) = program_of("kahn"), (int(words[1]), words[2:]) if words[:1] == ["--runs"] else (9, words)
    unknown = [name for name in names if name not in WORKLOADS]
    if unknown:
        sys.exit(f"no workload {unknown[0]}: there are {', '.join(WORKLOADS)}")
    with tempfile.TemporaryDirectory() as room:
        if is_beside:
            return beside(kahn, runs, room)
        print(f"{'':13} {'events':>10} {'1 worker':>8} {'2':>8} {'4':>8} {'16':>8} | clock: 2, 4, 16 | processors")
        for name in names or WORKLOADS:
            workload, *more = WORKLOADS[name]
            sizes = [it for it in more if isinstance(it, int)]
            path = workloads.put(room, name, workloads.made(workload, *sizes) if sizes else workloads.text_of(f"{workloads.HERE}/{workload}"))
            measure(name, {way: [kahn, path, *more[len(sizes):], "--workers", str(way), *BOUND] for way in WORKERS}, runs)


if __name__ == "__main__":
    main(*sys.argv[1:])
