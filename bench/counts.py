"""Machine instructions of the workloads, which may only fall: the last line says how many are within their limits and how many aren't.

    counts.py KAHN [--limits | NAME ..]     KAHN is the program; --limits prints what was counted as a new file of limits

bench/limits.txt has a line for each workload and number of workers: its instructions for a unit (an event, a turn, a hop) when the
line was written. What is more than three per cent above that fails. They are exact for one worker, and for several as long as no
other thread is started: the slope between two sizes, by `valgrind`. Without it nothing is counted, and the last line says that one
thing passed.
"""
import os
import shutil
import sys
import tempfile

sys.dont_write_bytecode = True
import workloads
from common import Tried, text_of

ROOM = 1.03
# name: two sizes, the units of a size, and with how many workers, if not with one alone
WORKLOADS = {
    "arithmetic": (20_000, 60_000, 1),
    "polynomial": (20_000, 60_000, 1, 1, 4),
    "pipeline": (1_000, 3_000, 11),
    "sample": (1_000, 3_000, 9, 1, 4),
    "pipelines": (60, 180, 320),
    "ring": (20, 60, 256),
    "ring-against": (20, 60, 256),
}


def counted(kahn, name, workers, room):
    """Instructions for a unit of a workload."""
    small, large, units = WORKLOADS[name][:3]
    texts = (workloads.put(room, "p", workloads.made(name.replace("-", "_"), size)) for size in (small, large))
    first, second = (workloads.instructions([kahn, "--workers", str(workers), "--bound", "100000000", path], room) for path in texts)
    return (second - first) / ((large - small) * units)


def main(kahn, *words):
    if not shutil.which("valgrind"):
        print("there is no valgrind: nothing is counted\n1 passed, 0 failed")
        return 0
    rows = [line.split() for line in text_of(f"{workloads.HERE}/limits.txt").splitlines() if line.strip() and not line.startswith("#")]
    most, tried = {(name, int(workers)): float(most) for name, workers, most in rows}, Tried()
    with tempfile.TemporaryDirectory() as room:
        for name in [word for word in words if not word.startswith("--")] or WORKLOADS:
            for workers in WORKLOADS[name][3:] or (1,):
                found = counted(kahn, name, workers, room)
                print(f"{name} {workers} {found:.1f}", flush=True)
                if "--limits" not in words:
                    tried.same(f"{name} by {workers}: {found:.1f} instructions, and {most[name, workers]} before", found <= most[name, workers] * ROOM)
    return 0 if "--limits" in words else tried.finish()


if __name__ == "__main__":
    sys.exit(main(os.path.abspath(sys.argv[1]), *sys.argv[2:]))
