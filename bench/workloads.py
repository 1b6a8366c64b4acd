"""The workloads of bench/, as texts of programs by their size: NAME(SIZE ..) for each of workloads.txt, and for arithmetic.kahn (turns),
pipeline.kahn (values) and sample.kahn (turns)."""
import os
import re
import subprocess
import sys

HERE = os.path.dirname(os.path.abspath(__file__))
sys.path.append(f"{HERE}/../tests")
import texts
from common import text_of, write

KEPT = {"arithmetic": 10_000_000, "pipeline": 1_000_000, "sample": 200_000}


TEXTS = {heading.split()[0]: (heading.split()[1:], lines[""]) for heading, lines in texts.sections(f"{HERE}/workloads.txt")}


def made(name, *given):
    """The text of a workload of this size."""
    if name in KEPT:
        return text_of(f"{HERE}/{name}.kahn").replace(str(KEPT[name]), str(*given))
    words, text = TEXTS[name]
    values = {word.split("=")[0]: given[at] if at < len(given) else int(word.split("=")[1]) for at, word in enumerate(words)}
    return texts.expanded(text, values, texts={other: it for other, (_, it) in TEXTS.items()}) + "\n"


def instructions(words, room):
    """How many machine instructions a run takes, by `valgrind`."""
    ran = subprocess.run(["valgrind", "--tool=callgrind", f"--callgrind-out-file={room}/calls", *words], capture_output=True, text=True, check=True)
    return int(re.search(r"refs:\s+([\d,]+)", ran.stderr)[1].replace(",", ""))


def put(room, name, text):
    """A file for a program."""
    return write(f"{room}/{name}.kahn", text)


def used(words, **more):
    """What a run took, as `wait4` tells it; one that fails ends this script."""
    ran = subprocess.Popen(words, **more)
    _, status, took = os.wait4(ran.pid, 0)
    return took if status == 0 else exit(f"{words[0]} ended with {status}")
