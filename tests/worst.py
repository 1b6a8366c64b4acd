"""The worst texts that are known, worst.txt, most of about the most bytes that there may be, against limits on processor time and memory.

Each text is read by all four programs. None may take more than four times as long as a fixed piece of work beside it, which is two seconds of
a quiet host (user and system), or 300 MB. Those that may take more are named as limits by docs/formats.md."""
import concurrent.futures
import itertools
import os
import subprocess
import tempfile

import texts
from common import NAMES, TOP, measured_well, write

MOST, MOST_INPUT = 1048576, 16777216
LIMITS = "4 300 "


def variables():
    """As many variables of four letters as there is room for, of 256 instances."""
    every = itertools.product("xyzqvujkhgbcd", *["abcdefghijklmnopqrstuvwxyz"] * 3)
    return ["".join(it) for it in itertools.islice(every, (MOST - 2095) // 5)]


def alike(hashed):
    """Names that a table with this hash and no secret puts into one place."""
    with tempfile.TemporaryDirectory() as folder:
        subprocess.run([os.environ.get("CC", "cc"), "-O3", "-march=native", "-o", f"{folder}/it", f"{TOP}/tests/hash_search.c"], check=True)
        return subprocess.run([f"{folder}/it", hashed, "16000", "2047", "4"], capture_output=True, check=True, text=True).stdout.split()


def try_case(name, case, paths, folder):
    """What each program takes for a text: a line, and whether that is good."""
    text, given = f"{folder}/{name}", os.devnull
    values = {"variables": lambda: {"names": variables()}, "hash": lambda: {"alike": alike("sip")}, "hash_default": lambda: {"alike": alike("fold")}}.get(name, dict)()
    made = texts.expanded(case[""], values, MOST)
    assert len(made.encode()) <= MOST, (name, len(made.encode()))
    write(f"{text}.kahn", made)
    if "<" in case:
        given = write(f"{text}.input", texts.expanded(case["<"], {}))
        assert os.path.getsize(given) <= MOST_INPUT
    times, megabytes, why = case.get("%", LIMITS).split(" ", 2)
    words = dict(line.partition(" ")[::2] for line in texts.expanded(case.get("$", ""), {}).split("\n"))
    told = []
    for program in case.get("?", " ".join(NAMES)).split():
        more = words.get(program, "").replace("BLANKS", f"{folder}/blanks.input").split()
        more += ["--input", given] if given != os.devnull and program in ("kahn", "kahn_explain") else []
        status, took, room, good = measured_well(int(times), [paths[program], f"{text}.kahn", *more], given=given if program == "kahn_live" else os.devnull)
        line = f"{name}: {program} {took:.2f} s, {room // 1024} MB{why and f' ({why})'}"
        told.append((line, f"status {status}", good and 0 <= status <= 8 and room <= 1024 * int(megabytes)))
    return told


def try_worst(paths, folder, only, tried):
    """All cases, or those that have the word in their names."""
    write(f"{folder}/blanks.input", b"\n" * MOST_INPUT)
    cases = [(name, case) for name, case in texts.sections(f"{TOP}/tests/worst.txt") if only in name]
    with concurrent.futures.ThreadPoolExecutor(os.cpu_count()) as pool:
        for line, wrong, good in itertools.chain.from_iterable(pool.map(lambda it: try_case(*it, paths, folder), cases)):
            print(line, flush=True)
            tried.same(f"{line}: {wrong}", good)
