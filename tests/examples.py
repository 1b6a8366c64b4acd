"""The values of examples/ and of its library: kahn_test on both. A test of examples/library/tests is built with the library's file of its name."""
import glob
import os
import re
import shutil
import subprocess

from common import TOP

LIBRARY = f"{TOP}/examples/library"


def ran(*words):
    return subprocess.run(words, stdin=subprocess.DEVNULL, stdout=subprocess.PIPE, stderr=subprocess.STDOUT, text=True)


def try_examples(programs, work, only, tried):
    """With a word only those count that have it in their names."""
    built = f"{work}/built"
    shutil.copytree(f"{LIBRARY}/tests", built)
    for path in sorted(glob.glob(f"{LIBRARY}/*.kahn")):
        name = os.path.basename(path)
        done = ran(f"{programs}/kahn_build", f"{LIBRARY}/tests/{name}", path)
        tried.same(f"{name} is built", (done.returncode, done.stdout if done.returncode else ""), (0, ""))
        with open(f"{built}/{name}", "w") as out:
            out.write(done.stdout)
    for folder in (f"{TOP}/examples", built):
        done = ran(f"{programs}/kahn_test", folder)
        results = re.split(r"(?m)^(?=ok |not ok |1\.\.)", done.stdout)
        tried.same(f"{folder}: a plan", results[-1], f"1..{len(results) - 2}\n")
        for result in results[1:-1]:
            if only in result:
                tried.same(result, result.startswith("ok "))
