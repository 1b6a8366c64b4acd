"""Checks a change, in a minute, in some minutes, or in whole.

  try [quick]    no prover: the limits of the house, layout among them, what must be believed, grammars, and rows and commands of the
                 pages on the programs that stand, built here or released
  try mine       proves and builds the programs over what earlier checks kept, tries the must-fail edits of the crates that were changed,
                 runs the tests, and tries the programs that were built
  try programs   tries the programs that stand, built here or released, as the gate does
  try all        the gate: reads the texts, proves every crate with its tests and must-fail edits, and tries the programs that this left

Changed is what differs from the main line: from the merge base with origin/main or main, or from the commit that TRY_BASE names. Each part
of checks/parts.txt ends with a line "N passed, M failed", and the last line adds these up. One that fails doesn't stop the others."""
import concurrent.futures
import os
import re
import subprocess
import sys

sys.path.append(f"{os.path.dirname(os.path.abspath(__file__))}/../tests")
import texts
from common import NAMES, TOP

BUILT = {name.upper(): f"{TOP}/crates/{name}/out/{name}" for name in (*NAMES, "kahn_crowd")}
PARTS = {heading: dict(line.split(": ", 1) for line in parts[""].split("\n")) for heading, parts in texts.sections(f"{TOP}/checks/parts.txt")}
WELL = "&& echo 1 passed, 0 failed"
total = [0, 0]


def stop(*words):
    """Says what is missing, before anything is tried."""
    print(*words, file=sys.stderr)
    sys.exit(print("0 passed, 1 failed") or 2)


def part(name, command, is_heard=True):
    """Runs a part, whose output is heard as it comes, or given as a whole."""
    heard = []
    with subprocess.Popen(["bash", "-c", command], stdout=subprocess.PIPE, stderr=subprocess.STDOUT, stdin=subprocess.DEVNULL, text=True, errors="replace") as run:
        for line in run.stdout:
            heard.append(line)
            print(line, end="", flush=True) if is_heard else None
    return name, "".join(heard), run.wait()


def tell(name, output, status):
    """Adds up the last line of a part. One that doesn't count, or counts nothing, has failed once."""
    found = re.search(r"^(\d+) passed, (\d+) failed\n?\Z", output, re.M)
    passed, failed = map(int, found.groups()) if found else (0, 0)
    if not failed and (status or not passed):
        failed = 1
        print(f"FAILED {name}: status {status}, and not 0 with a last line that counts what passed")
    total[:] = total[0] + passed, total[1] + failed
    return not failed


def in_turn(parts):
    return [print(f"== {name}", flush=True) or tell(*part(name, command)) for name, command in parts.items()]


def beside(parts):
    """Parts side by side, each within an hour, since the host may be busy. They are told in order."""
    with concurrent.futures.ThreadPoolExecutor(os.cpu_count()) as pool:
        for found in pool.map(lambda it: part(it[0], f"timeout 3600 {it[1]}", False), parts.items()):
            print(f"== {found[0]}\n{found[1]}", end="", flush=True)
            tell(*found)


def said(script, *words):
    """What a script of bash says that knows where programs are."""
    return subprocess.run(["bash", "-c", f'top=$1; source "$top/release/program.sh"; {script}', "bash", TOP, *words], stdout=subprocess.PIPE, text=True).stdout.strip()


def stand_in():
    """Lets the variables name the programs that stand: of these sources, or else those that were built here, or else the released ones."""
    found = 'find_built "$2" 2> /dev/null && echo "$program"'
    other = [name for name in NAMES if not said(found, name)]
    for name in NAMES:
        is_there = os.access(BUILT[name.upper()], os.X_OK)
        os.environ[name.upper()] = said(found, name) or (BUILT[name.upper()] if is_there else said('find_unpacked "$2" && echo "$program"', name)) or stop(f"there is no program {name}")
    return f"not known to be of these sources, so that these were not tried as they stand: {' '.join(other)} (./try mine builds them)" if other else ""


def need(command, words):
    if subprocess.run(["bash", "-c", command], stdout=subprocess.DEVNULL).returncode:
        stop(words)


def need_compiler():
    need("${CC:-cc} -fsyntax-only tests/*.c", "a C compiler (CC or cc) and the headers are missing: they are in the Debian packages gcc and libc6-dev")


def programs(is_gate=False):
    need_compiler()
    other = "" if is_gate else stand_in()
    os.environ.setdefault("SEED", "1")
    os.environ.setdefault("KAHN_CROWD", BUILT["KAHN_CROWD"])
    beside({**PARTS["programs"], **PARTS["quick"], **(PARTS["crowd"] if os.access(os.environ["KAHN_CROWD"], os.X_OK) else {})})
    print(other, end="\n" * bool(other))


def quick():
    other = stand_in()
    beside(PARTS["quick"])
    in_turn(PARTS["texts"])
    print(other, end="\n" * bool(other))


def mine():
    need("command -v rt", "the Rattle toolchain (rt) is not on the path")
    base = '"${TRY_BASE:-$(git merge-base HEAD origin/main 2> /dev/null || git merge-base HEAD main 2> /dev/null || echo HEAD)}"'
    paths = subprocess.run(["bash", "-c", f"git diff --name-only {base} -- crates; git ls-files --others --exclude-standard crates"], stdout=subprocess.PIPE, text=True).stdout
    names = sorted(set(re.findall(r"^crates/(\w+)/(?:src|specs|proofs|must-fail)/", paths, re.M)))
    print(f"changed: {' '.join(names) or 'nothing'}")
    in_turn(PARTS["texts"])
    if names:
        in_turn({"programs, with all that they stand on": f"bash release/build.sh {WELL}",
                 "the library of the page": f"cd crates/kahn_web && rt check {WELL}",
                 "the program whose workers begin at once": f"cd crates/kahn_crowd && rt run -- --help {WELL}",
                 **{f"must-fail edits of {it}": f"rt must-fail {it}" for it in names if os.path.isdir(f"crates/{it}/must-fail")},
                 "kahn_rows": f"cd crates/kahn_rows && rt test {WELL}"})
        programs()


def gate():
    need("command -v rt", "the Rattle toolchain (rt) is not on the path")
    need_compiler()
    os.environ.update(BUILT)
    in_turn(PARTS["texts"])
    of = said('read_sources; echo "$standing"')
    if all(in_turn({"rt ci": "rt ci"})):
        for name in NAMES:
            print(said('stamp "$2" "$3" 2>&1', name, of), end="")
    programs(is_gate=True)
    print(f"processor time: {sum(os.times()[:4]) / 60:.1f} minutes")


def main(word="quick"):
    if word not in ("quick", "mine", "programs", "all"):
        print(__doc__.strip(), file=sys.stdout if word in ("-h", "--help") else sys.stderr)
        return 0 if word in ("-h", "--help") else 2
    os.chdir(TOP)
    {"quick": quick, "mine": mine, "programs": programs, "all": gate}[word]()
    print(f"{total[0]} passed, {total[1]} failed")
    return bool(total[1])


if __name__ == "__main__":
    sys.exit(main(*sys.argv[1:]))
