"""What all tests share: the programs that are tried, and counts of what passed."""
import difflib
import os
import pathlib
import subprocess
import sys
import tempfile
import unittest

sys.dont_write_bytecode = True
TOP = os.path.dirname(os.path.dirname(os.path.abspath(__file__)))
sys.path.append(f"{TOP}/fuzz")
YARDSTICK = [sys.executable, "-c", "x = list(range(2_000_000)); x.sort(key=lambda it: -it)"]
NAMES = ("kahn", "kahn_live", "kahn_draw", "kahn_explain")
# What runs these, from the top of this tree.
SCRIPTS = ("kahn_test", "kahn_build")
FIND = 'top=$1; source "$top/release/program.sh"; find_built "$2" && echo "$program"'
# The program whose workers all begin at once, which isn't released.
CROWD = os.path.realpath(os.environ.get("KAHN_CROWD", f"{TOP}/crates/kahn_crowd/out/kahn_crowd"))


def program(name):
    """The path of a program: the one that a variable such as KAHN_LIVE names, or else that of this tree, as ./kahn_live finds it."""
    path = os.environ.get(name.upper())
    if not path:
        path = subprocess.run(["bash", "-c", FIND, "bash", TOP, name], stdout=subprocess.PIPE, text=True).stdout.strip()
    path = os.path.realpath(path)
    return path if os.access(path, os.X_OK) else sys.exit(f"there is no program {path}")


def measured(words, given=os.devnull, error=os.devnull, output=os.devnull, most=20, folder=None):
    """The status of a program, its seconds of processor time, of which it may take so many, and its most memory in kB."""
    with open(given, "rb") as it, open(output, "wb") as told, open(error, "wb") as said:
        run = subprocess.Popen(["bash", "-c", f'ulimit -t {most}; exec "$@"', "bash", *words], cwd=folder, stdin=it, stdout=told, stderr=said)
        _, status, used = os.wait4(run.pid, 0)
    run.returncode = os.waitstatus_to_exitcode(status)
    return run.returncode, used.ru_utime + used.ru_stime, used.ru_maxrss


def measured_well(most, *words, **more):
    """The same, and whether it took at most so many times as long as a fixed piece of work (half a second on a quiet host) takes at that
    moment: a busy host makes both slow. The quickest of some runs counts."""
    for _ in range(4):
        status, seconds, room = measured(*words, **more)
        good = seconds <= most / 8 or seconds <= most * measured(YARDSTICK)[1]
        if good:
            break
    return status, seconds, room, good


def read(path):
    return pathlib.Path(path).read_bytes()


def text_of(path):
    return read(path).decode()


def write(path, text):
    pathlib.Path(path).write_bytes(text if isinstance(text, bytes) else text.encode())
    return path


def difference(given, wanted):
    """What differs: of tuples the first part that does, and of texts the lines from about the first byte that does."""
    if isinstance(given, tuple) and isinstance(wanted, tuple) and len(given) == len(wanted):
        return next(difference(*pair) for pair in zip(given, wanted) if pair[0] != pair[1])
    if not isinstance(given, (str, bytes)) or not isinstance(wanted, type(given)):
        return f"{given!r:.600}, wanted {wanted!r:.600}"
    start = max(0, len(os.path.commonprefix([given, wanted])) - 200)
    parts = [it[start : start + 2000] for it in (wanted, given)]
    lines = [(it if isinstance(it, str) else it.decode(errors="backslashreplace")).split("\n") for it in parts]
    return "\n".join(["", *difflib.unified_diff(*lines, "wanted", "given", n=2, lineterm="")])


class Tried:
    """Counts what passed and failed."""

    def __init__(self, quiet=False):
        self.passed, self.failed, self.quiet, self.told = 0, 0, quiet, ""

    def fail(self, what):
        self.failed, self.told = self.failed + 1, what
        print("" if self.quiet else f"FAILED {what}\n", end="", flush=True)

    def same(self, name, given, wanted=True):
        if given == wanted:
            self.passed += 1
        else:
            self.fail(f"{name}: {difference(given, wanted)}")

    def finish(self):
        """Prints the last line, and gives the status."""
        print(f"{self.passed} passed, {self.failed} failed")
        return 1 if self.failed or not self.passed else 0


class Room(unittest.TestCase):
    """Tests in a folder of their own, with the examples and tests/programs."""

    def setUp(self):
        room = tempfile.TemporaryDirectory()
        self.addCleanup(room.cleanup)
        self.folder = room.name
        for name in ("examples", "tests/programs"):
            os.symlink(f"{TOP}/{name}", f"{self.folder}/{os.path.basename(name)}")

    def put(self, **texts):
        """Files by their names."""
        for name, text in texts.items():
            write(f"{self.folder}/{name}", text)

    def same(self, name, given, wanted=True):
        """One case of a test."""
        with self.subTest(name):
            self.assertEqual(given, wanted)

    def ran(self, *words, text=b"", **variables):
        """Standard output, standard error and status of a command, which runs in the folder."""
        done = subprocess.run(words, cwd=self.folder, input=text, capture_output=True, env={**os.environ, **variables}, timeout=600, check=False)
        return done.stdout.decode(), done.stderr.decode(), done.returncode

    def refusing(self, source):
        """The library that refuses a program something, compiled."""
        library = f"{self.folder}/refuse.so"
        subprocess.run([os.environ.get("CC", "cc"), "-shared", "-fPIC", "-O1", "-o", library, f"{TOP}/tests/{source}", "-ldl"], check=True)
        return library
