"""Sessions: commands, each with what it prints and answers.

A session is a file tests/FOLDER/NAME.t. Lines with two spaces before them are the session; the others are for the reader, and the last one
before a command names it:

    A channel to oneself.
      $ kahn_explain one.kahn | head -n 1; exit ${PIPESTATUS[0]}
      deadlock: 1 copy waits on itself
      ! a line of standard error
      [7]

`$ ` begins a command for bash, `> ` continues it, `! ` begins a line of standard error, and the status is in brackets, unless it is 0.
Where a command after `% ` fails, its output says why the rest isn't tried. Other lines are standard output. Commands run in a folder with
the files beside the session, the repository's examples, and the programs on the path. (It is cram's format, with standard error apart.)

A page has commands between lines of three backticks, of which the first one begins with `$ `; one that has `<< END` goes on through the line
END, and one that ends with a backslash in the next line. They run in a copy of this tree, and print on both streams what the page shows. A
command by one of TOOLS is left out if that isn't installed, and what comes from ADDRESS is left to tests/release/newcomer.t."""
import glob
import os
import re
import shutil
import signal
import subprocess
import threading

from common import NAMES, TOP, read, write

TOOLS = ("dot", "gnuplot", "m4", "perl", "prove")
SECONDS = 600
NAMED = re.compile(r"\b(?:docs/[\w/-]+\.md|(?:checks|tests|fuzz|bench|web)/[a-z0-9_/-]+\.(?:py|sh|c|t|txt))\b")


class Row:
    """A command with its name, its place, and what is wanted of it."""

    def __init__(self, name, start, is_condition):
        self.name, self.start, self.is_condition, self.command, self.wanted = name, start, is_condition, [], []

    def wants(self):
        """Standard output, standard error and status."""
        status = re.fullmatch(r"\[(\d+)\]", self.wanted[-1]) if self.wanted else None
        lines = self.wanted[:-1] if status else self.wanted
        told = [line.removeprefix("! ").removeprefix("!") for line in lines if re.match("!( |$)", line)]
        shown = [line for line in lines if not re.match("!( |$)", line)]
        return *("".join(f"{line}\n" for line in it).encode() for it in (shown, told)), int(status[1]) if status else 0


def rows_of(path):
    """The rows of a session."""
    name, row = "", None
    for number, line in enumerate(read(path).decode().split("\n"), 1):
        if line.startswith(("  $ ", "  % ")):
            row = Row(name, number, line[2] == "%")
            row.command.append(line[4:])
            yield row
        elif line.startswith("  > ") or line == "  >":
            row.command.append(line[4:])
        elif line.startswith("  "):
            row.wanted.append(line[2:])
        elif line.strip():
            name = line.strip().rstrip(".:")


def ran(command, folder, path, joined=False, **variables):
    """What bash makes of a command: standard output, standard error, status. What it began is killed after a time."""
    words = {"PATH": f"{path}:{os.environ['PATH']}", "LC_ALL": "C.UTF-8", "TOP": TOP, **variables}
    run = subprocess.Popen(["bash", "-c", command], cwd=folder, env={**os.environ, **words}, stdin=subprocess.DEVNULL, stdout=subprocess.PIPE,
                           stderr=subprocess.STDOUT if joined else subprocess.PIPE, start_new_session=True)
    late = threading.Timer(SECONDS, os.killpg, (run.pid, signal.SIGKILL))
    late.start()
    out, err = run.communicate()
    late.cancel()
    return out, err, run.returncode


def try_session(path, programs, folder, only, tried, **variables):
    """Tries the rows of a session in this new folder. With a word only those count that have it in their names. Gives what they gave. If
    begin.sh is beside the session, each command begins with that."""
    shutil.copytree(os.path.dirname(path), folder, ignore=shutil.ignore_patterns("*.t"))
    os.symlink(f"{TOP}/examples", f"{folder}/examples")
    begin, given = ["source ./begin.sh"] * os.path.exists(f"{folder}/begin.sh"), []
    for row in list(rows_of(path)):
        result = ran("\n".join(begin + row.command), folder, programs, **variables)
        if row.is_condition and result[2]:
            print(result[0].decode(), end="", flush=True)
            tried.passed += 1
            break
        given.append((row, result))
        if only in row.name and not row.is_condition:
            tried.same(f"{os.path.relpath(path, TOP)}:{row.start}: {row.name}", result, row.wants())
    return given


def rewrite(path, given):
    """Writes what the commands gave in place of what was wanted."""
    lines = read(path).decode().split("\n")
    for row, (out, err, status) in reversed(given):
        at = row.start - 1 + len(row.command)
        told = [f"  {line}" for line in out.decode().split("\n")[:-1]] + [f"  ! {line}" for line in err.decode().split("\n")[:-1]]
        lines[at : at + len(row.wanted)] = told + ([f"  [{status}]"] if status else [])
    write(path, "\n".join(lines))


def sessions_in(place):
    """The sessions of folders, or the one, by the path from the top."""
    return sorted(glob.glob(f"{TOP}/{place}" if place.endswith(".t") else f"{TOP}/{place}/*.t"))


def pages():
    return ["README.md", "CONTRIBUTING.md", "bench/README.md", *(os.path.relpath(path, TOP) for path in sorted(glob.glob(f"{TOP}/docs/**/*.md", recursive=True)))]


def commands(page, top=TOP):
    """The commands of a page: (number of the line, command, what it prints)."""
    lines = read(f"{top}/{page}").decode().split("\n")
    marks = [number for number, line in enumerate(lines) if line.startswith("```")]
    for start, end in zip(marks[::2], marks[1::2]):
        block = lines[start + 1 : end]
        if not block or not block[0].startswith("$ "):
            continue
        heads = [number for number, line in enumerate(block) if line.startswith("$ ")] + [len(block)]
        for head, following in zip(heads, heads[1:]):
            last = block.index("END", head) + 1 if "<< END" in block[head] else head + 1
            while block[last - 1].endswith("\\"):
                last += 1
            if "ADDRESS" not in block[head]:
                yield start + 2 + head, "\n".join(block[head:last])[2:], "".join(line + "\n" for line in block[last:following])


def missing(command):
    """The tools that a command needs and this machine lacks."""
    return [tool for tool in re.findall(rf"(?:^|[|;&(] *)({'|'.join(TOOLS)})\b", command) if not shutil.which(tool)]


def tree_of(programs, folder):
    """Makes this folder, with links to everything at the top of this tree, but the programs, which are those of the other folder."""
    os.mkdir(folder)
    for name in os.listdir(TOP):
        os.symlink(f"{programs if name in NAMES else TOP}/{name}", f"{folder}/{name}")
    return folder


def try_pages(folder, names, only, tried):
    """Runs the commands of pages in a folder; with a word only those count that have it in them. The files that a page names have to be there."""
    for page in names:
        lost = sorted(path for path in set(NAMED.findall(read(f"{TOP}/{page}").decode())) if not os.path.exists(f"{TOP}/{path}"))
        tried.same(f"{page}: files that aren't there", lost, [])
        for number, command, wanted in commands(page):
            if missing(command):
                print(f"{page}:{number}: not run, there is no {' '.join(missing(command))}")
                continue
            given = ran(command, folder, folder, joined=True)[0].decode(errors="backslashreplace")
            if only in command:
                tried.same(f"{page}:{number}: {command}", given.rstrip("\n"), wanted.rstrip("\n"))
