"""The page, in a headless Chromium or Firefox: what the module in it answers compared byte for byte with the programs, and what the page makes of it.

    web.py                                            tries release/kahn.html, or the one that the variable PAGE names, in the browsers that are there
    web.py BROWSER PAGE KAHN KAHN_DRAW KAHN_EXPLAIN   runs the rows of tests/rows, the examples and what is refused, and tries the page
    web.py BROWSER PAGE --tries                       tries the page alone
    web.py BROWSER PAGE --opens                       opens the page, which shows a report at once
    web.py BROWSER PAGE --pictures                    takes the pictures of the page in docs/pictures"""
import glob
import json
import os
import re
import shutil
import subprocess
import sys
import tempfile

import browser
import common
import rows
import web_tries
from common import TOP

SECONDS = 330
SECONDS_TO_OPEN = 60

# So long a report may have its histories compared.
MOST_LETTERS_KEPT = 200000
STATES = {"ended": "ended", "wants": "ready", "waits": "waits", "fault": "fault"}
# The line that the page leaves out: it shows which values wait on each arrow.
UNTAKEN = re.compile(rb"^(?:\d+|none) of the \d+ values of .* taken\n|^\S+ holds \d+ values that .* taken\n", re.MULTILINE)
STEPPED = ["count", "squares", "filter", "double", "pipeline", "rates"]


def cases():
    """Those rows whose words are a bound at most: (name, program, input, bound). A page has no limits of processor time."""
    for name, files in [*rows.kept_rows(), *rows.table_rows(), *rows.rule_rows()]:
        words = files.get("words", b"").decode().split()
        if words[:1] in ([], ["--bound"]) and len(words) in (0, 2) and "limits" not in files:
            try:
                yield name, files["program.kahn"].decode(), files.get("input", b"").decode(), (words or ["", "1000000"])[1]
            except UnicodeDecodeError:
                pass


def native(kahn, draw, explain, program, text, bound, folder):
    """What the programs answer: status, report or fault, picture if there is one, why the run stopped or the program is refused, and the histories."""
    for name, it in (("program", program), ("input", text)):
        common.write(f"{folder}/{name}", it)
    words = [kahn, "--workers", "1", "--bound", bound, "--input", f"{folder}/input", f"{folder}/program"]
    ran = subprocess.run(words, capture_output=True, timeout=60)
    drawn = subprocess.run([draw, f"{folder}/program"], capture_output=True, timeout=60)
    reasons = b""
    if ran.returncode in (0, 1, 3, 4) and len(program.encode()) <= 1 << 15:
        words = [explain, "--all", "--workers", "1", "--bound", bound, "--input", "input", "program"]
        reasons = UNTAKEN.sub(b"", subprocess.run(words, capture_output=True, timeout=60, cwd=folder).stdout, count=1)
    table = {}
    if ran.returncode in (0, 3, 4) and len(ran.stdout) <= MOST_LETTERS_KEPT:
        table = traced(explain, bound, f"{folder}/program", "--input", f"{folder}/input")
    return ran.returncode, ran.stdout + ran.stderr, drawn.stdout, reasons, table


def traced(explain, bound, *words):
    """The histories of all channels and prints, as the table of `kahn_explain --trace` has them."""
    told = subprocess.run([explain, "--trace", "--workers", "1", "--bound", bound, *words], capture_output=True, timeout=60, text=True).stdout
    heads, *rows = ([*it.split(",")[1:]] for it in told.splitlines())
    return {head: [row[i] for row in rows if row[i]] for i, head in enumerate(heads)}


def histories_of(whole):
    """The same of the text of a run that keeps all channels, where as many values were sent as are told, and no more taken."""
    found, counts = {}, {}
    for line in whole.splitlines():
        head, colon, rest = line.partition(":")
        words = head.split()
        if words[0] == "count":
            found[words[1]], counts[words[1]] = [], [int(it) for it in rest.split()]
        elif colon and words[0] != "end":
            found[head] = rest.split()
    if any(len(found[it]) != sent or taken > sent for it, (sent, taken) in counts.items()):
        return counts
    return found


def compare_rows(page, tried, *programs):
    """Runs the rows in the page, and compares what its module answers with what the programs answer."""
    every = list(cases())
    answers = [it for at in range(0, len(every), 50) for it in page.value(f"answersOf({json.dumps([it[1:] for it in every[at : at + 50]])}, {MOST_LETTERS_KEPT})")]
    with tempfile.TemporaryDirectory() as folder:
        for (name, *case), (status, *texts, whole) in zip(every, answers, strict=True):
            given = status, *(it.encode() for it in texts), histories_of(whole)
            for part, mine, theirs in zip(("status", "report", "picture", "reasons", "histories"), given, native(*programs, *case, folder)):
                tried.same(f"{name}, {part}", mine, theirs)
    print(f"{len(every)} rows")


def step_of(report):
    """What the page has to show of the processes of a report."""
    processes = []
    for line in report.splitlines():
        head, colon, rest = line.partition(":")
        words = head.split()
        if words[0] == "end":
            state, *on = rest.split()
            on = {"waits": on[1:2], "fault": on[:1]}.get(state, [])
            processes.append([int(words[1]), words[2], STATES[state], "".join(on), int(rest.split()[-1])])
    return processes


def compare_steps(page, tried, kahn, explain):
    """At every bound the page shows what the report of `kahn --bound` says, and the histories of `kahn_explain --trace --bound`."""
    for name in STEPPED:
        path = f"{TOP}/examples/{name}"
        text = common.text_of(f"{path}.input") if os.path.exists(f"{path}.input") else ""
        steps = page.value(f"momentsOf(...{json.dumps([common.text_of(f'{path}.kahn'), text])})")
        texts = [f"{path}.kahn", *(["--input", f"{path}.input"] if text else [])]
        for k, (processes, streams) in enumerate(steps):
            ran = subprocess.run([kahn, "--workers", "1", "--bound", str(k), *texts], capture_output=True, timeout=60, text=True)
            tried.same(f"{name} at {k}", processes, step_of(ran.stdout))
            tried.same(f"{name} at {k}, histories", dict(streams), traced(explain, str(k), *texts))


def try_in(program, path, *words):
    """Tries the page in one browser, and gives how much passed and failed. One start in fifty or so doesn't come to an answer on a machine that
    is full of work, so a run has a second try."""
    for _ in range(2):
        ran = subprocess.run(["timeout", "340", sys.executable, __file__, program, path, *words], stdout=subprocess.PIPE, stderr=subprocess.STDOUT, text=True)
        if not re.search("no answer in time|waited for", ran.stdout):
            break
    print(ran.stdout, end="", flush=True)
    counted = re.search(r"(\d+) passed, (\d+) failed\Z", ran.stdout.rstrip())
    return map(int, counted.groups()) if counted else (0, 1)


def try_modules(tried):
    """The modules that need no browser, in node if that is there."""
    node = shutil.which("node")
    if not node:
        print("the page's modules are not tried by themselves: there is no node")
        return
    with tempfile.TemporaryDirectory() as folder:
        for it in [*glob.glob(f"{TOP}/web/page/*.js"), f"{TOP}/tests/page/modules.mjs"]:
            shutil.copy(it, folder)
        common.write(f"{folder}/package.json", '{"type": "module"}')
        ran = subprocess.run([node, "--test", "modules.mjs"], capture_output=True, timeout=SECONDS, text=True, cwd=folder)
    tried.same("modules of the page in node", ran.returncode == 0 or ran.stdout[-4000:])


def try_browsers():
    """The page in Chromium (Debian's package chromium, or the one that BROWSER names) against the programs; alone in Debian's firefox-esr. What
    isn't there, or isn't of these sources, is said, and counts as one pass."""
    path, chromium, tried = os.environ.get("PAGE", f"{TOP}/release/kahn.html"), shutil.which(os.environ.get("BROWSER", "chromium")), common.Tried()
    try_modules(tried)
    is_ours = "PAGE" in os.environ or not subprocess.run(["bash", "-c", 'top=$1; source "$top/web/page.sh"; is_page_released', "bash", TOP]).returncode
    runs = [(chromium, path, *map(common.program, ("kahn", "kahn_draw", "kahn_explain")))] if chromium and is_ours else []
    runs += [(it, path, "--tries") for it in [shutil.which("firefox-esr")] if runs and it]
    for run in runs:
        passed, failed = try_in(*run)
        tried.passed, tried.failed = tried.passed + passed, tried.failed + failed
    if not runs:
        print("the page is not tried: " + ("it isn't of these sources: `bash web/build.sh` makes it" if chromium else "there is no browser (Debian's package chromium)"))
        tried.passed += 1
    return tried.finish()


def main(program, path, *words):
    tried = common.Tried()
    try:
        kind = browser.Firefox if "firefox" in program else browser.Chromium
        with kind(program, path, SECONDS_TO_OPEN if words[0] == "--opens" else SECONDS, web_tries.SCRIPT) as page:
            page.value("until(settled)")
            tried.same("a report when it opens", page.value("at('report').textContent"), common.text_of(f"{TOP}/examples/squares.report"))
            if words[0] == "--pictures":
                web_tries.try_session(page, f"{TOP}/docs/pictures/page.t", tried)
            elif words[0] != "--opens":
                web_tries.try_page(page, tried)
            if not words[0].startswith("--"):
                page.open()
                compare_steps(page, tried, words[0], words[2])
                compare_rows(page, tried, *words)
    except (RuntimeError, TimeoutError) as error:
        tried.same("the page", str(error), "an answer")
    return tried.finish()


if __name__ == "__main__":
    sys.exit(main(*sys.argv[1:]) if sys.argv[1:] else try_browsers())
