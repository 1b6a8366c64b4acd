"""What somebody does with the page: the sessions of tests/page, examples, mistakes, how it looks, and what a browser may lack."""
import glob
import json
import os
import re

import browser
import sessions
from common import TOP, read, text_of, write

HERE = f"{TOP}/tests/page"
PROGRAMS = {os.path.basename(it)[:-5]: text_of(it) for it in sorted(glob.glob(f"{HERE}/*.kahn"))}
SCRIPT = f"globalThis.programs = {json.dumps(PROGRAMS)};\n{text_of(f'{HERE}/begin.js')}"
EXAMPLES = sorted(os.path.basename(it)[:-5] for it in glob.glob(f"{TOP}/examples/*.kahn"))
# Bytes of the page, milliseconds to the first picture, milliseconds from a key to what it shows in a text of 100 kB. The times are
# twice what the page keeps on a machine with nothing else, since other tests go on beside this one.
MOST_BYTES, MOST_TO_OPEN, MOST_FOR_A_KEY = 460000, 1000, 400
TREE = f"{TOP}/tests/page-tree.txt"


def refused(page, word):
    """Whether the page's policy refused something with this word, which is then taken for told."""
    found = [it for it in page.told if word in it and "Policy" in it]
    page.told = [it for it in page.told if word not in it]
    return bool(found)


def lacks(page, *words):
    """Opens the page behind a script that takes something from the browser."""
    page.script = f"{SCRIPT}\n{' '.join(words)};"
    page.open()


DRIVEN = {"key": lambda page, *words: page.key(*words), "click": lambda page, *words: page.click(" ".join(words)),
          "open": lambda page, *words: page.open(*words), "size": lambda page, width, height, *scheme: page.size(int(width), int(height), *scheme),
          "refused": refused, "lacks": lacks, "shot": lambda page, name: page.shot(f"{TOP}/docs/pictures/{name}")}


def try_session(page, path, tried):
    """A session, whose commands are expressions of JavaScript, or what one does with a keyboard, a mouse and the address. What is wanted is
    JSON."""
    for row in list(sessions.rows_of(path)):
        command, wanted = "\n".join(row.command), "".join(row.wanted)
        word, *rest = command.split()
        given = DRIVEN[word](page, *rest) if word in DRIVEN else page.value(f"(async () => {{ const it = await ({command}); {'return it' * bool(wanted)}; }})()")
        if wanted:
            tried.same(f"{os.path.basename(path)}:{row.start}: {row.name}", given, json.loads(wanted))


def try_examples(page, tried):
    """Each has the kept report, letters of 8 px or more, and the whole picture in sight; and what is said of its events agrees with the module."""
    page.size(1400, 900)
    for name in EXAMPLES:
        page.value(f"shows('{name}')")
        if os.path.exists(f"{TOP}/examples/{name}.report"):
            tried.same(f"{name}, report", page.value("page.run.text"), text_of(f"{TOP}/examples/{name}.report"))
        looks = page.value("[lettersAreLarge(), pictureFits(), arrowsFit(), options(), picture.boxes.filter((it) => it.state.textContent).length - page.run.wiring.processes.length]")
        tried.same(f"{name}, letters, width, arrows, options, boxes", looks, [True, True, True, 0, 0])
    tried.same("all are in the list of examples", page.value("groups().flatMap((it) => it.list).length"), len(EXAMPLES))


def try_changes(page, tried):
    """Each change that is offered for a mistake takes its words away from there."""
    paths = sorted(glob.glob(f"{TOP}/tests/mistakes/*.kahn"))
    texts = [read(it).decode(errors="replace") for it in paths]
    offered = 0
    for path, (place, words, behind, said, is_offered) in zip(paths, page.value(f"changesOf({json.dumps(texts)})")):
        name = os.path.basename(path)[:-5]
        tried.same(f"{name}, a change can be applied", len(words) > 0 or not is_offered)
        tried.same(f"{name}, options", [it for it in said if re.search(r"(^|\s)--", it)], [])
        for change, left in zip(words, behind):
            offered += 1
            tried.same(f"{name}, {change}", left != [place, said[0]])
    tried.same("changes that are offered", offered > 10)


LEFT_OUT = {"none", "generic", "InlineTextBox", "LineBreak", "RootWebArea", "paragraph", "LabelText", "rowgroup"}
KEPT = ("invalid", "live", "orientation", "selected", "disabled", "hasPopup")


def tree_of(page):
    """What a reader of the screen is told: a line for each element, with its role, name and state, as deep as it stands."""
    nodes = {it["nodeId"]: it for it in page.call("Accessibility.getFullAXTree")["nodes"]}
    lines = []

    def walk(node, depth, above):
        role, name = (node.get(key, {}).get("value", other) for key, other in (("role", "none"), ("name", "")))
        is_told = not node.get("ignored") and role not in LEFT_OUT and (role != "StaticText" or name.strip() not in ("", above.strip()))
        if is_told:
            states = {it["name"]: it["value"].get("value") for it in node.get("properties", [])}
            told = [f"{key}={states[key]}" for key in KEPT if states.get(key) not in (None, False, "false", "off")]
            lines.append(" ".join(["  " * depth + role, json.dumps(name, ensure_ascii=False), *told]))
        for child in node.get("childIds", []):
            if child in nodes and role != "textbox":
                walk(nodes[child], depth + is_told, name if is_told else above)

    walk(next(it for it in nodes.values() if "parentId" not in it), 0, "")
    return "\n".join(lines) + "\n"


def try_reader(page, tried):
    page.value("shows('squares').then(() => (showTab('waits'), at('toast').replaceChildren()))")
    tree = re.sub(r"It took [0-9.]+ m?s", "It took some time", tree_of(page))
    if os.environ.get("KEEP_TREE"):
        write(TREE, tree)
    tried.same("what a reader of the screen is told", tree, text_of(TREE))
    live = "[...document.querySelectorAll('[role=status], [aria-live], [role=alert]')].map((it) => it.id)"
    tried.same("what is live", page.value(live), ["toast", "status"])
    page.value("showTab('table')")


def try_print(page, tried):
    page.value("shows('sieve')")
    page.call("Emulation.setEmulatedMedia", media="print")
    printed = "".join(page.value("document.body.innerText").split())
    for line in [line for end in ("kahn", "report") for line in text_of(f"{TOP}/examples/sieve.{end}").splitlines()]:
        tried.same(f"`{line}` is printed", "".join(line.split()) in printed or printed[-200:])
    tried.same("buttons are not printed", "Download" in printed, False)
    hidden = "[...document.querySelectorAll('.scroll')].filter((it) => it.checkVisibility() && it.scrollHeight > it.clientHeight + 1).map((it) => it.id)"
    tried.same("nothing is cut off in print", page.value(hidden), [])
    page.call("Emulation.setEmulatedMedia", media="")


def least(measured, fewest, most, limit):
    """The least of some times: of so many, or of more if these are above the limit."""
    times = []
    while len(times) < fewest or (min(times) > limit and len(times) < most):
        times.append(measured())
    return min(times)


def try_quickness(page, tried):
    """The best of some times, since the machine may have other work; if that is more than twice what it can do, no time is judged."""
    tried.same("bytes of the page", os.path.getsize(page.path) <= MOST_BYTES)
    page.open()
    page.value("shows('squares')")
    picture = least(lambda: (page.open(), page.value("until(() => !!globalThis.pictured).then(() => pictured)"))[1], 3, 9, MOST_TO_OPEN)
    comment = "comment: " + "a line of words that are here to make the text long, and no more\n  " * 8 + ";\n"
    page.value(f"puts({json.dumps(comment * (100000 // len(comment) + 1))} + programs.endless, {{ bound: '1000' }})")
    key = least(lambda: page.value("keyTime()"), 2, 8, MOST_FOR_A_KEY)
    is_judged = os.getloadavg()[0] <= 2 * os.cpu_count()
    tried.same("milliseconds to the first picture", picture <= MOST_TO_OPEN or not is_judged or picture)
    tried.same("milliseconds for a key in 100 kB", key <= MOST_FOR_A_KEY or not is_judged or key)
    print(f"first picture {picture:.0f} ms, a key in 100 kB {key:.0f} ms, {os.path.getsize(page.path)} bytes")


def try_page(page, tried):
    try_examples(page, tried)
    try_changes(page, tried)
    for path in sorted(glob.glob(f"{HERE}/*.t")):
        try_session(page, path, tried)
    if isinstance(page, browser.Chromium):
        try_reader(page, tried)
        try_print(page, tried)
    try_quickness(page, tried)
    tried.same("errors of the page's script, and what its policy refused", page.told, [])
