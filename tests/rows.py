"""The rows of tests/rows and the examples, each run by kahn and compared byte for byte.

A row is a folder with some of these files:

    program.kahn   the program text, always
    input          the input text
    words          further words of the command line, one a line
    report         the whole standard output; none: nothing
    fault          the whole standard error; none: nothing
    status         the exit status; none: 0
    limits         the most MiB of memory and the most seconds of processor time; none: no limits

A row is run by 1, 4 and 16 workers with quanta of 1 and 1000, unless its words name one of these; what is refused before any worker starts
(status 1 or 2) once. With status 3 and no report the interpreter of fuzz/ says whether the report is one of those that may be given. Rows that
are made by a rule come from families.txt, and programs, inputs and command lines of one line that are refused from the tables in tests/rows."""
import itertools
import os
import subprocess
from concurrent.futures import ThreadPoolExecutor

import reference
import texts
from common import TOP, read, text_of, write

FILES = {"program.kahn", "input", "words", "report", "fault", "status", "limits"}
MOST_BYTES = 1048576
WAYS = [["--workers", str(workers), "--quantum", str(quantum)] for workers in (1, 4, 16) for quantum in (1, 1000)]
ROWS = f"{TOP}/tests/rows"


def files_of(folder):
    return {name: read(f"{folder}/{name}") for name in os.listdir(folder) if os.path.isfile(f"{folder}/{name}")}


def kept_rows():
    """The folders of tests/rows, and the examples, of which one without a report is stopped by a bound: (name, files)."""
    for name in sorted(os.listdir(ROWS)):
        if os.path.isdir(f"{ROWS}/{name}"):
            yield name, files_of(f"{ROWS}/{name}")
    examples = files_of(f"{TOP}/examples")
    for name in sorted(examples):
        stem, kind = os.path.splitext(name)
        if kind == ".kahn":
            names = {"program.kahn": name, "input": f"{stem}.input", "report": f"{stem}.report"}
            files = {file: examples[its] for file, its in names.items() if its in examples}
            yield f"examples/{stem}", files if "report" in files else {**files, "words": b"--bound\n1000", "status": b"3"}


def table_rows():
    """The one-line refusals: (name, files). The name of a row is its table with the number of its line."""
    lines = text_of(f"{ROWS}/refused-programs.txt").split("\n")
    for number, (text, mark) in enumerate(zip(lines, lines[1:]), 1):
        if mark.lstrip().startswith("^ "):
            before, what = mark.split("^ ")
            column = len(text[: len(before)].encode()) + 1
            yield f"refused-programs.txt:{number}", {"program.kahn": text.encode(), "fault": f"kahn: 1:{column}: {what}\n".encode(), "status": b"1"}
    double = read(f"{TOP}/examples/double.kahn")
    for number, line in enumerate(text_of(f"{ROWS}/refused-inputs.txt").split("\n"), 1):
        if " -> " in line:
            text, what = line.split(" -> ")
            text = text.replace("\\n", "\n").replace("\\r", "\r").replace("\\t", "\t")
            yield f"refused-inputs.txt:{number}", {"program.kahn": double, "input": text.encode(), "fault": f"kahn: {what}\n".encode(), "status": b"1"}


def prefixes():
    """Every beginning of the counting process, byte for byte. Those that reach through the last `End` are programs."""
    whole, report = (read(f"{TOP}/examples/count.{end}") for end in ("kahn", "report"))
    for end in range(len(whole) + 1):
        files = {"program.kahn": whole[:end]}
        if end < whole.rindex(b"End") + 3:
            fault = reference.run(whole[:end], None, 0, None).err
            wanted = b"character is not of the language\n" if whole[:end].endswith(b":") else (b"text ends too early\n", b"this cannot stand here\n")
            assert fault.endswith(wanted), (end, fault)
            files.update({"fault": fault, "status": b"1"})
        else:
            files["report"] = report
        yield f"the-first-{end}-bytes-of-the-counting-process", files


def rule_rows():
    """Rows that are made by a rule, also those of families.txt."""
    yield from prefixes()
    for heading, parts in texts.sections(f"{TOP}/tests/families.txt"):
        name, _, loops = heading.partition(" | ")
        loops = [(it.split("=")[0], [int(value) for value in it.split("=")[1].split(",")]) for it in loops.split()]
        for given in itertools.product(*(values for _, values in loops)):
            values = dict(zip((it for it, _ in loops), given))
            files = {"program.kahn": texts.expanded(parts[""], values, MOST_BYTES)}
            files["status"] = parts.get("[]", "1" if "=>" in parts else "0")
            for sign, file, before, end in (("->", "report", "", "\n"), ("=>", "fault", "kahn: ", "\n"), ("<", "input", "", ""), ("%", "limits", "", "")):
                if sign in parts:
                    files[file] = before + texts.expanded(parts[sign], values) + end
            files["words"] = texts.expanded(parts.get("$", ""), values).replace(" ", "\n")
            yield texts.valued(name, values).replace(" ", "-"), {file: text.encode() for file, text in files.items()}


def words_rows():
    """The command lines that are refused: (name, files)."""
    for block in text_of(f"{ROWS}/refused-words.txt").split("\n$ ")[1:]:
        words, text = block.split("\n", 1)
        fault = f"{text.rstrip()}\n\nFor more information, try '--help'.\n"
        files = {"program.kahn": "", "words": words.replace(" ", "\n"), "fault": fault, "status": "2"}
        yield f"refused-words.txt: {words}", {name: text.encode() for name, text in files.items()}


def stopped_wrongly(files, words, report):
    """What the interpreter of fuzz/ finds wrong with the report of a run that its bound stopped, or None."""
    bound, watch = (words[words.index(name) + 1] if name in words else default for name, default in (("--bound", 1000000), ("--watch", None)))
    wanted = reference.run(files["program.kahn"], files.get("input"), int(bound), watch)
    return wanted.stopped(report) if wanted.stopped else "the run isn't stopped by its bound"


def tasks_of(program, name, files, folder):
    """A row's runs, in a folder of its own: (name with the words, files, the command, its folder)."""
    os.mkdir(folder)
    for file in {"program.kahn", "input"} & set(files):
        write(f"{folder}/{file}", files[file])
    words, limits = (files.get(file, b"").decode() for file in ("words", "limits"))
    memory, seconds = (limits or "0 0").split()
    limited = ["sh", "-c", f'ulimit -v {1024 * int(memory)} && ulimit -t {seconds} && exec "$@"', "sh"] if limits else []
    is_told = "--workers" in words or "--quantum" in words or int(files.get("status", 0)) in (1, 2)
    for way in [[]] if is_told else WAYS:
        given = [*words.splitlines(), *way]
        yield " ".join([name, *given]), files, [*limited, program, "program.kahn", *(["--input", "input"] if "input" in files else []), *given], folder


def run(task, tried):
    """Runs a row in a way."""
    name, files, words, folder = task
    ran = subprocess.run(words, cwd=folder, stdin=subprocess.DEVNULL, capture_output=True, timeout=600)
    status = int(files.get("status", 0))
    is_open = status == 3 and "report" not in files
    wanted = status, b"" if is_open else files.get("report", b""), files.get("fault", b"")
    tried.same(name, (ran.returncode, b"" if is_open else ran.stdout, ran.stderr), wanted)
    if wrong := is_open and stopped_wrongly(files, words, ran.stdout):
        tried.fail(f"{name}: report is {ran.stdout[:400]!r}: {wrong}")


def try_rows(program, work, only, tried):
    """Runs all rows, or those that have the word in their names."""
    every = [(name, files) for name, files in [*kept_rows(), *table_rows(), *words_rows(), *rule_rows()] if only in name]
    tried.same("files that no row has, and rows without a program", [name for name, files in every if set(files) - FILES or "program.kahn" not in files], [])
    tasks = [task for number, (name, files) in enumerate(every) if "program.kahn" in files for task in tasks_of(program, name, files, f"{work}/{number}")]
    with ThreadPoolExecutor(os.cpu_count()) as pool:
        list(pool.map(lambda task: run(task, tried), tasks))
    print(f"{len(every)} rows")
