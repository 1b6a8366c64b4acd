"""The manual pages, compared with the help of each program, and the completions of three shells: options as in the help, and names in programs.

    manuals.py PROGRAM ..      each program by its path; its file is called as the program is"""
import os
import re
import shutil
import subprocess
import sys

from common import TOP, Tried, text_of

COMPLETIONS = f"{TOP}/editors/completions"
OPTION = re.compile(r"(?m)^  (?:    |(-\w), )(--[\w-]+)(?:\.\.\.)?(?: <([^>]+)>)? {2,}(.*)$")

# Lines in the folder of examples, and what the last word of each can be. The names of IN_PROGRAMS are in the programs of the line.
FILES = (
    ("kahn co", "control.kahn count.kahn"),
    ("kahn_draw library/a", "library/accumulate.kahn"),
    ("kahn_test count.kahn sq", "squares.kahn"),
    ("kahn_build count.kahn library/de", "library/debounce.kahn library/decimate.kahn library/delay.kahn"),
)
IN_PROGRAMS = (
    ("kahn sorting.kahn --watch F", "FIRST FOURTH"),
    ("kahn_live sorting.kahn --watch MI", "MIDDLE_1 MIDDLE_2"),
    ("kahn_live sorting.kahn --in ", "A B C D"),
    ("kahn_live sorting.kahn --out F", "FIRST FOURTH"),
    ("kahn_live alarm.kahn --at-end ", "HEAT= TIME="),
    ("kahn_explain sorting.kahn --needs LOW_", "LOW_AB LOW_CD"),
    ("kahn_explain sorting.kahn --wakes ", "A B C D"),
    ("kahn_build library/tests/delay.kahn library/delay.kahn --set ", "delay.FIRST= delay.N="),
)
LISTS = (("kahn_live sorting.kahn --in A,", "A,A A,B A,C A,D"), ("kahn_live sorting.kahn --out FIRST,S", "FIRST,SECOND"),
         ("kahn_live sorting.kahn --plain A,F", "A,FIRST A,FOURTH"))
COMMANDS = (("kahn_build sorting.kahn -- kahn_explain --needs F", "FIRST FOURTH"),)


def helped(text):
    """What a help has: its first line, its options as (words, value, text), and its statuses as (number, text)."""
    options = [(" ".join(filter(None, found[:2])), found[2], found[3]) for found in OPTION.findall(text)]
    return text.split("\n")[0], options, re.findall(r"(?m)^  (\d)  (.*)$", text.split("Exit status:\n")[1])


def plain(line):
    """A line of a manual page without its marks."""
    for mark, sign in ((r"\(aq", "'"), (r"\(ga", "`"), (r"\-", "-"), (r"\fB", ""), (r"\fI", ""), (r"\fR", ""), (r"\e", "\\")):
        line = line.replace(mark, sign)
    return line


def paged(page):
    """The same of a manual page."""
    parts = dict(part.split("\n", 1) for part in page.split(".SH ")[1:])
    options = [(" ".join(re.findall(r"--?[\w-]+", plain(head))), "".join(re.findall(r'" (\S+)"$', head)), plain(text))
               for head, text in re.findall(r"(?m)^\.TP\n\.BI? ?(.*)\n(.*)$", parts["OPTIONS"].replace("\n.BR ", "\n.B "))]
    statuses = [(head, plain(text)) for head, text in re.findall(r"(?m)^\.TP\n\.B (\d)\n(.*)$", parts["EXIT STATUS"])]
    return plain(parts["DESCRIPTION"].split("\n")[0]), options, statuses


def bash(name):
    """The options that bash completes."""
    script = 'source "$1"; _kahn "$2" -; printf "%s\\n" "${COMPREPLY[@]}"; _kahn "$2" --ver; echo "${COMPREPLY[@]}"'
    return subprocess.run(["bash", "-c", script, "bash", f"{COMPLETIONS}/kahn.bash", f"/usr/bin/{name}"], capture_output=True, text=True).stdout.split()


def bash_words(words):
    """What bash completes of the last of these words."""
    script = 'source "$1"; shift; COMP_WORDS=("$@") COMP_CWORD=$(($# - 1)); _kahn "$1" "${@: -1}" "${@: -2:1}"; printf "%s\\n" "${COMPREPLY[@]}"'
    return ["bash", "-c", script, "bash", f"{COMPLETIONS}/kahn.bash", *words]


def zsh_words(words):
    """The same for zsh, without its own functions: of what the option before takes, all are printed."""
    script = """file=$1; shift; words=("$@"); _kahn() { source $file; }; _sequence() { "$@"; }
      compadd() { local end=; [[ $1 != -S ]] || end=$2; printf "%s$end\\n" "${@[$@[(i)--] + 1,-1]}"; }
      _arguments() { for it; do [[ $it != (|\\*)"${words[-2]}["* ]] || eval "${it##*:}"; done; }
      _normal() { service=${words[1]}; _kahn; }; CURRENT=$#words service=$words[1]; _kahn"""
    return ["zsh", "-fc", script, "zsh", f"{COMPLETIONS}/_kahn", *words]


def fish_words(words):
    script = f"source {COMPLETIONS}/{words[0]}.fish; complete -C '{' '.join(words)}'"
    return ["fish", "--no-config", "-c", script]


def try_words(tried):
    """Names of channels, value arguments and files. fish shows other files after the programs."""
    for shell, command, cases in (("bash", bash_words, FILES + IN_PROGRAMS + LISTS + COMMANDS), ("zsh", zsh_words, IN_PROGRAMS + COMMANDS),
                                  ("fish", fish_words, FILES + IN_PROGRAMS + LISTS)):
        if not shutil.which(shell):
            print(f"there is no {shell}: what it completes is not tried")
            continue
        for line, wanted in cases:
            words = line.split(" ")
            shown = subprocess.run(command(words), capture_output=True, text=True, cwd=f"{TOP}/examples").stdout.split("\n")
            given = {it.split("\t")[0] for it in shown if it.startswith(words[-1]) and not re.search(r"\.(?:input|values|report)$", it.split("\t")[0])}
            tried.same(f"{shell}: {line}", " ".join(sorted(given - {""})), wanted)


def zsh(name):
    text = text_of(f"{COMPLETIONS}/_kahn")
    block = re.search(rf"(?m)^  {name}\)\n((?:    .*\n)*)", text)[1] + text.split("esac\n")[1]
    return re.findall(r"'\*?(--[\w-]+)\[", block) + re.findall(r",(--[\w-]+)\}", block)


def fish(name):
    return [f"--{it}" for it in re.findall(rf"(?m)^complete -c {name} (?:-s \w )?-l ([\w-]+)", text_of(f"{COMPLETIONS}/{name}.fish"))]


def try_program(path, tried):
    """Compares what there is of the program."""
    name = os.path.basename(path)
    text = subprocess.run([path, "--help"], capture_output=True, text=True, check=True).stdout
    wanted = helped(text)
    page = text_of(f"{TOP}/docs/man/{name}.1")
    pairs = list(zip(("first line", "options", "statuses"), paged(page), wanted))
    pairs += [("name", re.search(r"(?m)^\.B (\w+)$", page)[1], name)]
    names = [words.split()[-1] for words, _, _ in wanted[1]]
    pairs += [("bash", bash(name), [*names, "--version"]), ("zsh", zsh(name), names), ("fish", fish(name), names)]
    for paragraph in [it for it in text.split("Print version\n")[1].split("Exit status:")[0].split("\n\n") if it.strip()]:
        given = " ".join(plain(page).split())
        pairs.append((f"'{paragraph[:30]}'", " ".join(paragraph.split()) in re.sub(r" \.(?:PP|nf|fi|RS|RE|sp)(?= )", "", given), True))
    for part, has, given in pairs:
        tried.same(f"{name}, {part}", has, given)


def main(*programs):
    tried = Tried()
    for path in programs:
        try_program(path, tried)
    try_words(tried)
    return tried.finish()


if __name__ == "__main__":
    sys.exit(main(*sys.argv[1:]))
