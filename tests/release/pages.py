"""The pages of a package: they name only what it installs, those whose commands use examples begin with a copy of these, and the commands
print what the page shows, each page in a folder of its own.

pages.py USR      the folder in which the package is installed"""
import glob
import gzip
import os
import re
import sys
import tempfile

sys.path.append(f"{os.environ['TOP']}/tests")
import sessions
from common import Tried, read

USR = os.path.abspath(sys.argv[1])
DOC = f"{USR}/share/doc/kahn"
COPY = "cp -r /usr/share/doc/kahn/examples ."
# Paths that begin with a folder of the repository or of the package, files by their endings, and programs of the folder.
NAMED = re.compile(r"(?<![\w./~-])(?:/usr/share/[\w./-]*\w|(?:docs|examples|checks|tests|fuzz|bench|web|crates|release|editors|specs|src|proofs)/"
                   r"[\w./*-]*\w|[\w/-]+\.(?:md|rt|antt|py|sh|xz)\b|\./\w+)|(?<=\]\()[^)#:]+(?=[)#])")


def is_there(name, *folders):
    """Whether one of the folders has what a page names; a path below /usr is that of the package."""
    if name.startswith("/usr/"):
        return os.path.exists(USR + name.removeprefix("/usr"))
    return any(glob.glob(f"{folder}/{name}") for folder in folders)


def try_page(path, folder, tried):
    """A page, its commands in this folder."""
    name, text = os.path.relpath(path, DOC), read(path).decode()
    commands = list(sessions.commands(name, DOC))
    uses = [number for number, command, _ in commands if "examples/" in command.replace(COPY, "")]
    tried.same(f"{name}: it begins with a copy of the examples", not uses or commands[0][1] == COPY)
    for number, command, wanted in commands:
        if not sessions.missing(command):
            command = command.replace("/usr/share/", f"{USR}/share/")
            given = sessions.ran(command, folder, f"{USR}/bin", joined=True)[0].decode(errors="backslashreplace")
            tried.same(f"{name}:{number}: {command}", given.rstrip("\n"), wanted.rstrip("\n"))
    names = {it for it in NAMED.findall(text) if "NAME" not in it}
    tried.same(f"{name}: it names what isn't installed", sorted(it for it in names if not is_there(it, os.path.dirname(path), DOC, folder)), [])


def main():
    tried = Tried()
    for path in sorted(glob.glob(f"{DOC}/*.md") + glob.glob(f"{DOC}/docs/*.md")):
        with tempfile.TemporaryDirectory() as folder:
            try_page(path, folder, tried)
    for path in sorted(glob.glob(f"{USR}/share/man/man*/*.gz")):
        text = "\n".join(line for line in gzip.decompress(read(path)).decode().split("\n") if not line.startswith('.\\"'))
        tried.same(f"{path}: it names what isn't installed", sorted(it for it in NAMED.findall(text) if not is_there(it, DOC)), [])
    print("all passed" if tried.passed and not tried.failed else f"{tried.failed} failed")


main()
