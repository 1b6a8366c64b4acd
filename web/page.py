"""Puts the page together: page.py MODULE OUT.html

MODULE is the WebAssembly file, or a page that has it in it. page/page.html names the files of its folder that go into it, the module, the
examples and the version, each between two @. The modules of the page become one script: their imports go, and `export` before a name; so no two may
give the same name at their top. The page's policy names its scripts and styles by their hashes.
"""

import base64
import glob
import hashlib
import json
import os
import pathlib
import re
import shutil
import subprocess
import sys
import zlib

HERE = os.path.dirname(os.path.abspath(__file__))
PARTS = f"{HERE}/page"
CHANGES = os.path.join(os.path.dirname(HERE), "CHANGELOG.md")
EXAMPLES = os.path.join(os.path.dirname(HERE), "examples")
TOP = re.compile(r"^(?:async )?(?:function\*?|class) \w+|^(?:const|let) .*", flags=re.M)


def text_of(path):
    return pathlib.Path(path).read_text(encoding="utf-8") if os.path.exists(path) else ""


def packed(path):
    """The bytes of the module, deflated (by zopfli, if it is there, into five per cent less), in base64."""
    if path.endswith(".html"):
        return re.search(r'const MODULE = "([^"]*)"', text_of(path))[1]
    if shutil.which("zopfli"):
        return base64.b64encode(subprocess.run(["zopfli", "--deflate", "-c", path], stdout=subprocess.PIPE, check=True).stdout).decode()
    pack = zlib.compressobj(9, wbits=-15)
    return base64.b64encode(pack.compress(pathlib.Path(path).read_bytes()) + pack.flush()).decode()


def examples():
    stems = sorted(it[: -len(".kahn")] for it in glob.glob(f"{EXAMPLES}/*.kahn"))
    return json.dumps([[os.path.basename(it), text_of(f"{it}.kahn"), text_of(f"{it}.input")] for it in stems], indent=0).replace("</", "<\\/")


def named(text):
    """The names that a module gives at its top."""
    return [it for line in TOP.findall(text) for it in re.findall(r"(?:^(?:async )?(?:function\*?|class|const|let) |, )(\w+)(?= = |;|$)", line)]


def scripts(page):
    """The modules that the page names. Comments and indentation stay in the modules, since the page has to be small."""
    texts, given = {}, {}
    for name in re.findall(r"^@(\w+\.js)@$", page, flags=re.M):
        text = re.sub(r"^import .*\n", "", text_of(f"{PARTS}/{name}"), flags=re.M)
        text = re.sub(r"^export ", "", text, flags=re.M)
        for it in named(text):
            if it in given:
                sys.exit(f"page.py: {it} is in {given[it]} and in {name}")
            given[it] = name
        texts[name] = re.sub(r"^ +", "", re.sub(r"^ *(?://.*)?\n", "", text, flags=re.M), flags=re.M).strip()
    left = {os.path.basename(it) for it in glob.glob(f"{PARTS}/*.js")} - set(texts)
    return sys.exit(f"page.py: page.html doesn't name {' '.join(sorted(left))}") if left else texts


def hashes(page, name):
    """The hashes of what stands in the elements of a name, as a policy has them."""
    texts = re.findall(rf"<{name}>(.*?)</{name}>", page, flags=re.S)
    return " ".join(f"'sha256-{base64.b64encode(hashlib.sha256(it.encode()).digest()).decode()}'" for it in texts)


def filled(page, parts):
    return re.sub(r"@(" + "|".join(map(re.escape, parts)) + r")@", lambda found: parts[found[1]], page)


def main(module, out):
    page = text_of(f"{PARTS}/page.html")
    styles = re.sub(r"\s+(?={)|(?<=[{};,])\s+|/\*.*?\*/\s*", "", text_of(f"{PARTS}/page.css"), flags=re.S).strip()
    version = re.search(r"^## (\d+\.\d+\.\d+)", text_of(CHANGES), flags=re.M)[1]
    page = filled(page, {"version": version, "module": packed(module), "examples": examples(), "page.css": styles, **scripts(page)})
    page = filled(page, {"scripts": hashes(page, "script"), "styles": hashes(page, "style")})
    pathlib.Path(out).write_text(page, encoding="utf-8")


if __name__ == "__main__":
    main(*sys.argv[1:])
