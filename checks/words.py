"""Words that a stranger has to decode, on the pages, in comments and in printed sentences. checks/lint.py compares their numbers with
checks/limits.txt: they may only fall.

words.py            the number of each, as lines of checks/limits.txt
words.py WORD       each place of one of them

README is README.md; docs are docs/, CONTRIBUTING.md, CHANGELOG.md and crates/README.md; comments are `///` and `//!` of src/; printed are the
string literals with a blank, in crates that print sentences. Code between backticks and in blocks doesn't count."""
import glob
import os
import re
import sys

sys.path.append(f"{os.path.dirname(os.path.abspath(__file__))}/../tests")
from common import TOP, text_of as read

# Each with what to write instead.
PATTERNS = {
    "behind (after, below)": r"\bbehind\b",
    "stand (be, come, go)": r"\b(?:stands?|stood|standing)\b",
    "told (reported, printed, listed)": r"\b(?:told|tells?|telling)\b",
    "wanted (expected, needed)": r"\b(?:wants?|wanted|wanting|for want of)\b",
    "so many (the number)": r"\bso many\b",
    "that of (the noun again)": r"\b(?:that|those) (?:of|in|from|with|behind)\b|\bof (?:which|whom|those|these|that)\b",
    "Of at the front": r"(?:^|[.;:] )(?:Of|Behind) (?!course)\w",
    "where (if)": r",? \bwhere (?:(?:there|it|that|one|none|some|any|memory|nothing|no|neither|another|either) |that's|isn't)|, where (?:a|an|the) \w+ (?:is|has|was)\b",
    "alone (only)": r"\balone\b",
    "is no (isn't a)": r"\b(?:is|are|was|as) no (?!more|longer)\w+|\bnone is\b",
    "ring (cycle, deadlock)": r"\brings?\b",
    "mend (fix)": r"\bmend(?:s|ed|ing)?\b",
    "hand over (pass)": r"\bhand(?:s|ed|ing)? (?:\S+ )?(?:over|on|to)\b|\bhanded\b",
    "put in (insert)": r"\bputs? (?:there|in|it|into)\b|\bwhat is put\b",
    "go on, go out (continue, be written)": r"\bgo(?:es)? (?:on|out|over|further)\b|\bwent (?:on|out)\b",
    "came of (outcome)": r"\bcame\b|\b(?:come|comes) (?:of|to|out)\b",
    "let go (drop)": r"\blets? go\b|\bletting go\b",
    "beside (next to, besides)": r"\bbeside\b",
    "has to do with (concerns)": r"\b(?:has|have|had) to do with\b",
    "gives, answers (returns)": r"\b(?:[Gg]ives|[Aa]nswers)\b",
    "it refuses (it fails)": r"\b[Ii]t refuses\b|\bwhere memory (?:was|is)\b",
    "amiss, remark, lack (wrong, note, has no)": r"\b(?:remarks?|amiss|lacks?)\b",
}
PRINTING = tuple(f"crates/kahn_{name}/" for name in "program_notes expected diagnostic warnings input_notes explanation session live explain line fault".split())
LONG_SENTENCE = 25


def prose(text):
    """A page without its blocks of code and what is between backticks."""
    text = re.sub(r"^```.*?^```", "", text, flags=re.M | re.S)
    return re.sub(r"``.*?``|`[^`\n]*`", "`", text)


def comments(text):
    lines = [line.strip() for line in text.split("\n")]
    return prose("\n".join(re.sub(r"^//[/!] ?", "", line) if line.startswith(("///", "//!")) else "" for line in lines))


def literals(text):
    """The string literals of a source that have a blank, without the keys at the front of rows of tables; of a row with bars its longest cell."""
    text = re.sub(r'^ *"(?:\\.|[^"\\])*" (?==>|\[)', "", text, flags=re.M)
    text = re.sub(r"^ *(?://|ghost |requires |ensures |#\[).*$", "", text, flags=re.M)
    text = re.sub(r"b?'(?:\\.|[^\\'])'", "", text)
    rows = (row for one in re.findall(r'"((?:\\.|[^"\\])*)"', text, flags=re.S) for row in one.replace("\\\n", "").split("\n"))
    return prose("\n".join(max(row.split(" | "), key=len).split("~", 1)[-1] for row in rows if " " in row))


def files(*patterns):
    for pattern in patterns:
        for path in sorted(glob.glob(f"{TOP}/{pattern}", recursive=True)):
            yield os.path.relpath(path, TOP), read(path)


def texts():
    """What is counted: its name to a list of (path, prose)."""
    sources = list(files("crates/*/src/**/*.rt"))
    return {
        "README": [(path, prose(text)) for path, text in files("README.md")],
        "docs": [(path, prose(text)) for path, text in files("docs/**/*.md", "CONTRIBUTING.md", "CHANGELOG.md", "crates/README.md")],
        "comments": [(path, comments(text)) for path, text in sources],
        "printed": [(path, literals(text)) for path, text in sources if path.startswith(PRINTING)],
    }


def long_sentences(text):
    for block in re.split(r"\n\s*\n|\n(?=[-#|] |\d\. )", text):
        for sentence in re.split(r"(?<=[.!?:;])\s+(?=[A-Z`\"])", " ".join(block.split())):
            if not sentence.startswith("|") and len(sentence.split()) > LONG_SENTENCE:
                yield sentence


def found():
    """The places of each word in each part: `PART: WORD` to a list of lines."""
    places = {}
    for part, pages in texts().items():
        for word, pattern in PATTERNS.items():
            places[f"{part}: {word}"] = [
                f"{path}: {line.strip()}" for path, text in pages for line in text.split("\n") for _ in re.finditer(pattern, line)]
        places[f"{part}: sentences over {LONG_SENTENCE} words"] = [f"{path}: {it}" for path, text in pages for it in long_sentences(text)]
    return places


def main():
    for part, places in found().items():
        if len(sys.argv) < 2:
            print(len(places), part)
        elif sys.argv[1] in part:
            print("\n".join(places))


if __name__ == "__main__":
    main()
