r"""Texts that are made by a rule. In a text

    $NAME                   is a value
    <<EXPRESSION>>          what Python makes of it
    [[A..B SEPARATOR|TEXT]] the text for each # from A to B
    [[* SEPARATOR|TEXT]]    the text for each # from 0, as many as the whole has room for; [[*+1 ..]] with one byte more
    @PATH                   a file, from the top of the repository, or a text that is given
    \n                      a line feed"""
import re

from common import TOP, text_of


def valued(text, values):
    text = re.sub(r"\$([a-z_]+)", lambda it: str(values[it[1]]), text)
    return re.sub(r"<<(.*?)>>", lambda it: str(eval(it[1], {**values})), text)


def repeated(first, last, separator, text, values):
    first, last = (eval(it, {**values}) for it in (first, last))
    text = valued(text, values) if "#" not in text or "<<" not in text else text
    numbers = range(first, last + 1) if first <= last else range(first, last - 1, -1)
    return separator.join(valued(text.replace("#", str(number)), values) if "<<" in text else text.replace("#", str(number)) for number in numbers)


def expanded(text, values, most=0, texts={}):
    """The text; `values` gets the number of `units` with which it was filled up to the most bytes."""
    text = re.sub(r"@([\w./-]+)", lambda it: texts.get(it[1]) or text_of(f"{TOP}/{it[1]}").removesuffix("\n"), text.replace("\\n", "\n"))
    text = re.sub(r"(?s)\[\[([^\s\[\]|*]+?)\.\.(\S+) (.*?)\|(.*?)\]\]", lambda it: repeated(*it.groups(), values), text)
    fill = re.search(r"(?s)\[\[\*(\+1)? (.*?)\|(.*?)\]\]", text)
    if not fill:
        return valued(text, values)
    before, behind, unit = (valued(it, values) for it in (text[:fill.start()], text[fill.end():], fill[3]))
    room = most + bool(fill[1]) - len((before + behind).encode())
    if "#" not in unit:
        values["units"] = room // len(unit.encode())
        return before + unit * values["units"] + behind
    units = []
    while (room := room - len(fill[2]) - len(unit.replace("#", str(len(units))))) >= 0:
        units.append(unit.replace("#", str(len(units))))
    return before + fill[2].join(units) + behind


def sections(path):
    """The sections of a file: each the words of its heading, and its lines by the sign that they begin with. What stands before the first, or
    behind an empty line, is for the reader."""
    for section in re.split(r"(?m)^== ", text_of(path))[1:]:
        heading, _, body = section.partition("\n")
        lines = {}
        for line in body.split("\n\n")[0].rstrip("\n").split("\n"):
            found = re.match(r"(->|=>|[$<%?]) |\[(\d+)\]$", line)
            sign = found[1] or "[]" if found else ""
            lines.setdefault(sign, []).append(found[2] or line[found.end():] if found else line)
        yield heading, {sign: "\n".join(its) for sign, its in lines.items()}
