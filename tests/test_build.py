"""kahn_build names the place of a mistake in the file that has it: of 100 random ones in a library of three files. SEED chooses them, or else 1."""
import concurrent.futures
import os
import random
import re

from common import TOP, Room, program, text_of

LIBRARY = ("debounce", "median", "go-back-n")
COMMENT = re.compile(r"comment.*?;", re.S)
# What is replaced, and by what: the mistake is where the new text begins.
MISTAKES = ((r":=", "="), (r"(?<=:= )[A-Z]+\b(?!\()", "NO_NAME"), (r"\b(?:send|while|if|begin)\b", "?"), (r"(?<=wait)\(", "["))


class Build(Room):
    def mistake(self, number, chance):
        """Writes a library with one mistake. Gives its files, and the place, the number and the text of its line."""
        texts = {name: text_of(f"{TOP}/examples/library/{name}.kahn") for name in LIBRARY}
        name, (pattern, new) = chance.choice(LIBRARY), chance.choice(MISTAKES)
        hidden = COMMENT.sub(lambda it: re.sub(r"[^\n]", " ", it[0]), texts[name])
        found = chance.choice(list(re.finditer(pattern, hidden)))
        texts[name] = texts[name][: found.start()] + new + texts[name][found.end() :]
        os.mkdir(f"{self.folder}/{number}")
        self.put(**{f"{number}/{it}.kahn": text for it, text in texts.items()})
        line = hidden.count("\n", 0, found.start())
        column = found.start() - hidden.rfind("\n", 0, found.start())
        shuffled = chance.sample(LIBRARY, len(LIBRARY))
        return [f"{number}/{it}.kahn" for it in shuffled], f"{number}/{name}.kahn:{line + 1}:{column}", line + 1, texts[name].splitlines()[line]

    def told(self, files):
        """What is said of the program with this library: by kahn_explain, and by kahn."""
        words = (f"{TOP}/kahn_build", f"{TOP}/tests/kahn_build/use.kahn", *files, "--")
        return self.ran(*words, program("kahn_explain"))[0], self.ran(*words, program("kahn"))[1]

    def test_places(self):
        chance = random.Random(int(os.environ.get("SEED", "1")))
        mistakes = [self.mistake(number, chance) for number in range(100)]
        with concurrent.futures.ThreadPoolExecutor(4) as pool:
            for (_, place, number, line), (notes, fault) in zip(mistakes, pool.map(lambda it: self.told(it[0]), mistakes)):
                heading, shown = notes.split("\n")[:2]
                mark = f" {number} | "  # of a long line a part is shown
                right = heading.startswith(f"{place}: error: "), shown.startswith(mark) and shown.removeprefix(mark) in line
                self.same(f"{place} in {notes}{fault}", (*right, fault.startswith(f"kahn: {place}: ")), (True, True, True))
