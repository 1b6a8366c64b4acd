"""kahn_live on many lines, and without memory or threads. (tests/kahn_live/open.t has it in pipes that stay open.)"""
import contextlib
import os
import subprocess

import common
from common import Room, measured, read

LIVE = common.program("kahn_live")


class Live(Room):
    def test_no_thread_is_started(self):
        given = self.ran(LIVE, "examples/double.kahn", text=b"A: 1\n", FAIL_AT="1", LD_PRELOAD=self.refusing("refuse_thread.c"))
        self.same("one worker", given, ("B: 2\n", "", 0))

    def soak(self, lines, seconds, program="sum", words=(), told="S: {}", behind=0, before=()):
        """What so many ones make, a line for each, within so many seconds of processor time: the most memory, in kB."""
        self.put(ones="A: 1\n" * lines)
        output = f"{self.folder}/output"
        status, _, room = measured([*before, LIVE, f"programs/{program}.kahn", *words], f"{self.folder}/ones", output=output, most=seconds, folder=self.folder)
        right = read(output).decode().splitlines() == [told.format(number) for number in range(1, lines + 1 - behind)]
        self.same(f"{lines} lines: status and values", (status, right), (0, True))
        return room

    def test_time_and_memory_do_not_grow_with_the_lines(self):
        self.soak(200_000, 20)
        few, many = self.soak(100_000, 120), self.soak(1_200_000, 120)
        self.same(f"memory: {few} kB for 100,000 lines, {many} kB for 1,200,000", many - few <= 1024)

    def test_rows_are_let_go_of(self):
        """One channel is always a value behind: twelve megabytes are enough for 300,000 lines."""
        self.soak(300_000, 120, "behind", ("--out", "X,Y"), "1,1", 1, ("bash", "-c", 'ulimit -v 12000; exec "$@"', "bash"))


class Growth(Room):
    """Each growth of memory refused in turn, up to the 40th that a line reports, or with WHOLE set until ten runs in a row report none."""

    def refused(self, **variables):
        """A run without a growth, to its end: its output, its status and its errors. A line that was refused is sent again."""
        pipe = subprocess.PIPE
        run = subprocess.Popen([LIVE, "programs/copy.kahn", "--quantum", "1"], cwd=self.folder, bufsize=0, stdin=pipe, stdout=pipe, stderr=pipe, env={**os.environ, **variables})
        with contextlib.suppress(BrokenPipeError):
            run.stdin.write(b"N: 65\nno line\n")
        told = b""
        while (line := run.stderr.readline()) and not line.startswith(b"programs/copy.kahn: input line 2: not a name"):
            told += line
        out, more = run.communicate(b"N: 65\n\n" if b"programs/copy.kahn: input line 1: no memory" in told else b"\n\n", timeout=60)
        return out.decode(), run.returncode, (told + more).decode()

    def test_each_growth(self):
        library = self.refusing("refuse_growth.c")
        values, ends = "".join(f" {number}" for number in range(65)), self.refused()[2]
        began = waited = alike = number = 0
        while alike < 10 and number < 1000 and (waited < 40 or "WHOLE" in os.environ):
            number += 1
            out, status, told = self.refused(FAIL_AT=str(number), LD_PRELOAD=library)
            if (status, out, told) == (4, "", "kahn: no memory\n"):
                began += 1
                continue
            self.same(f"growth {number}: {told}", (status, out.replace("W:", "").replace("\n", ""), told.endswith(ends)), (1, values, True))
            waited, alike = waited + ("memory" in told), 0 if "memory" in told else alike + 1
        self.same("a growth stops a run before it begins, and a line waits", (began > 0, waited > 0), (True, True))
        self.same("growths come to an end", alike == 10 or waited >= 40)
        print(f"of {number} runs with a growth refused, {began} didn't begin and {waited} reported a line that wants memory or waits for it")
