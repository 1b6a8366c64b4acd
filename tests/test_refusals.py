"""Runs with a growth of memory, or a thread, refused: the first one, then the second, and so on.

kahn begins with one worker, and goes over to several if there is work for them; kahn_crowd, which isn't released, begins with all at once, and
with `held` as its first argument it holds the run between its parts. All that a run reserves comes before its first worker: once a run got as
far as a thread or an event, no later one reports want of memory."""
import collections
import glob
import itertools
import os
import re
import tempfile

import common
from common import CROWD, TOP, Room, read, text_of

KAHN, LIVE, EXPLAIN = (common.program(name) for name in ("kahn", "kahn_live", "kahn_explain"))
HAS_CROWD = os.access(CROWD, os.X_OK)
COPIES, LONG = (text_of(f"{TOP}/tests/programs/{name}.kahn") for name in ("copies", "long"))
PROGRAMS = [path for path in sorted(glob.glob(f"{TOP}/examples/*.kahn"))
            if os.path.exists(f"{path[:-5]}.report") and not os.path.exists(f"{path[:-5]}.input")]


def is_stopped(out, whole):
    """Whether a report is one that memory stopped: each of its streams begins the whole one, and the events of its ends add up."""
    lines = out.split("\n")
    streams = itertools.takewhile(lambda pair: not pair[0].startswith("end "), zip(whole.split("\n"), lines))
    total = sum(int(line.split()[-1]) for line in lines if line.startswith("end "))
    return lines[-2:] == [f"stopped by memory {total}", ""] and all(f"{every} ".startswith(f"{part} ") for every, part in streams)


class Memory(Room):
    def setUp(self):
        super().setUp()
        self.put(**{"copies.kahn": COPIES, "long.kahn": LONG})
        self.library = self.refusing("refuse_growth.c")

    def growths(self, name, words, judged, workers, enough=25, text=b""):
        """Refuses one growth after the other, until so many runs in a row are as if nothing had been refused. `judged` says of what a run
        gave which kind it is: alike, memory, thread or stopped; or nothing."""
        kinds, number, alike = collections.Counter(), 0, 0
        while alike < enough and number < 2000 and kinds[None] < 20:
            number += 1
            out, err, status = self.ran(*words, text=text, FAIL_AT=str(number), LD_PRELOAD=self.library)
            kind = "memory" if (out, err, status) == ("", "kahn: no memory\n", 4) else judged(out, err, status)
            if kind == "memory" and kinds["thread"] + kinds["stopped"]:
                kind = None
            self.same(f"{name} with growth {number} refused: status {status}, {err[:300]}, {out[:300]}", kind is not None)
            kinds[kind] += 1
            alike = alike + 1 if kind == "alike" else 0
        self.same(f"{name}: a growth was refused before the first worker", kinds["memory"] > 0)
        self.same(f"{name}: a growth was refused after the first worker began", kinds["thread"] + kinds["stopped"] > 0)
        self.same(f"{name}: one worker wants no thread", workers > 1 or not kinds["thread"])
        self.same(f"{name}: growths come to an end", alike, enough)
        print(f"{name}: {kinds['memory']} want memory, {kinds['thread']} want a thread, {kinds['stopped']} are stopped or go on later")

    def growths_of_run(self, runner, program, workers, quantum, enough=25):
        words = [program, "--workers", str(workers), "--quantum", str(quantum)]
        whole, _, _ = self.ran(KAHN, *words)
        kinds = {(whole, "", 0): "alike", **({} if runner == KAHN else {("", "kahn: no thread\n", 6): "thread"})}

        def judged(out, err, status):
            return kinds.get((out, err, status)) or ("stopped" if (err, status) == ("", 4) and is_stopped(out, whole) else None)

        self.growths(" ".join(map(os.path.basename, [runner, *words])), [runner, *words], judged, workers, enough)

    def counted(self, *words):
        """How many growths a run has."""
        _, err, status = self.ran(*words)
        self.same(f"{words}: it ends well", (err, status), ("", 0))
        return self.growths_of(*words)

    def growths_of(self, *words):
        """How many growths a run has, however it ends."""
        mark = f"{self.folder}/growths"
        self.ran(*words, GROWTHS=mark, LD_PRELOAD=self.library)
        return int.from_bytes(read(mark), "little")

    def test_turns_take_no_memory(self):
        """Thousands of turns more take some more growths of queues and of what is kept, and over lanes one for each segment."""
        self.put(**{f"{number}.kahn": COPIES.replace("65", str(number)) for number in (130, 2000)})
        for runner in ((KAHN,), (CROWD,), (CROWD, "held")) if HAS_CROWD else ((KAHN,),):
            for quantum in ("1", "1000"):
                few, many = (self.counted(*runner, f"{number}.kahn", "--workers", "1", "--quantum", quantum) for number in (130, 2000))
                name = f"{' '.join(map(os.path.basename, runner))} with quantum {quantum}: {few} growths of 130 values, {many} of 2000"
                self.same(name, many - few <= 2000 // 8)

    def test_runs(self):
        for workers, quantum, program in itertools.product((1, 2, 8), (1, 1000), ("copies.kahn", "examples/sample-four-turns.kahn")):
            self.growths_of_run(CROWD if HAS_CROWD else KAHN, program, workers, quantum)

    def test_held_runs(self):
        """A held run may take just as many events as the run has in all its parts, and nothing that is refused stops it."""
        if not HAS_CROWD:
            self.skipTest("there is no kahn_crowd")
        whole, _, _ = self.ran(KAHN, "copies.kahn")
        kinds = {(whole, "", 0): "alike", (whole, "again\n", 0): "stopped"}
        for workers, quantum in itertools.product((1, 2, 8), (1, 1000)):
            words = ["held", "copies.kahn", "--workers", str(workers), "--quantum", str(quantum), "--bound", whole.split()[-1]]
            self.growths(" ".join(words), [CROWD, *words], lambda *given: kinds.get(given), workers)

    def test_parts_of_a_live_run(self):
        """The first part may take just as many events as the run has. A blank line begins the next, and one more comes at the end. An input
        stands beside the copies, so that lines come."""
        drain = "  process drain(integer in U); begin integer X; repeat X := wait(U) end;\n  drain(GO) par count(X0"
        parts = COPIES.replace("integer channel X0", "integer input channel GO; integer channel X0", 1).replace("  count(X0", drain)
        self.put(**{"parts.kahn": parts})
        whole, _, _ = self.ran(KAHN, "parts.kahn", "--quantum", "1", "--workers", "1")
        streams, ends = whole.split("\n", 1)

        def judged(out, err, status):
            # how the run ended may be told
            told, ended = re.fullmatch(r"((?:(?!end |finished ).*\n)*)((?:.*\n)*)", err).groups()
            kind = {"": "alike"}.get(told, "stopped" if told.startswith("parts.kahn: input line ") and told.endswith("memory\n") else None)
            # a line for which memory was refused is passed over, and the status may say so
            is_well = status == 0 or (status, told) == (1, "parts.kahn: input line 1: no memory\n")
            values = "W:" + "".join(line.removeprefix("W:") for line in out.splitlines())
            return kind if is_well and values == streams and ended in ("", ends) else None

        words = [LIVE, "parts.kahn", "--quantum", "1", "--step", whole.split()[-1]]
        self.growths("parts of copies.kahn", words, judged, 1, text=b"\n")

    def test_notes_as_data(self):
        """kahn_explain --json writes all notes, or says that it has no memory for them: an editor takes silence for a text without a fault."""
        body = "begin process f(); begin integer x; [] end; f() end"
        self.put(**{"warned.kahn": body.replace("[]", "x := 1"), "faulty.kahn": body.replace("[]", "y := 1"), "bare.kahn": body.replace("[]", "x 1"),
                    "fed.kahn": body.replace("[]", "x := x"), "fed.input": "A: 1\n"})
        for words in (["warned.kahn"], ["faulty.kahn"], ["bare.kahn"], ["fed.kahn", "--input", "fed.input"]):
            whole = self.ran(EXPLAIN, *words, "--json")
            self.same(f"{words}: there are notes", whole[0] != "" and whole[2] in (0, 1))
            alike = 0
            for number in range(1, self.growths_of(EXPLAIN, *words, "--json") + 26):
                out, err, status = self.ran(EXPLAIN, *words, "--json", FAIL_AT=str(number), LD_PRELOAD=self.library)
                is_told = (out, status) == ("", 4) and re.fullmatch(r"kahn\w*: no memory\n", err) is not None
                self.same(f"{words} as data with growth {number} refused: status {status}, {err[:300]}, {out[:300]}", (out, err, status) == whole or is_told)
                alike = alike + 1 if (out, err, status) == whole else 0
            self.same(f"{words}: growths come to an end", alike >= 25)

    def test_a_run_that_goes_over_to_several_workers(self):
        """It goes on without them, from where it stood. Memory that is refused for putting the report into text isn't reported."""
        self.growths_of_run(KAHN, "long.kahn", 4, 1000, enough=120)

    def test_little_memory(self):
        """Four workers give a report wherever one does."""
        whole, _, _ = self.ran(KAHN, "--workers", "1", "long.kahn")
        reports = 0
        for limit in [*range(3500, 12001, 500), 15000, 20000, 30000, 40000, 80000]:
            limited = ["bash", "-c", f'ulimit -v {limit}; exec "$@"', "bash", KAHN, "long.kahn", "--workers"]
            if self.ran(*limited, "1")[2] == 0:
                reports += 1
                out, err, status = self.ran(*limited, "4")
                good = (out, status) == (whole, 0) or (err, status) == ("", 4) and is_stopped(out, whole)
                self.same(f"four workers in {limit} kB: status {status}, {err[:300]}", good)
        self.same("reports in little memory", reports > 0)


class Threads(Room):
    """kahn leaves a run to the threads that came. It starts as many as have work, and no more than run side by side; a thread that puts values
    of the report into text isn't missed either. kahn_crowd promises its workers."""

    def setUp(self):
        super().setUp()
        self.library = self.refusing("refuse_thread.c")

    def refused(self, number, *words):
        """What a run gives with that thread refused, and whether one was."""
        with tempfile.TemporaryDirectory() as folder:
            given = self.ran(*words, FAIL_AT=str(number), REFUSED=f"{folder}/mark", LD_PRELOAD=self.library)
            return given, os.path.exists(f"{folder}/mark")

    def each(self, runner, program, report, workers, started):
        """Refuses each of so many threads that run the network, and of the next eight, which write a long report or aren't started: how many
        of these were refused."""
        later = 0
        for number in range(1, started + 9):
            given, is_refused = self.refused(number, runner, "--workers", str(workers), program)
            wanted = ("", "kahn: no thread\n", 6) if number <= started and runner == CROWD else (report, "", 0)
            name = f"{os.path.basename(runner)} {os.path.basename(program)} with thread {number} of {workers} workers refused"
            self.same(name, (*given, is_refused or number > started), (*wanted, True))
            later += number > started and is_refused
        return later

    def starts(self, number, name, report, *words):
        """Just so many threads are started, and the report is whole if the last of them, or the next, is refused."""
        for at in (it for it in (number, number + 1) if it > 0):
            given, is_refused = self.refused(at, *words, f"{name}.kahn")
            self.same(f"{name}: it starts {number} threads, of which {at} is refused", (given, is_refused), ((report, "", 0), at <= number))

    def test_a_long_report(self):
        """Three instances, so three workers, if so many run side by side; and 150,000 values, which several threads put into text."""
        self.put(**{"long.kahn": LONG.replace("25000", "50000")})
        report, _, _ = self.ran(KAHN, "--workers", "1", "long.kahn")
        for workers in (1, 2, 3, 16):
            started = min(workers, 3, os.cpu_count()) - 1
            self.same(f"threads of {workers} workers write it", self.each(KAHN, "long.kahn", report, workers, started) >= started)

    def test_as_many_as_have_work(self):
        """Whatever the quantum is, also after a long beginning by one; none if one thread alone may run, or values go round a ring, or from one
        process to many."""
        common.sys.path.append(f"{TOP}/bench")
        from workloads import made
        texts = {"four": made("farm", 200_000, 4), "two": made("farm", 200_000, 2), "late": made("serial", 300_000, 200_000),
                 "ring": made("ring", 1_000), "star": made("star", 2_000, 40)}
        self.put(**{f"{name}.kahn": text for name, text in texts.items()})
        reports = {name: self.ran(KAHN, "--workers", "1", "--bound", "100000000", f"{name}.kahn")[0] for name in texts}
        side = os.cpu_count() - 1
        one = ["taskset", "-c", str(min(os.sched_getaffinity(0)))]
        for quantum in ("1", "7", "1000"):
            by = [KAHN, "--bound", "100000000", "--quantum", quantum, "--workers"]
            for number, name, words in ((min(3, side), "four", [*by, "4"]), (min(2, side), "four", [*by, "3"]), (min(1, side), "two", [*by, "16"]),
                                        (min(3, side), "late", [*by, "4"]), (0, "ring", [*by, "4"]), (0, "star", [*by, "4"]),
                                        (0, "four", [*by, "1"]), (0, "four", [*one, *by, "4"])):
                self.starts(number, name, reports[name], *words)

    def test_examples(self):
        for path in PROGRAMS:
            report = read(f"{path[:-5]}.report").decode()
            self.each(KAHN, path, report, 16, 0)
            for workers in (1, 2, 3, 4, 16) if HAS_CROWD else ():
                self.each(CROWD, path, report, workers, workers - 1)
                for number in range(1, workers):
                    given, _ = self.refused(number, CROWD, "held", "--workers", str(workers), path)
                    self.same(f"held {os.path.basename(path)} with thread {number} of {workers} workers refused", given, (report, "again\n", 0))
