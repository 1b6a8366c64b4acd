"""Lines of standard error: each goes out by one write. Streams that don't block; no secret; and want of memory for the arguments of kahn."""
import contextlib
import fcntl
import os
import socket
import subprocess
import time

import common
from common import TOP, Room, measured_well, text_of

KAHN, LIVE, DRAW, EXPLAIN = (common.program(name) for name in common.NAMES)


class Streams(Room):
    def setUp(self):
        super().setUp()
        self.put(sum=text_of(f"{TOP}/tests/programs/sum.kahn"), wrong="begin x")

    def writes_of(self, words, text=""):
        """What a program writes on standard error, write by write. A packet of the socket is what one call wrote."""
        ours, theirs = socket.socketpair(socket.AF_UNIX, socket.SOCK_SEQPACKET)
        run = subprocess.Popen(words, cwd=self.folder, stdin=subprocess.PIPE, stdout=subprocess.DEVNULL, stderr=theirs)
        theirs.close()
        with contextlib.suppress(BrokenPipeError):
            run.stdin.write(text.encode())
            run.stdin.close()
        packets = []
        while packet := ours.recv(1 << 20):
            packets.append(packet.decode())
        ours.close()
        run.wait()
        return packets

    def test_each_line_by_one_write(self):
        for name, words, text in (
            ("a fault in a text", [KAHN, "wrong"], ""),
            ("no such file", [KAHN, "nothing"], ""),
            ("a picture of a wrong text", [DRAW, "wrong"], ""),
            ("a picture of a run on a wrong input", [DRAW, "sum", "--input", "wrong"], ""),
            ("a file that can't be explained", [EXPLAIN, "nothing"], ""),
            ("a live text that is wrong", [LIVE, "wrong"], ""),
            ("no such live file", [LIVE, "nothing"], ""),
            ("refused lines", [LIVE, "sum"], "A: x\nA: y\nQ: 1\nA\n1\nA: 9223372036854775807\nA: 1\n"),
            ("the end of values alone", [LIVE, "sum", "--plain", "A"], "1\nx\n2"),
            ("a channel that isn't there", [LIVE, "sum", "--plain", "A,NONE"], "1\n"),
        ):
            packets = self.writes_of(words, text)
            together = [it for it in packets if it.count("\n") != 1 or not it.endswith("\n")]
            causes = ["1 process has a fault"] if name == "refused lines" else []
            self.same(f"{name}: each line by one write, but the causes together", [it.split("\n")[0] for it in together], causes)
            self.same(f"{name}: whole lines", all(it.endswith("\n") for it in packets))
            self.same(f"{name}: something is said", packets != [])

    def test_a_million_refused_lines(self):
        """In some seconds of processor time and 300 MB."""
        self.put(lines="A: x\nQ: 1\n" * 500_000)
        status, seconds, room, quick = measured_well(6, [LIVE, "sum"], f"{self.folder}/lines", f"{self.folder}/told", folder=self.folder)
        self.same(f"a million refused lines: {seconds:.2f} s, {room} kB", (status, quick, room <= 300 * 1024), (1, True, True))

    def test_streams_that_do_not_block(self):
        read_end, write_end = os.pipe()
        fcntl.fcntl(read_end, fcntl.F_SETFL, os.O_NONBLOCK)
        words = {"cwd": self.folder, "stderr": subprocess.PIPE}
        with subprocess.Popen([LIVE, "sum", "--plain", "A"], stdin=read_end, stdout=subprocess.PIPE, **words) as run:
            os.close(read_end)
            time.sleep(0.2)
            os.write(write_end, b"1\n")
            self.same("input: a line", run.stdout.readline(), b"1\n")
            os.write(write_end, b"2\n")
            os.close(write_end)
            self.same("input: the rest", (run.stdout.read(), run.stderr.read(), run.wait()), (b"3\n", b"", 0))
        read_end, write_end = os.pipe()
        fcntl.fcntl(write_end, fcntl.F_SETFL, os.O_NONBLOCK)
        self.put(numbers="1\n" * 50_000)
        with open(f"{self.folder}/numbers", "rb") as numbers, subprocess.Popen([LIVE, "sum", "--plain", "A"], stdin=numbers, stdout=write_end, **words) as run:
            os.close(write_end)
            time.sleep(0.5)
            with os.fdopen(read_end) as output:
                self.same("output", sum(1 for _ in output), 50_000)
            self.same("output: status", (run.stderr.read(), run.wait()), (b"", 0))

    def test_no_secret(self):
        """If the system has no secret for the hashes of names, the program text counts as one that can't be read."""
        library = self.refusing("refuse_secret.c")
        for program in (KAHN, LIVE, DRAW, EXPLAIN):
            given = self.ran(program, "sum", LD_PRELOAD=library)
            self.same(f"{os.path.basename(program)} without a secret", given, ("", "kahn: cannot read sum\n", 5))

    def test_want_of_memory_for_arguments(self):
        """Each growth refused until the arguments are read: their strings, their list, and what is read of them."""
        library, wanting = self.refusing("refuse_growth.c"), 0
        refused = "error: invalid value '17' for '--workers <N>': 17 is not in 1..=16"
        for number in range(1, 41):
            out, err, status = self.ran(KAHN, "--workers", "17", FAIL_AT=str(number), LD_PRELOAD=library)
            is_read = status == 2 and err.split("\n")[0] == refused
            wanting += not is_read
            self.same(f"growth {number}", (out, status, err), ("", 2, err) if is_read else ("", 4, "kahn: no memory\n"))
        self.same(f"{wanting} of 40 growths are of the arguments", 10 < wanting < 40)
