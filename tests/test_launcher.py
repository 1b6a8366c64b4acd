"""Attacks on ./kahn and install.sh, tests/launcher/*.t: what another user, a folder, an older program or a kill can make them run, install,
leave or remove. With each fault of tests/launcher/faults.txt some attack has to show it. What wants a second user is tried by root alone."""
import concurrent.futures
import os
import shutil
import subprocess

import sessions
from common import SCRIPTS, TOP, Room, Tried, text_of

HERE = f"{TOP}/tests/launcher"


class Launcher(Room):
    def setUp(self):
        super().setUp()
        os.chmod(self.folder, 0o755)
        self.right = f"{self.folder}/right"
        subprocess.run([os.environ.get("CC", "cc"), "-o", self.right, f"{HERE}/told.c"], check=True)

    def failed(self, name, launcher, folder):
        """The last thing that fails of a session by the launcher of a folder, or nothing."""
        tried = Tried(quiet=True)
        sessions.try_session(f"{HERE}/{name}.t", "/usr/bin", f"{self.folder}/{folder}", "", tried, OF=launcher, RIGHT=self.right)
        return tried.told or ("" if tried.passed else "nothing is tried")

    def failed_with(self, number, attack, file, edit):
        """The same by the launcher of this tree with a fault, if it has a place in the file."""
        launcher = f"{self.folder}/{number}.faulty"
        shutil.copytree(f"{TOP}/release", f"{launcher}/release", ignore=shutil.ignore_patterns("out"))
        subprocess.run(["cp", "-P", *(f"{TOP}/{it}" for it in ("kahn", "kahn_draw", "kahn_explain", "kahn_live", "kahn_page", *SCRIPTS, "install.sh")), launcher], check=True)
        subprocess.run(["sed", "-i", edit, f"{launcher}/{file}"], check=True)
        return text_of(f"{launcher}/{file}") != text_of(f"{TOP}/{file}") and self.failed(attack, launcher, number)

    def test_attacks(self):
        names = sorted(it[:-2] for it in os.listdir(HERE) if it.endswith(".t") and (it != "other.t" or os.getuid() == 0))
        with concurrent.futures.ThreadPoolExecutor(4) as pool:
            for name, told in zip(names, pool.map(lambda name: self.failed(name, TOP, name), names)):
                self.same(name, told, "")

    def test_faults(self):
        lines = [line.split("#")[0].split(None, 2) for line in text_of(f"{HERE}/faults.txt").splitlines() if not line.startswith("#")]
        lines = [(str(at), *line) for at, line in enumerate(lines) if line[0] != "other" or os.getuid() == 0]
        with concurrent.futures.ThreadPoolExecutor(4) as pool:
            for line, told in zip(lines, pool.map(lambda line: self.failed_with(*line), lines)):
                self.same(f"a fault that no attack shows: {line}", bool(told))
