"""`./try` as a user without rights runs it, in a copy of this tree with the programs that are tried."""
import os
import shutil
import subprocess
import tempfile
import unittest

from common import NAMES, TOP, program

USER = ("setpriv", "--reuid=65534", "--regid=65534", "--clear-groups", "--inh-caps=-all", "--bounding-set=-all")
STAMP = 'top=$PWD; source release/program.sh; read_sources; for name in "${programs[@]}"; do stamp "$name" "$standing"; done'


class User(unittest.TestCase):
    def test_try(self):
        """Who isn't root runs it as oneself. The copy lies where everybody can go, and is that user's."""
        with tempfile.TemporaryDirectory() as folder:
            os.chmod(folder, 0o755)
            tree, is_root = f"{folder}/tree", os.getuid() == 0
            shutil.copytree(TOP, tree, symlinks=True, ignore=shutil.ignore_patterns(".git", ".drive", "out", "__pycache__"))
            for name in NAMES:
                os.makedirs(f"{tree}/crates/{name}/out")
                shutil.copy(program(name), f"{tree}/crates/{name}/out/{name}")
            os.mkdir(f"{tree}/out")
            if is_root:
                subprocess.run(["chown", "-R", "65534:65534", tree], check=True)
            variables = {name: value for name, value in os.environ.items() if not name.startswith("KAHN")}
            for words in (["bash", "-c", STAMP], ["./try"]):
                ran = subprocess.run([*(USER if is_root else ()), *words], cwd=tree, env={**variables, "HOME": f"{tree}/out"}, stdin=subprocess.DEVNULL,
                                     stdout=subprocess.PIPE, stderr=subprocess.STDOUT, text=True, errors="replace")
                failed = [line for line in ran.stdout.splitlines() if line.startswith("FAILED")]
                self.assertEqual((ran.returncode, failed), (0, []), ran.stdout[-2000:])
