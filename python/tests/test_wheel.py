"""The wheel, and the package installed from it in a fresh virtual environment with no network."""

from __future__ import annotations

import base64
import csv
import hashlib
import io
import os
import shutil
import subprocess
import sys
import tempfile
import unittest
import zipfile
from pathlib import Path
from typing import List

import huwekapo
from huwekapo import library

from .records import allocate

PYTHON = Path(__file__).resolve().parent.parent
sys.path.insert(0, str(PYTHON / "backend"))

import huwekapo_wheel  # noqa: E402

THREE = allocate(2, 0) + allocate(1, 1) + allocate(3, 2)


def alone() -> List[str]:
    """What starts a command without a network, where the system can do that; nothing where it can't."""
    words = ["unshare", "--user", "--map-root-user", "--net"]
    if shutil.which("unshare") and subprocess.run([*words, "true"], capture_output=True, check=False).returncode == 0:
        return words
    return []


class Wheels(unittest.TestCase):
    def setUp(self) -> None:
        folder = tempfile.TemporaryDirectory()
        self.addCleanup(folder.cleanup)
        self.folder = Path(folder.name).resolve()
        (self.folder / "three.history").write_bytes(THREE)
        # Nothing of the clone is seen from the environment.
        hidden = ("PYTHONPATH", "HUWEKAPO_LIBRARY", "LD_LIBRARY_PATH", "VIRTUAL_ENV", "PYTHONHOME", "__PYVENV_LAUNCHER__")
        self.environment = {name: word for name, word in os.environ.items() if name not in hidden}
        self.environment.update(PIP_NO_INDEX="1", PIP_DISABLE_PIP_VERSION_CHECK="1", PIP_NO_CACHE_DIR="1")

    def started(self, *words: object) -> str:
        command = list(map(str, words))
        done = subprocess.run(command, cwd=self.folder, env=self.environment, capture_output=True, text=True, check=False)
        self.assertEqual(done.returncode, 0, done.stdout + done.stderr)
        return done.stdout

    def made(self, *words: str) -> Path:
        """A virtual environment, where this Python can make one."""
        where = self.folder / "environment"
        done = subprocess.run(
            [sys.executable, "-m", "venv", *words, str(where)], env=self.environment, capture_output=True, text=True, check=False
        )
        if done.returncode != 0:
            self.skipTest(f"no virtual environment can be made: {(done.stdout + done.stderr).strip().splitlines()[0]}")
        return where

    def test_contents(self) -> None:
        name = huwekapo_wheel.build_wheel(str(self.folder))
        self.assertRegex(name, rf"^huwekapo-{huwekapo.__version__}-py3-none-linux_\w+\.whl$")
        with zipfile.ZipFile(self.folder / name) as wheel:
            files = {entry: wheel.read(entry) for entry in wheel.namelist()}
        for module in (PYTHON / "huwekapo").glob("*.py"):
            self.assertEqual(files[f"huwekapo/{module.name}"], module.read_bytes())
        self.assertEqual(files["huwekapo/libhuwekapo.so"], Path(library.path()).read_bytes())
        self.assertIn("huwekapo/py.typed", files)
        listed = f"huwekapo-{huwekapo.__version__}.dist-info/RECORD"
        rows = list(csv.reader(io.StringIO(files[listed].decode())))
        self.assertEqual(sorted(row[0] for row in rows), sorted(files))
        for entry, digest, length in rows:
            if entry != listed:
                due = base64.urlsafe_b64encode(hashlib.sha256(files[entry]).digest()).rstrip(b"=").decode()
                self.assertEqual((digest, length), (f"sha256={due}", str(len(files[entry]))))
        # The same bytes again.
        first = (self.folder / name).read_bytes()
        huwekapo_wheel.build_wheel(str(self.folder))
        self.assertEqual((self.folder / name).read_bytes(), first)

    def test_another_library_is_refused(self) -> None:
        code = "import huwekapo_wheel, sys; huwekapo_wheel.build_wheel(sys.argv[1])"
        environment = {**self.environment, "HUWEKAPO_LIBRARY": "/nowhere", "PYTHONPATH": str(PYTHON / "backend")}
        done = subprocess.run(
            [sys.executable, "-c", code, self.folder], env=environment, capture_output=True, text=True, check=False
        )
        self.assertNotEqual(done.returncode, 0)
        self.assertIn("LibraryMissing: libhuwekapo.so was not found", done.stderr)
        self.assertEqual(list(self.folder.glob("*.whl")), [])

    def test_without_pip(self) -> None:
        where = self.made("--without-pip")
        python = where / "bin" / "python"
        site = self.started(python, "-c", "import sysconfig; print(sysconfig.get_path('platlib'))").strip()
        with zipfile.ZipFile(self.folder / huwekapo_wheel.build_wheel(str(self.folder))) as wheel:
            wheel.extractall(site)
        self.assertEqual(self.started(python, "-m", "huwekapo", "report", "--line", "three.history"), "3 6 3 0 6 0\n")
        used = self.started(python, "-c", "from huwekapo import library; print(library.path())").strip()
        self.assertEqual(used, f"{site}/huwekapo/libhuwekapo.so")

    def test_pip_without_a_network(self) -> None:
        where = self.made()
        shut_off = alone()
        # What install.sh, or the variable, names is taken into the wheel.
        self.environment["HUWEKAPO_LIBRARY"] = library.path()
        self.started(*shut_off, where / "bin" / "pip", "install", PYTHON)
        del self.environment["HUWEKAPO_LIBRARY"]
        command = where / "bin" / "huwekapo"
        self.assertEqual(self.started(command, "--version"), f"huwekapo {huwekapo.__version__}\n")
        self.assertEqual(self.started(*shut_off, command, "report", "--line", "three.history"), "3 6 3 0 6 0\n")
        self.assertIn("\n  huwekapo report caches.history\n", self.started(command, "report", "--help"))
        stopped = subprocess.run(
            [command, "report", "three.history", "--blocks", "8", "--roots", "2"],
            cwd=self.folder,
            env=self.environment,
            capture_output=True,
            check=False,
        )
        self.assertEqual(stopped.returncode, 3)
        used = self.started(where / "bin" / "python", "-c", "from huwekapo import library; print(library.path())").strip()
        self.assertTrue(used.startswith(str(where)), used)
        self.started(where / "bin" / "pip", "uninstall", "--yes", "huwekapo")
        self.assertEqual([path.name for path in where.rglob("*huwekapo*")], [])


if __name__ == "__main__":
    unittest.main()
