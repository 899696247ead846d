"""Installing by pip, without a network, into environments that have nothing but pip."""
from __future__ import annotations

import email
import os
import pathlib
import shutil
import subprocess
import sys
import sysconfig
import tempfile
import unittest
import venv
import zipfile

import ribbonscarp
from ribbonscarp import library
from support import TOP

LIBRARY = str(library.library()._name)
QUIET = ["-q", "--disable-pip-version-check", "--no-index"]


def has_pip() -> bool:
    command = [sys.executable, "-m", "ensurepip", "--version"]
    return subprocess.run(command, capture_output=True, check=False).returncode == 0


@unittest.skipUnless(has_pip(), "ensurepip isn't here")
class InstallTest(unittest.TestCase):
    @classmethod
    def setUpClass(cls) -> None:
        folder = tempfile.TemporaryDirectory()
        cls.addClassCleanup(folder.cleanup)
        cls.folder = pathlib.Path(folder.name)
        venv.create(cls.folder / "fresh", with_pip=True)
        cls.python = cls.folder / "fresh/bin/python"

    folder: pathlib.Path
    python: pathlib.Path

    def setUp(self) -> None:
        """A fresh copy of the source, and an environment that the package isn't in."""
        self.source = self.folder / "source"
        shutil.copytree(TOP / "python", self.source, ignore=shutil.ignore_patterns("__pycache__", "tests"))
        self.addCleanup(shutil.rmtree, self.source)
        self.addCleanup(self.uninstall)
        self.environment = {name: value for name, value in os.environ.items() if not name.startswith(("PYTHON", "PIP_"))}
        # As where no host of packages can be reached.
        self.environment.update(PIP_INDEX_URL="http://127.0.0.1:9", PYTHONDONTWRITEBYTECODE="1")

    def uninstall(self) -> None:
        words = ["-m", "pip", "uninstall", "-q", "-y", "ribbonscarp"]
        subprocess.run([self.python, *words], env=self.environment, capture_output=True, check=True)
        self.assertEqual(list((self.folder / "fresh").rglob("ribbonscarp*")), [])

    def run_python(self, *words: str) -> str:
        command = [str(self.python), *words]
        done = subprocess.run(
            command, env=self.environment, cwd=self.folder, capture_output=True, text=True, check=False
        )
        self.assertEqual((done.returncode, done.stderr), (0, ""))
        return done.stdout

    def where(self, module: str = "ribbonscarp") -> pathlib.Path:
        code = f"import {module} as m, ribbonscarp; ribbonscarp.Station().close(); print(m.__file__)"
        return pathlib.Path(self.run_python("-c", code).strip())

    def test_install(self) -> None:
        """As it stands, without isolation, as a wheel, and as a link to the source; each is taken away again."""
        self.environment["RIBBONSCARP_LIBRARY"] = LIBRARY
        fresh, source = self.folder.resolve() / "fresh", str(self.source)
        for words in ([source], ["--no-build-isolation", source], ["-e", source]):
            self.run_python("-m", "pip", "install", *QUIET, *words)
            top = self.source.resolve() if "-e" in words else fresh
            self.assertIn(top, self.where().resolve().parents)
            self.assertTrue(self.where("ribbonscarp.pytest_plugin").exists())
            said = self.run_python("-m", "pip", "show", "--disable-pip-version-check", "ribbonscarp")
            self.assertIn(f"Name: ribbonscarp\nVersion: {ribbonscarp.__version__}\nSummary: IBM 5250", said)
            self.uninstall()

    def test_wheels(self) -> None:
        """One without the library is for any platform, one with it for this one, and needs no variable."""
        self.run_python("-m", "pip", "wheel", *QUIET, "-w", "any", str(self.source))
        shutil.copy(LIBRARY, self.source / "ribbonscarp/libribbonscarp.so")
        self.run_python("-m", "pip", "wheel", *QUIET, "-w", "own", str(self.source))
        version, platform = ribbonscarp.__version__, sysconfig.get_platform().replace("-", "_").replace(".", "_")
        own = self.folder / f"own/ribbonscarp-{version}-py3-none-{platform}.whl"
        with zipfile.ZipFile(self.folder / f"any/ribbonscarp-{version}-py3-none-any.whl") as wheel:
            about = email.message_from_bytes(wheel.read(f"ribbonscarp-{version}.dist-info/METADATA"))
            packed = {name for name in wheel.namelist() if name.startswith("ribbonscarp/")}
        files = {f"ribbonscarp/{file.name}" for file in (TOP / "python/ribbonscarp").iterdir() if file.is_file()}
        self.assertEqual(packed, files)
        self.assertEqual((about["Version"], about["Requires-Python"]), (version, ">=3.10"))
        self.assertIn("Typing :: Typed", about.get_all("Classifier", []))
        self.assertRegex(about["Project-URL"], "^Homepage, https://")
        self.assertIn("# ribbonscarp", about.get_payload())
        self.run_python("-m", "pip", "install", *QUIET, str(own))
        self.environment.pop("RIBBONSCARP_LIBRARY", None)
        self.assertIn(self.folder.resolve() / "fresh", self.where().resolve().parents)

    def test_source(self) -> None:
        """An archive of the source installs too."""
        code = "import sys; sys.path.insert(0, 'source'); import build_backend; print(build_backend.build_sdist('.'))"
        name = self.run_python("-c", code).strip()
        self.environment["RIBBONSCARP_LIBRARY"] = LIBRARY
        self.run_python("-m", "pip", "install", *QUIET, name)
        self.where()
