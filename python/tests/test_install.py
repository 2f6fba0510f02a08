"""Tests of the package as it is installed: by pip, without network."""
import os
import subprocess
import sys
import tempfile
import tomllib
import unittest
import zipfile
from pathlib import Path

from . import HERE, TOP

WHEEL = "-py3-none-any.whl"
PACKAGE = HERE.parent
sys.path.insert(0, str(PACKAGE))
import build_backend


def run(*words, **env):
    ended = subprocess.run(
        [sys.executable, *words], env=os.environ | env, cwd="/", capture_output=True, text=True
    )
    return ended.returncode, ended.stdout + ended.stderr


class Installed(unittest.TestCase):
    def test_the_version_is_that_of_the_repository(self):
        said = tomllib.loads((PACKAGE / "pyproject.toml").read_text(encoding="utf-8"))
        self.assertEqual((TOP / "VERSION").read_text().strip(), said["project"]["version"])

    def test_the_wheel_has_every_file(self):
        with tempfile.TemporaryDirectory() as folder:
            name = build_backend.build_wheel(folder)
            with zipfile.ZipFile(Path(folder, name)) as wheel:
                self.assertIsNone(wheel.testzip())
                files = {file for file in wheel.namelist() if ".dist-info/" not in file}
                record = wheel.read(f"{name.removesuffix(WHEEL)}.dist-info/RECORD").decode()
        sources = {path.relative_to(build_backend.SOURCES) for path in build_backend.sources()}
        self.assertEqual({path.as_posix() for path in sources}, files)
        self.assertIn("yuccadarts/pages/map.js", files)
        self.assertEqual(len(files) + 4, len(record.splitlines()))

    @unittest.skipIf(run("-m", "pip", "--version")[0], "pip isn't there")
    def test_pip_installs_it(self):
        with tempfile.TemporaryDirectory() as folder:
            quiet = "-q", "--no-index", "--disable-pip-version-check"
            words = "-m", "pip", "install", *quiet, "--target", folder, str(PACKAGE)
            status, said = run(*words, PIP_FIND_LINKS="")
            self.assertEqual(0, status, said)
            status, said = run("-m", "yuccadarts", "--help", PYTHONPATH=folder)
            self.assertEqual(0, status, said)
            self.assertIn("board", said)
            self.assertTrue(os.access(Path(folder, "bin", "yuccadarts"), os.X_OK))
