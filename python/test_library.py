"""Tests of how the shared library is built, found and loaded, and of what pip installs."""

import base64
import hashlib
import importlib.metadata
import os
import shutil
import subprocess
import sys
import tempfile
import unittest
from pathlib import Path

import malluvom

HERE = Path(__file__).resolve().parent
ROOT = HERE.parent
STATIC = Path(os.environ.get("MALLUVOM_LIB_DIR") or ROOT / "target" / "staticlib").resolve()
SHARED = Path(os.environ.get("MALLUVOM_SO") or ROOT / "target" / "python" / "libcxl0.so").resolve()
LOG = (ROOT / "examples" / "marked" / "04.log").read_bytes()

JUDGES = f"import malluvom; print(malluvom.__file__, malluvom.judge(bytes.fromhex('{LOG.hex()}')).steps)"


def run(*command, **settings):
    return subprocess.run(command, text=True, stdout=subprocess.PIPE, stderr=subprocess.STDOUT, **settings)


def sources():
    return {path for path in HERE.rglob("*") if "__pycache__" not in path.parts}


class Folder(unittest.TestCase):
    def setUp(self):
        folder = tempfile.TemporaryDirectory()
        self.addCleanup(folder.cleanup)
        self.folder = Path(folder.name).resolve()


class Loading(Folder):
    def load(self, named):
        environment = {**os.environ, "PYTHONPATH": str(HERE), "MALLUVOM_SO": named}
        return run(sys.executable, "-c", JUDGES, env=environment, cwd=self.folder)

    def test_a_named_library(self):
        shutil.copy(SHARED, self.folder / "other.so")
        for named in "other.so", "./other.so", str(self.folder / "other.so"):
            self.assertIn("Step(before=1, location=0, machine=1)", self.load(named).stdout)

    def test_what_is_not_the_library(self):
        (self.folder / "text.so").write_text("no library")
        run("gcc", "-shared", "-x", "c", "/dev/null", "-o", str(self.folder / "empty.so"), check=True)
        for named, sentence in (
            ("nowhere.so", "is not there: make it by python/build.sh"),
            ("text.so", "is not this module's library, which python/build.sh makes: "),
            ("empty.so", "is not this module's library, which python/build.sh makes: "),
        ):
            out = self.load(named).stdout
            self.assertIn(f"ImportError: {self.folder / named} {sentence}", out)


class Building(Folder):
    def build(self, *arguments, **changed):
        """Runs build.sh of a repository in which nothing is built, with an `rt` that only copies the library."""
        repository, rt = self.folder / "repository", self.folder / "bin" / "rt"
        python, tools, capi = (repository / name for name in ("python", "tools", "crates/capi"))
        for parent in python, tools, capi, rt.parent:
            parent.mkdir(parents=True, exist_ok=True)
        shutil.copy(HERE / "build.sh", python)
        shutil.copy(ROOT / "tools" / "build", tools)
        rt.write_text(f'#!/bin/sh -eu\necho "rt $*"\nmkdir -p out\ncp "{STATIC}/libcapi.a" out\n')
        rt.chmod(0o755)
        environment = {**os.environ, "PATH": f"{rt.parent}:{os.environ['PATH']}", **changed}
        return run(str(python / "build.sh"), *arguments, env=environment, cwd=self.folder)

    def test_without_the_library_rt_builds_it(self):
        built = self.build(MALLUVOM_LIB_DIR="")
        self.assertEqual((built.returncode, built.stdout), (0, "rt lib\n"))
        self.assertTrue((self.folder / "repository" / "target" / "python" / "libcxl0.so").is_file())

    def test_a_named_folder_needs_no_rt(self):
        built = self.build("named/libcxl0.so", MALLUVOM_LIB_DIR=str(STATIC))
        self.assertEqual((built.returncode, built.stdout), (0, ""))
        self.assertTrue((self.folder / "named" / "libcxl0.so").is_file())

    def test_a_wrong_folder(self):
        for named, sentence in (
            ("/nowhere", "/nowhere/libcapi.a is not there"),
            ("nowhere", "MALLUVOM_LIB_DIR must be an absolute path, and is nowhere"),
        ):
            built = self.build(MALLUVOM_LIB_DIR=named)
            self.assertEqual((built.returncode, built.stdout), (2, f"build.sh: {sentence}\n"))


class Installing(Folder):
    def test_pip_without_a_network(self):
        before = sources()
        site = self.folder / "site"
        environment = {name: value for name, value in os.environ.items() if not name.startswith("PIP_")}
        environment.update(PIP_NO_INDEX="1", PIP_CONFIG_FILE=os.devnull, MALLUVOM_LIB_DIR=str(STATIC))
        pip = [sys.executable, "-m", "pip", "install", "--target", str(site), str(HERE)]
        installed = run(*pip, env=environment, cwd=self.folder)
        self.assertEqual(installed.returncode, 0, installed.stdout)
        self.assertEqual(sources(), before)
        self.check_use(site)
        self.check_files(site)

    def check_use(self, site):
        judged = run(sys.executable, "-c", JUDGES, env={"PYTHONPATH": str(site)}, cwd=self.folder)
        steps = malluvom.judge(LOG).steps
        self.assertEqual(judged.stdout, f"{site / 'malluvom' / '__init__.py'} {steps}\n")

    def check_files(self, site):
        [installed] = importlib.metadata.distributions(name="malluvom", path=[str(site)])
        self.assertEqual(installed.version, malluvom.__version__)
        hashed = {str(file): file.hash for file in installed.files if file.hash}
        for name, found in hashed.items():
            digest = hashlib.new(found.mode, (site / name).read_bytes()).digest()
            self.assertEqual(base64.urlsafe_b64encode(digest).rstrip(b"=").decode(), found.value, name)
        package = {"malluvom/" + name for name in ("__init__.py", "_library.py", "py.typed", "libcxl0.so")}
        self.assertLessEqual(package, set(hashed))


if __name__ == "__main__":
    unittest.main()
