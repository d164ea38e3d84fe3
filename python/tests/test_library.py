"""Which library is loaded, and what is said where none is: each case in a Python of its own."""

import os
import shutil
import subprocess
import sys
import tempfile
import unittest
from pathlib import Path

from cases import ROOT, note

from cavzemil._interface import FUNCTIONS
from cavzemil._library import RULES, SONAME

BUILT = ROOT / "target" / "sharedlib"
SHOWN = "import cavzemil; print(cavzemil._library.library._name)"


def compiled(folder, source):
    """A library of C's source in a folder, under the name that the loader looks for."""
    path = Path(folder) / SONAME
    words = ["cc", "-shared", "-fPIC", "-x", "c", "-", "-o", str(path)]
    subprocess.run(words, input=source.encode(), check=True)
    return path


def other_rules():
    """C's source of a library that has all functions and follows other rules."""
    others = "".join(f"void {name}(void) {{}}\n" for name in FUNCTIONS if name != "cavzemil_rules")
    return others + f"unsigned cavzemil_rules(void) {{ return {RULES - 1}; }}\n"


class Found(unittest.TestCase):
    """The environment's library, else the repository's, else the loader's."""

    def setUp(self):
        temporary = tempfile.TemporaryDirectory()
        self.addCleanup(temporary.cleanup)
        self.folder = Path(temporary.name).resolve()
        self.outside = self.folder / "packages"
        self.clone = self.folder / "clone"
        for packages in self.outside, self.clone / "python":
            shutil.copytree(ROOT / "python" / "cavzemil", packages / "cavzemil")
        shutil.copy(ROOT / "python" / "pyproject.toml", self.clone / "python")

    def import_from(self, packages, **environment):
        """Imports the package in a clean environment: the library's name and what is said on standard error."""
        kept = {name: os.environ[name] for name in ("PATH", "HOME") if name in os.environ}
        words = [sys.executable, "-W", "error", "-B", "-c", SHOWN]
        ran = subprocess.run(
            words, env={**kept, "PYTHONPATH": str(packages), **environment}, cwd=self.folder, capture_output=True,
            text=True, check=False,
        )
        return ran.stdout.strip(), ran.stderr

    def check_told(self, told, *words):
        """What is said has all of some words, as an ImportError."""
        name, said = told
        self.assertEqual(name, "")
        for word in "ImportError: ", *words:
            self.assertIn(word, said.splitlines()[-1])

    def test_repository(self):
        name, said = self.import_from(ROOT / "python")
        self.assertEqual((name, said), (str(BUILT / SONAME), ""))

    def test_environment(self):
        shutil.copy(BUILT / SONAME, self.folder / "library")
        for packages in ROOT / "python", self.outside:
            for named in str(self.folder / "library"), "library":
                name, said = self.import_from(packages, CAVZEMIL_LIBRARY=named)
                self.assertEqual((name, said), (str(self.folder / "library"), ""))

    def test_loader(self):
        name, said = self.import_from(self.outside, LD_LIBRARY_PATH=str(BUILT))
        self.assertEqual((name, said), (SONAME, ""))

    def test_own_build_before_the_loaders(self):
        compiled(self.folder, other_rules())
        name, said = self.import_from(ROOT / "python", LD_LIBRARY_PATH=str(self.folder))
        self.assertEqual((name, said), (str(BUILT / SONAME), ""))

    def test_none(self):
        name, said = self.import_from(self.outside)
        if name == SONAME:
            note("cavzemil: a library is installed here, so that what is said where there is none is left out")
        else:
            self.check_told((name, said), ": install it by `bash scripts/install` in", "or let CAVZEMIL_LIBRARY name", SONAME)
            self.check_told(self.import_from(self.clone / "python"), f": make it by `bash scripts/build` in {self.clone}, or")

    def test_named_and_not_there(self):
        for packages in ROOT / "python", self.outside:
            told = self.import_from(packages, CAVZEMIL_LIBRARY="nowhere.so")
            self.check_told(told, f"CAVZEMIL_LIBRARY names {self.folder}/nowhere.so", "No such file")

    def test_no_library(self):
        (self.folder / "text").write_text("no library")
        self.check_told(self.import_from(self.outside, CAVZEMIL_LIBRARY="text"), "CAVZEMIL_LIBRARY names", "/text")

    def test_function_missing(self):
        path = compiled(self.folder, f"unsigned cavzemil_rules(void) {{ return {RULES}; }}\n")
        self.check_told(self.import_from(self.outside, CAVZEMIL_LIBRARY=str(path)), "cavzemil_make_screen", str(path))

    def test_other_rules(self):
        path = compiled(self.folder, other_rules())
        words = f"follows rules {RULES - 1}, and this package is written for rules {RULES}"
        self.check_told(self.import_from(self.outside, CAVZEMIL_LIBRARY=str(path)), str(path), words)
        self.check_told(self.import_from(self.outside, LD_LIBRARY_PATH=str(self.folder)), SONAME, words)

    def test_other_rules_in_a_clone(self):
        """What a repository has built for other rules is to be made anew."""
        built = self.clone / "target" / "sharedlib"
        built.mkdir(parents=True)
        path = compiled(built, other_rules())
        first = f": make it by `bash scripts/build` in {self.clone}, or install it by"
        self.check_told(self.import_from(self.clone / "python"), str(path), first)
