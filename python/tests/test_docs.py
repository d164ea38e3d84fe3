"""The package's own documentation: every public name has a sentence and type hints, and examples that run."""

import doctest
import importlib
import inspect
import pkgutil
import sys
import unittest
from typing import get_type_hints

from cases import note

import cavzemil
from cavzemil import Colorant, Refusal, Screen, Separation, refusals

MODULES = [f"cavzemil.{found.name}" for found in pkgutil.iter_modules(cavzemil.__path__) if found.name != "__main__"]


def load_tests(loader, tests, pattern):
    """Adds the examples of every module that has some."""
    for name in "cavzemil", *MODULES:
        module = importlib.import_module(name)
        if any(found.examples for found in doctest.DocTestFinder().find(module)):
            tests.addTests(doctest.DocTestSuite(module))
    return tests


def members(kind):
    """The public methods of a class, and the functions behind its public properties."""
    for name, found in inspect.getmembers(kind):
        member = found.fget if isinstance(found, property) else found
        if not name.startswith("_") and (inspect.isfunction(member) or inspect.ismethod(member)):
            yield name, member


def public():
    """What a caller meets: the functions and classes that the package exports and that `refusals` has, and the methods and
    properties of the classes."""
    met = {name: getattr(cavzemil, name) for name in cavzemil.__all__}
    own = {name: found for name, found in vars(refusals).items() if getattr(found, "__module__", "") == refusals.__name__}
    met.update((f"refusals.{name}", found) for name, found in own.items() if not name.startswith("_"))
    for name, found in met.items():
        if callable(found):
            yield name, found
        if inspect.isclass(found):
            yield from ((f"{name}.{part}", member) for part, member in members(found))


def hints(found):
    """The hints of a function, by parameter and `return`. What they say must have a meaning while a program runs, but in
    Python 3.9, which does not read all of them."""
    return get_type_hints(found) if sys.version_info >= (3, 10) else found.__annotations__


class Documented(unittest.TestCase):
    """Every public name is explained, and every function has hints and an example."""

    def test_public(self):
        """Exported functions, classes, methods, properties and refusals are among what is met."""
        due = {"charge", "Slope", "Slope.parse", "Screen.slope", "Screen.render", "refusals.Slope", "refusals.check"}
        self.assertLessEqual(due, dict(public()).keys())

    def test_sentences(self):
        for name, found in public():
            self.assertTrue(found.__doc__, name)

    def test_examples(self):
        for name, found in public():
            if inspect.isroutine(found):
                self.assertIn(">>> ", inspect.getdoc(found), name)

    def test_hints(self):
        if sys.version_info < (3, 10):
            note("cavzemil: this Python is 3.9, and that hints have a meaning while a program runs is left out")
        for name, found in public():
            made = found if inspect.isroutine(found) else vars(found).get("__init__")
            if made:
                parameters = {*inspect.signature(made).parameters} - {"self"}
                self.assertEqual(hints(made).keys(), {"return", *parameters}, name)

    def test_what_help_names(self):
        """What a reader of `help` would not find otherwise."""
        named = {
            cavzemil: ("`bands`", "`Screen.moved`", "CAVZEMIL_LIBRARY", "raises a plain ValueError"),
            Refusal: ("`number`", "`sentence`", "`cavzemil.refusals`"), refusals.TalliesLength: ("no `expected`",),
            Colorant: ("`Colorant.of_set`",), Separation: ("`Separation.parse`",),
            Screen.render: ("Take `render` unless",), Screen.render_brick: ("Take `render` unless",),
        }
        for found, words in named.items():
            for word in words:
                self.assertIn(word, inspect.getdoc(found))
