"""What is declared for ctypes against the proved source, and the versions against the header."""

import ctypes
import re
import unittest

import rules
from cases import ROOT
from check_header import source_declared

import cavzemil
from cavzemil import _interface
from cavzemil._library import SONAME

C_TYPES = {
    "uint8_t": ctypes.c_uint8, "uint32_t": ctypes.c_uint32, "uint64_t": ctypes.c_uint64, "size_t": ctypes.c_size_t,
    "double": ctypes.c_double,
}


def struct_name(name):
    """What the package calls a struct of C."""
    return name.replace("cavzemil_", "").title()


def declared_type(written):
    """The type of ctypes that stands for one of C, as C writes it."""
    if written.endswith("*"):
        return ctypes.c_void_p
    base, _, length = written.rstrip("]").partition("[")
    found = C_TYPES.get(base) or getattr(_interface, struct_name(base))
    return found * int(length) if length else found


class Declarations(unittest.TestCase):
    """Names, types and order are those of the source."""

    def test_structs(self):
        due = {name: parts for name, (word, parts, _) in source_declared().items() if word == "fields"}
        found = {name for name, kind in vars(_interface).items() if isinstance(kind, type(ctypes.Structure))}
        self.assertEqual(found - {"Structure"}, set(map(struct_name, due)))
        for name, parts in due.items():
            fields = [(field, declared_type(written)) for field, written in parts.items()]
            self.assertEqual(getattr(_interface, struct_name(name))._fields_, fields, name)

    def test_functions(self):
        declared = source_declared()
        due = {name: rest for name, (word, *rest) in declared.items() if word == "parameters"}
        self.assertEqual(_interface.FUNCTIONS.keys(), due.keys())
        for name, (parts, answer) in due.items():
            parameters = [declared_type(written) for written in parts.values() if written]
            self.assertEqual(_interface.FUNCTIONS[name], (declared_type(answer), parameters), name)


class Versions(unittest.TestCase):
    """The header's macros are the source of every version."""

    def setUp(self):
        header = (ROOT / "include" / "cavzemil.h").read_text(encoding="utf-8")
        self.macros = dict(re.findall(r'^#define CAVZEMIL_(\w+) "?([0-9.]+)"?$', header, re.MULTILINE))

    def test_version(self):
        project = (ROOT / "python" / "pyproject.toml").read_text(encoding="utf-8")
        self.assertEqual(re.findall(r'^version = "(.*)"$', project, re.MULTILINE), [self.macros["VERSION"]])
        self.assertEqual(cavzemil.__version__, self.macros["VERSION"])

    def test_soname(self):
        self.assertEqual(SONAME, "libcavzemil.so.{VERSION_MAJOR}.{VERSION_MINOR}".format(**self.macros))

    def test_rules(self):
        self.assertEqual(cavzemil.RULES, int(self.macros["RULES"]))
        self.assertEqual((cavzemil.RULES, cavzemil.rules()), (rules.RULES_IN_FORCE,) * 2)
