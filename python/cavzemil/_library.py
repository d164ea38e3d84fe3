"""Finding the shared library, and loading it when the package is imported."""

from __future__ import annotations

import os
from ctypes import CDLL
from pathlib import Path

from ._interface import FUNCTIONS

# The name has the version of the interface: the loader takes no library of another one for it.
SONAME = "libcavzemil.so.0.2"

RULES = 6
"""The number of the rules that this package is written for (rule 14.1)."""


def _repository() -> Path | None:
    """The repository's folder, where the package stands in the repository: pyproject.toml is then beside it."""
    folder = Path(__file__).resolve().parent.parent
    return folder.parent if (folder / "pyproject.toml").exists() else None


def _own_build() -> Path | None:
    """The library that the package's own repository has built, if there is one."""
    repository = _repository()
    build = repository / "target" / "sharedlib" / SONAME if repository else None
    return build if build and build.exists() else None


def _path() -> str:
    """Which library to load: the one that the environment names, else the repository's own, else the installed one."""
    named = os.environ.get("CAVZEMIL_LIBRARY")
    return os.path.abspath(named) if named else str(_own_build() or SONAME)


def _advice(path: str) -> str:
    """What to do where a library is not to be had."""
    if os.environ.get("CAVZEMIL_LIBRARY"):
        return f"CAVZEMIL_LIBRARY names {path}; let it name a {SONAME}, or unset it"
    repository = _repository()
    first = f"make it by `bash scripts/build` in {repository}, or " if repository else ""
    return f"{first}install it by `bash scripts/install` in Cavzemil's repository, or let CAVZEMIL_LIBRARY name a {SONAME}"


def _load(path: str) -> CDLL:
    """Loads a library and declares its functions."""
    try:
        library = CDLL(path)
        for name, (answer, parameters) in FUNCTIONS.items():
            function = getattr(library, name)
            function.restype, function.argtypes = answer, parameters
    except (OSError, AttributeError) as error:
        raise ImportError(f"Cavzemil's library can't be loaded ({error}): {_advice(path)}") from None
    return library


def _checked(path: str) -> CDLL:
    """The library at a path, if it follows the rules that this package is written for."""
    library = _load(path)
    found = library.cavzemil_rules()
    if found != RULES:
        raise ImportError(f"{path} follows rules {found}, and this package is written for rules {RULES}: {_advice(path)}")
    return library


library = _checked(_path())


def rules() -> int:
    """The number of the rules that the library follows (rule 14.1); it is loaded only where this is `RULES`.

    >>> rules()
    6
    """
    return library.cavzemil_rules()
