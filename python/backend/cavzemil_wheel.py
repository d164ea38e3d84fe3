"""Builds the package's wheel for pip: a zip file of its modules and what pip wants to know of them. It needs nothing but Python, so
that pip fetches nothing."""

from __future__ import annotations

import base64
import hashlib
import re
import zipfile
from pathlib import Path

FOLDER = Path(__file__).resolve().parent.parent
# the texts in pyproject.toml by their names
TOLD = dict(re.findall(r'^([a-z-]+) = "(.*)"$', (FOLDER / "pyproject.toml").read_text(), re.MULTILINE))
WHEEL = f"{TOLD['name']}-{TOLD['version']}"
METADATA = f"""\
Metadata-Version: 2.1
Name: {TOLD["name"]}
Version: {TOLD["version"]}
Summary: {TOLD["description"]}
Requires-Python: {TOLD["requires-python"]}
"""
TAGS = "Wheel-Version: 1.0\nGenerator: cavzemil_wheel\nRoot-Is-Purelib: true\nTag: py3-none-any\n"


def _files() -> dict[str, bytes]:
    """The files of the wheel by their paths in it, but for the list of them."""
    modules = [path for path in sorted((FOLDER / "cavzemil").iterdir()) if path.suffix in (".py", ".typed")]
    files = {f"cavzemil/{path.name}": path.read_bytes() for path in modules}
    return {**files, f"{WHEEL}.dist-info/METADATA": METADATA.encode(), f"{WHEEL}.dist-info/WHEEL": TAGS.encode()}


def _listed(path: str, content: bytes) -> str:
    """A file's line in the list: its path, its digest and its length."""
    digest = base64.urlsafe_b64encode(hashlib.sha256(content).digest()).rstrip(b"=").decode()
    return f"{path},sha256={digest},{len(content)}\n"


def build_wheel(wheel_directory: str, config_settings: object = None, metadata_directory: object = None) -> str:
    """Writes the wheel to a folder, and answers its name; pip calls it so (PEP 517)."""
    files, listed = _files(), f"{WHEEL}.dist-info/RECORD"
    files[listed] = ("".join(_listed(*file) for file in files.items()) + f"{listed},,\n").encode()
    name = f"{WHEEL}-py3-none-any.whl"
    with zipfile.ZipFile(Path(wheel_directory) / name, "w", zipfile.ZIP_DEFLATED) as wheel:
        for path, content in files.items():
            wheel.writestr(path, content)
    return name
