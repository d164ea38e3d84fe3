"""Checks what cargo says of the packages in rust/, on standard input: the version that is given, what they link and need.

    cargo metadata --format-version 1 --no-deps | python3 -B tests/rust/check_manifests.py VERSION
"""

import json
import sys

# what each package that a program is built with links, and the lowest compiler that it needs
DUE = {"cavzemil": (None, "1.84"), "cavzemil-sys": ("cavzemil", "1.84")}


def wrong(packages, version):
    """What is wrong with the packages."""
    for name, due in DUE.items():
        package = packages[name]
        if package["version"] != version:
            yield f"{name} has the version {package['version']}, and {version} is due"
        if (package["links"], package["rust_version"]) != due:
            yield f"{name} links {package['links']} and needs Rust {package['rust_version']}, and {due} is due"
        if not package["description"]:
            yield f"{name} has no description"


def main(version):
    packages = {package["name"]: package for package in json.load(sys.stdin)["packages"]}
    found = list(wrong(packages, version))
    sys.exit("\n".join(found) or None)


main(*sys.argv[1:])
