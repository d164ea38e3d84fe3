"""Compares what the C header and the Rust crate declare with the proved source: run in the repository's root.

    python3 -B scripts/check_header.py [HEADER]

Structs and functions are compared as C writes them, in every name, type and order; a slice in the source is a
pointer and then a length. The header's constants are compared with the rules, its refusals and their sentences with
tests/refusals.txt, its inline functions with the list below, and its version with that of the packages. Says what
differs, and exits 1 where anything does.
"""

import re
import sys
from glob import glob

from files import read
from rules import COLORANTS, COLOURS, RULES_IN_FORCE, SEPARATIONS

HEADER = "include/cavzemil.h"
CRATE = "rust/sys/src/ffi.rs"
REFUSALS = "tests/refusals.txt"
NO_REFUSAL = "no refusal has this number"
# the version in the header, and in the files that repeat it, each with what stands before it there
VERSION = "#define CAVZEMIL_VERSION "
VERSIONS = {
    "rust/Cargo.toml": "version = ", "rust/sys/Cargo.toml": "version = ", "rust/plain/Cargo.toml": "version = ",
    "rust/testing/Cargo.toml": "version = ", "python/pyproject.toml": "version = ",
    "python/cavzemil/__init__.py": "__version__ = ",
}
C_NAMES = {
    "u8": "uint8_t", "u16": "uint16_t", "u32": "uint32_t", "u64": "uint64_t", "usize": "size_t", "f64": "double",
    "BrickSizes": "cavzemil_brick",
}
C_FORMS = {
    r"(\w+)": "{}", r"\[(\w+); (\d+)\]": "{}[{}]", r"\*const (\w+)": "const {} *", r"\*mut (\w+)": "{} *",
}
C_STRUCT = r"typedef struct \{([^{}]*)\} (\w+);"
C_FUNCTION = r"(\w+)\s+(\w+)\(([^()]*)\);"
# an inline function ends at the first brace that begins a line
C_INLINE = r"static inline ([\w ]+?[ *]+)(\w+)\(([^()]*)\) \{\n((?: .*\n)*)\}"
C_ENUM = r"enum \{([^{}]*)\};"
C_MACRO = r"#define (\w+) (.+)"
C_SENTENCE = r'(?:case (\w+)|(default)): return "(.*)";'
RUST_STRUCT = r"#\[repr\(C\)\]\s*(?:#\[[^\]]*\]\s*)*pub struct (\w+) \{([^{}]*)\}"
RUST_FUNCTION = r"fn (\w+)\(([^()]*)\)\s*->\s*(\w+)"
# the inline functions of the header, each with its parameters and what it answers
INLINE = {
    "cavzemil_refusal_text": ("uint32_t refusal", "const char *"),
    "cavzemil_rows_len": ("uint32_t columns, uint32_t rows, size_t row_len", "size_t"),
    "cavzemil_cells_len": ("uint32_t columns, uint32_t rows", "size_t"),
    "cavzemil_input_len": ("uint32_t columns, uint32_t rows", "size_t"),
    "cavzemil_plane_len": ("uint32_t columns, uint32_t rows", "size_t"),
    "cavzemil_planes_len": ("uint32_t columns, uint32_t rows", "size_t"),
}
# the lines of a header that declare nothing
FRAME = {
    "#ifndef CAVZEMIL_H", "#define CAVZEMIL_H", "#include <stddef.h>", "#include <stdint.h>", "#ifdef __cplusplus",
    "#if SIZE_MAX < UINT64_MAX", '#error "Cavzemil is for x86-64, where size_t has 64 bits"', 'extern "C" {', "}",
    "#endif", "",
}


def c_name(name):
    """What C calls a struct, or a type of numbers."""
    return C_NAMES.get(name) or "cavzemil_" + re.sub(r"\B([A-Z])", r"_\1", name).lower()


def c_type(kind):
    """How C writes a type; one that has no form there stays as it is."""
    for form, written in C_FORMS.items():
        if found := re.fullmatch(form, kind):
            base, *length = found.groups()
            return written.format(c_name(base), *length)
    return kind


def rust_parts(text):
    """The fields or parameters in a piece of Rust or of the source, each with its type in C."""
    text = re.sub(r"(\w+): &\[(\w+)\]", r"\1: *const \2, \1_len: usize", text)
    text = re.sub(r"(\w+): &mut \[(\w+)\]", r"\1: *mut \2, \1_len: usize", text)
    return {name: c_type(kind) for name, kind in re.findall(r"(\w+): ([^,]+?)\s*(?:,|$)", text)} or {"void": ""}


def rust_declared(text, mark):
    """Each struct laid out for C and each function after a mark: a word for its parts, the parts, the answer."""
    text = re.sub(r"//.*", "", text)
    structs, functions = re.findall(RUST_STRUCT, text), re.findall(mark + RUST_FUNCTION, text)
    declared = {c_name(name): ("fields", rust_parts(fields), None) for name, fields in structs}
    for name, parameters, answer in functions:
        declared[name] = "parameters", rust_parts(parameters), c_name(answer)
    return declared


def c_parts(text):
    """The fields or parameters in a piece of C, each with its type; names parted by commas share theirs."""
    parts = {}
    for declaration in text.strip().rstrip(";").split(";"):
        kind = ""
        for piece in declaration.split(","):
            part = kind + " ".join(piece.split())
            kind, name, length = re.fullmatch(r"(.*?)(\w*)((?:\[\d+\])?)", part).groups()
            parts[name] = kind.strip() + length
    return parts


def c_parameters(text, answer):
    """The declaration of a function by its parameters and answer, as C writes them."""
    return "parameters", c_parts(text.replace(",", ";")), answer.strip()


def c_declared(text):
    """The same of a header without comments, and all of its constants, macros and sentences as declarations more."""
    declared = {name: ("fields", c_parts(fields), None) for fields, name in re.findall(C_STRUCT, text)}
    for answer, name, parameters in re.findall(C_FUNCTION, re.sub(C_INLINE, "", text)):
        declared[name] = c_parameters(parameters, answer)
    for answer, name, parameters, _ in re.findall(C_INLINE, text):
        declared[f"inline {name}"] = c_parameters(parameters, answer)
    constants = re.findall(r"(\w+) = (\w+)", " ".join(re.findall(C_ENUM, text)))
    sentences = {case or default: sentence for case, default, sentence in re.findall(C_SENTENCE, text)}
    return {
        **declared, "constants": ("names", dict(constants), None), "sentences": ("names", sentences, None),
        "macros": ("names", dict(re.findall(C_MACRO, text)), None),
    }


def source_declared():
    """What the source declares for callers outside."""
    text = "".join(read(path) for path in glob("crates/cavzemil/src/**/*.rt", recursive=True))
    declared = rust_declared(text, r'#\[unsafe\(no_mangle\)\]\s*pub extern "C" ')
    exported = [name for name, (word, *_) in declared.items() if word == "parameters"]
    if len(exported) != text.count("no_mangle"):
        sys.exit("crates/cavzemil/src: a function is exported in a form that is not understood")
    return declared


def refusals():
    """Each refusal by its name in C: its number and its sentence."""
    rows = [line.split("\t") for line in read(REFUSALS).splitlines()]
    names = {"0": "CAVZEMIL_SERVED"}
    return {names.get(number, f"CAVZEMIL_REFUSED_{name}"): (number, sentence) for number, name, sentence in rows}


def constants_due():
    """The constants that are due: refusals by their list, separations and colorants by the rules."""
    orders = SEPARATIONS, [COLOURS[held] for held in COLORANTS]
    constants = {f"CAVZEMIL_{name.upper()}": str(value) for order in orders for value, name in enumerate(order)}
    return {**{name: number for name, (number, _) in refusals().items()}, **constants}


def macros_due(version):
    """The macros of a version, which is three numbers, and of the rules in force."""
    major, minor, patch = (version.split(".") + ["missing"] * 3)[:3]
    return {
        "CAVZEMIL_VERSION_MAJOR": major, "CAVZEMIL_VERSION_MINOR": minor, "CAVZEMIL_VERSION_PATCH": patch,
        "CAVZEMIL_VERSION": f'"{version}"', "CAVZEMIL_RULES": str(RULES_IN_FORCE),
    }


def header_due(version):
    """What a header of a version must declare: what the source does, and the rest by the rules and the lists."""
    sentences = {name: sentence for name, (_, sentence) in refusals().items()}
    return {
        **source_declared(), **{f"inline {name}": c_parameters(*parts) for name, parts in INLINE.items()},
        "constants": ("names", constants_due(), None), "macros": ("names", macros_due(version), None),
        "sentences": ("names", {**sentences, "default": NO_REFUSAL}, None),
    }


def between(found, due):
    """What differs between a declaration and the one that is due."""
    (word, parts, answer), (_, parts_due, answer_due) = found, due
    if list(parts) != list(parts_due):
        yield f"{word} {' '.join(parts)}, and {' '.join(parts_due)} are due"
    for name in parts:
        if parts[name] != parts_due.get(name, parts[name]):
            yield f"{name} is {parts[name]}, and {parts_due[name]} is due"
    if answer != answer_due:
        yield f"answers {answer}, and {answer_due} is due"


def differences(path, found, due):
    """What differs between the declarations in a file and those that are due."""
    for name in sorted(found.keys() | due.keys()):
        if name not in due:
            yield f"{path}: {name}: none is due"
        elif name not in found:
            yield f"{path}: {name}: missing"
        else:
            yield from (f"{path}: {name}: {what}" for what in between(found[name], due[name]))


def version_in(path, before):
    """The version that a file states after these words; an empty one where it states none."""
    found = re.search(rf'^{re.escape(before)}"(.*)"$', read(path), re.MULTILINE)
    return found[1] if found else ""


def header_differences(path):
    """What differs in a header, and its lines that are neither a declaration nor of the frame."""
    text = re.sub(r"/\*.*?\*/|//[^\n]*", "", read(path), flags=re.DOTALL)
    yield from differences(path, c_declared(text), header_due(version_in(path, VERSION)))
    rest = re.sub(f"{C_STRUCT}|{C_FUNCTION}|{C_INLINE}|{C_ENUM}|{C_MACRO}", "", text)
    yield from (f"{path}: not understood: {line}" for line in rest.split("\n") if line.strip() not in FRAME)


def version_differences(header):
    """Where a package has another version than the header."""
    due = version_in(header, VERSION)
    for path, before in VERSIONS.items():
        if (found := version_in(path, before)) != due:
            yield f"{path}: its version is '{found}', and that of {header} '{due}'"


def main(header=HEADER):
    crate = differences(CRATE, rust_declared(read(CRATE), "pub "), source_declared())
    different = [*header_differences(header), *crate, *version_differences(header)]
    right = f"header: {header} and {CRATE} declare what they must, and the packages have its version"
    print("\n".join(different) if different else right)
    sys.exit(bool(different))


if __name__ == "__main__":
    main(*sys.argv[1:])
