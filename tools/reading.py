"""Holds README's reading list for auditors against the contracts: python3 tools/reading.py

What a contract of a call names, and what that is defined by in turn, must be in the list beside its file, as far as it isn't the
definition's own; and each name in the list must be defined in its file. A file with `all` has all its names. The last line is
`N passed, M failed`, counted in names. Run it where crates.txt stands.
"""

import re
import sys
from pathlib import Path

# The crates whose public functions are the calls; of the others, the functions in place (`.._in`) are.
CALLS = ["translate", "load", "test", "probe", "mmu", "tableless", "pair", "audit", "list", "host", "host_audit", "host_list", "replay", "whole"]

FUNCTION = re.compile(r'^pub fn (\w+)(.*?)^\{$', re.DOTALL | re.MULTILINE)
IMPORT = re.compile(r"^(?:ghost )?use Rattle\.(\w+)\.specs\.(\w+)\.\{(.*?)\}", re.MULTILINE | re.DOTALL)

# What a reader has elsewhere: the definition, which is read whole, and the library.
ELSEWHERE = ["definition", "std", "core"]
DEFINES = re.compile(r"^(?:abbrev |unfoldable )?pub (?:record |data )?([^\s:]+)", re.MULTILINE)
ROW = re.compile(r"^\| `(crates/\w+/specs/\w+\.antt)` \|([^|]*)\|", re.MULTILINE)
WORD = re.compile(r"[^\s(){};,.:]+")


def imported(source):
    """The names that a source takes from specs/, each with its file and its name there, as far as they aren't elsewhere."""
    found = {}
    for crate, module, names in IMPORT.findall(source):
        for name in names.split(",") if crate not in ELSEWHERE else []:
            there, _, here = name.strip().partition(" as ")
            found[here or there] = (f"crates/{crate}/specs/{module}.antt", there)
    return found


def offered(path):
    """Whether a file's functions can be called from another crate: its module is the root, or public there."""
    root = path.parent / "lib.rt"
    return path == root or not root.exists() or f"\npub mod {path.stem};\n" in "\n" + root.read_text()


def in_contracts():
    """What the calls' contracts name: file and name."""
    found = set()
    for path in filter(offered, Path("crates").glob("*/src/**/*.rt")):
        source = path.read_text()
        names = imported(source)
        for function, contract in FUNCTION.findall(source):
            if path.parts[1] in CALLS or function.endswith("_in"):
                found |= {names[word] for word in WORD.findall(contract) if word in names}
    return found


def defined_in(file):
    """Each name that a file of specs/ defines, with its text: up to the next empty line."""
    parts = re.split(r"\n\s*\n", Path(file).read_text()) if Path(file).exists() else []
    return {name: part for part in parts for name in DEFINES.findall(part)}


def rested_on(named):
    """These, and all that their own texts name in turn."""
    found, left = set(), list(named)
    while left:
        file, name = left.pop()
        if (file, name) not in found:
            found.add((file, name))
            own = defined_in(file)
            names = imported(Path(file).read_text()) | {other: (file, other) for other in own}
            left += [names[word] for word in WORD.findall(own.get(name, "")) if word in names]
    return found


def listed():
    """What README lists: file and name."""
    found = set()
    for file, names in ROW.findall(Path("README.md").read_text()):
        found |= {(file, name) for name in (defined_in(file) if names.strip() == "all" else re.findall(r"`([^`]+)`", names))}
    return found


def main():
    complaints = [f"there is no crate {crate}: tools/reading.py says which have the calls" for crate in CALLS if not Path("crates", crate).exists()]
    complaints += [f"README's reading list lacks {name} of {file}" for file, name in sorted(rested_on(in_contracts()) - listed())]
    complaints += [f"{file}, of README's reading list, has no {name}" for file, name in sorted(listed()) if name not in defined_in(file)]
    for complaint in complaints:
        print(complaint)
    print(f"{len(listed())} passed, {len(complaints)} failed")
    return len(complaints) > 0


sys.exit(main())
