#!/usr/bin/env python3
"""Checks that each name, edit and path in docs/STATEMENTS.md is there: a name in a definition, law or function of crates/, an edit in
the must-fail folder of the crate named before it, a path from the root or below crates/. Prints those that are not, and the counts."""
import re
import sys
from pathlib import Path

ROOT = Path(__file__).resolve().parent.parent
SOURCES = [path for kind in ("*.antt", "*.rt") for path in ROOT.glob(f"crates/**/{kind}")]
DEFINED = re.compile(
    r"^\s*(?:pub |abbrev |unfoldable |record |data |extern \"C\" |fn |struct |enum )*([^\s:({<]+)", re.MULTILINE
)


def defined():
    """The names that begin a line as a signature, a record, its field, a constructor, or a function of code."""
    names = {name for path in SOURCES for name in DEFINED.findall(path.read_text())}
    return names | {path.stem for path in SOURCES} | {path.name for path in ROOT.glob("crates/*")}


def main():
    text = (ROOT / "docs/STATEMENTS.md").read_text()
    names, passed, missing = defined(), 0, []
    crate = ""
    for quoted in re.findall(r"`([^`\n]+)`", text):
        if quoted.endswith(".edit"):
            crate = quoted.split("/")[0] if "/" in quoted else crate
            found = (ROOT / "crates" / crate / "must-fail" / quoted.split("/")[-1]).exists()
        elif "/" in quoted:
            found = any((base / quoted).exists() for base in (ROOT, ROOT / "crates", ROOT / "crates/table"))
        elif re.fullmatch(r"[\w\-']+", quoted):
            found = quoted in names
        else:
            continue
        passed += found
        if not found:
            missing.append(quoted)
    for quoted in missing:
        print(f"not there: {quoted}")
    print(f"{passed} passed, {len(missing)} failed")
    return 1 if missing or passed < 200 else 0


if __name__ == "__main__":
    sys.exit(main())
