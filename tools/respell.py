#!/usr/bin/env python3
"""Brings this repository's own definitions and lemmas to today's spelling: words in snake case, a dash only between two names.

usage: python3 tools/respell.py        at the top of the repository, once, right after the toolchain's own script

It reads what specs/ and proofs/ declare, makes one new name for each, stops where two names would fall together, and then turns the
.antt files, the .rt files (clauses only name what is declared there) and the must-fail edits. Functions of src/, exported names,
strings, inputs and outputs keep theirs. --names prints the mapping and changes nothing; --docs FILE.. turns names in backticks.
"""
import glob
import re
import sys

KEEP = {"where", "let", "in", "use", "pub", "module", "elim", "abbrev", "unfoldable", "unfolding", "record", "data", "rw", "simp", "omega", "as"}
WORD = re.compile(r"[^\s(){}\[\];,.\"`]+")
DECLARED = re.compile(r"^(\s*)((?:abbrev |unfoldable |pub )*)([^\s:(){}\[\];,.]+)((?: \{[^}]*\})*) : (.*)$")
CLAUSE_NEW = re.compile(r"^(old|new|file):")


def antt():
    return sorted(glob.glob("crates/*/specs/**/*.antt", recursive=True) + glob.glob("crates/*/proofs/**/*.antt", recursive=True))


def declared():
    """Each name that a file of specs/ or proofs/ declares, but for the answers of a Proof.antt; and those that specs/ defines."""
    names, defined, fields, foreign = {}, set(), set(), set()
    for path in antt():
        inside = False
        for line in open(path, encoding="utf8"):
            if line.startswith("--"):
                continue
            if line.startswith("use ") and not re.match(r"use Rattle\.(?!std\b|core\b)", line):
                foreign.update(WORD.findall(line.split("{", 1)[-1]) if "{" in line else [])
                continue
            inside = bool(re.match(r"(pub )?(record|data) ", line)) or (inside and (line.startswith(" ") or not line.strip()))
            if re.match(r"\s*module ", line):
                continue
            m = DECLARED.match(line.rstrip("\n"))
            if not m or m[3] in KEEP or m[5].startswith("tie."):
                continue
            names.setdefault(m[3], path)
            if inside and m[1]:
                fields.add(m[3])
            if "/specs/" in path and not m[1]:
                defined.add(m[3])
    return names, defined, fields, foreign


def snake(word):
    return re.sub(r"(?<=[a-z0-9])([A-Z])", lambda m: "_" + m[1].lower(), word) if word[:1].islower() else word


def functions():
    found = set()
    for path in glob.glob("crates/*/src/**/*.rt", recursive=True):
        found.update(re.findall(r"\bfn (\w+)", open(path, encoding="utf8").read()))
    return found


def mapping():
    names, defined, fields, foreign = declared()
    std = {w for w in foreign if re.fullmatch(r"[a-z][a-z_]*", w)}
    words = {snake(w) for w in defined} | functions() | std | {"length", "append", "drop", "take", "set", "get_or", "map", "sum", "count", "least"}
    words = {w for w in words if w not in {"is", "in", "by", "at_least", "true", "false", "one", "zero", "suc", "refl", "ap", "sym", "inl", "inr", "tt", "cong"}}
    new = {}
    for name in names:
        if name in foreign or not re.search(r"[a-z]", name) or not name[0].islower():
            continue
        parts = [snake(p) for p in name.split("-")]
        to = parts[0]
        if name.endswith("-spec"):
            new[name] = "_".join(parts)
            continue
        for left, right in zip(parts, parts[1:]):
            to += ("-" if left in words and right in words else "_") + right
        to = to.replace("′", "'")
        if to != name:
            new[name] = to
    # names that would fall together keep their dash, or get `_lem`
    taken = {}
    for name in names:
        if name not in new:
            taken[name] = name
    for name in sorted(defined & set(new)):
        lemma = new[name]
        if taken.get(lemma) == lemma and lemma not in defined:
            new[lemma] = lemma + "_lem"
            del taken[lemma]
    for name in sorted(new, key=lambda n: (n not in defined, n)):
        for to in (new[name], name.replace("′", "'") if name.islower() else "-".join(snake(p) for p in name.split("-")), new[name] + "_lem"):
            if taken.get(to, name) == name and to not in foreign and (to not in functions() or "-" not in name):
                break
        else:
            sys.exit(f"respell: no name for {name}")
        taken[to] = name
        if to != name:
            new[name] = to
        else:
            del new[name]
    return new, fields


def turned(text, new, fields, proof=False):
    """In a proof by hand a word behind a dot with a dash in it is a step of the code, unless a record has it."""
    def one(m):
        word = m[0]
        if proof and m.start() and text[m.start() - 1] == "." and "-" in word and word not in fields:
            return word
        return new.get(word, word)

    return WORD.sub(one, text)


def in_source(text, new, fields):
    """Comments and strings of a .rt file stay."""
    out = []
    for line in text.split("\n"):
        code, sep, rest = line.partition("//")
        pieces = re.split(r'("(?:[^"\\]|\\.)*")', code)
        out.append("".join(p if p.startswith('"') else turned(p, new, fields) for p in pieces) + sep + rest)
    return "\n".join(out)


def main():
    new, fields = mapping()
    if "--names" in sys.argv:
        for name in sorted(new):
            print(name, new[name])
        return
    if "--docs" in sys.argv:
        for path in sys.argv[sys.argv.index("--docs") + 1 :]:
            text = open(path, encoding="utf8").read()
            with open(path, "w", encoding="utf8") as f:
                f.write(re.sub(r"`[^`\n]*`", lambda m: turned(m[0], new, fields), text))
        return
    files = 0
    for path in antt() + sorted(glob.glob("crates/*/src/**/*.rt", recursive=True) + glob.glob("crates/*/must-fail/*.edit")):
        text = open(path, encoding="utf8").read()
        to = in_source(text, new, fields) if path.endswith(".rt") else turned(text, new, fields, path.endswith("/Proof.antt"))
        if to != text:
            files += 1
            with open(path, "w", encoding="utf8") as f:
                f.write(to)
    print(f"respell: {len(new)} names, {files} files")


if __name__ == "__main__":
    main()
