#!/usr/bin/env python3
"""Respells the definitions and lemmas of this repository: words in snake case, facts and types in camel case.

    tools/respell.py [FOLDER]     the repository at FOLDER, by itself this one

A name that specs/ or proofs/ declare is changed wherever it stands as a name: in .antt and .rt files, in the must-fail
edits, and between backticks in the documents. Names of goals, which the check makes, keep their dashes, as do comments,
strings, all names that the repository does not declare, and those that a file imports from a library. Run again, it changes nothing.
"""
import pathlib
import re
import sys

TOP = pathlib.Path(sys.argv[1] if len(sys.argv) > 1 else pathlib.Path(__file__).resolve().parent.parent)
DECLARED = re.compile(r"^\s*(?:(?:abbrev|unfoldable|pub) )*(?:(?:record|data|module|ruleset) ([A-Za-z][\w'-]*)|([A-Za-z][\w'-]*)(?= :))(.*)$", re.M)
GENERATED = re.compile(r"^(returns|loop|invariant|decreases|overflow|bounds|slice_bounds|offset_bounds|offset-bounds|nonzero|invariant-of|invariant_of)-|-requires$|-requires-\d+$")
NAME = re.compile(r"[A-Za-z_][\w']*(?:-[\w']+)+")
# What is left alone: a comment and a string.
RT_SKIP = re.compile(r"//[^\n]*|\"(?:[^\"\\\n]|\\.)*\"|b'(?:[^'\\]|\\.)'")
ANTT_SKIP = re.compile(r"(?:(?<=\s)|^)--[^\n]*|\"(?:[^\"\\\n]|\\.)*\"", re.M)


def respelled(name):
    parts = name.split("-")
    if len(parts[0]) > 1 and name[0].isupper() and not {"from_get_or", "get_or"} & set(parts):
        return "".join(part[0].upper() + part[1:] for part in parts)
    return "_".join(parts) if not name.startswith("All-") else name


def declared():
    names = set()
    for path in TOP.glob("crates/*/specs/**/*.antt"):
        names |= {m[1] or m[2] for m in DECLARED.finditer(path.read_text())}
    for path in TOP.glob("crates/*/proofs/**/*.antt"):
        for m in DECLARED.finditer(path.read_text()):
            answers = re.match(r"\s*: (?:goal|need|Goals|Given)\.", m[3])
            name = m[1] or m[2]
            if not answers and not GENERATED.search(name):
                names.add(name)
    return {name: respelled(name) for name in names if "-" in name and respelled(name) != name}


def imported(text):
    """What a file has from the libraries."""
    crates = {path.name for path in TOP.glob("crates/*")}
    names = set()
    for m in re.finditer(r"\buse ([\w.'-]+)\.\{([^}]*)\}", text):
        if not (m[1].startswith("Rattle.") and m[1].split(".")[1] in crates):
            names |= {word for item in m[2].split(",") for word in item.split()}
    return names


def renamed(text, names):
    return NAME.sub(lambda m: names.get(m[0], m[0]), text)


def outside(text, skip, names):
    out, at = [], 0
    for m in skip.finditer(text):
        out += [renamed(text[at : m.start()], names), m[0]]
        at = m.end()
    return "".join(out) + renamed(text[at:], names)


def main():
    names = declared()
    for path in sorted(TOP.glob("crates/*/**/*")):
        if path.suffix in (".rt", ".antt", ".edit") and "out" not in path.parts:
            text = path.read_text()
            others = imported(text)
            own = {old: new for old, new in names.items() if old not in others}
            new = outside(text, ANTT_SKIP if path.suffix == ".antt" else RT_SKIP, own)
            if new != text:
                path.write_text(new)
    for path in [TOP / "README.md", *TOP.glob("docs/*.md")]:
        text = path.read_text()
        new = re.sub(r"`[^`\n]+`", lambda m: renamed(m[0], names), text)
        if new != text:
            path.write_text(new)
    print(f"{len(names)} names respelled")


if __name__ == "__main__":
    main()
