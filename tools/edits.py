#!/usr/bin/env python3
"""Says of every must-fail edit whether its old text still stands once in its file."""
import pathlib
import sys

bad = 0
for path in sorted(pathlib.Path(__file__).resolve().parent.parent.glob("crates/*/must-fail/*.edit")):
    parts = dict(line.split(": ", 1) for line in path.read_text().splitlines() if ": " in line)
    text = (path.parent.parent / parts["file"]).read_text()
    if text.count(parts["old"]) != 1:
        bad += 1
        print(f"{path.parent.parent.name}/{path.stem}: stands {text.count(parts['old'])} times")
sys.exit(bad > 0)
