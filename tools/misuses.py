#!/usr/bin/env python3
"""Tries every misuse that the types rule out: the edits in crates/*/misuses.

Such an edit does not compile, so it never reaches the prover, and `rt must-fail` takes it for a bad edit.
Each is made in a copy of the repository, and the compiler must say what stands in its `says:` line.
"""
import pathlib
import shutil
import subprocess
import sys
import tempfile

root = pathlib.Path(__file__).resolve().parent.parent
bad = 0
with tempfile.TemporaryDirectory() as folder:
    copy = pathlib.Path(folder) / "copy"
    shutil.copytree(root, copy, symlinks=True, ignore=shutil.ignore_patterns(".git", "must-fail", "out"))
    for path in sorted(root.glob("crates/*/misuses/*.edit")):
        parts = dict(line.split(": ", 1) for line in path.read_text().splitlines() if ": " in line)
        crate = path.parent.parent
        source = copy / "crates" / crate.name / parts["file"]
        text = source.read_text()
        if text.count(parts["old"]) != 1:
            verdict = f"BAD EDIT: its text stands {text.count(parts['old'])} times"
        else:
            source.write_text(text.replace(parts["old"], parts["new"]))
            run = subprocess.run(["rt", "check"], cwd=copy / "crates" / crate.name, capture_output=True, text=True)
            source.write_text(text)
            ruled_out = run.returncode != 0 and parts["says"] in run.stdout + run.stderr
            verdict = "ruled out, as it must be" if ruled_out else "NOT RULED OUT"
        bad += not verdict.startswith("ruled out")
        print(f"{crate.name}/{path.stem}: {verdict}")
sys.exit(bad > 0)
