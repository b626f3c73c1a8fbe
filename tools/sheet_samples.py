#!/usr/bin/env python3
"""Makes the expected output of the program `sheet_samples`: the whole sheet of every stored book, and its listing.

    tools/sheet_samples.py          from the data of `samples`, whose books it copies

The reader is that of tools/samples.py. The sheet of a book is its stored one (NAME.sheet beside NAME.book); a damaged book
has none, and its sheet is that of bench/plain.rs, which must agree with every stored sheet and with the faults that are
told here, or this program stops.
"""
import pathlib
import subprocess
import tempfile

from samples import DATA as STORED, QUESTIONS, Fault, lines

TOP = pathlib.Path(__file__).resolve().parent.parent
HERE = TOP / "crates/sheet_samples"


def shown(book, sheet):
    """The sheet of a book, and then its listing."""
    try:
        told = "".join(line + "\n" for line in lines(book)) + "written alike: true\n"
        assert not sheet.startswith("FAULT")
    except Fault as fault:
        number, k = fault.args
        told = f"fault {number} in record {k}: {QUESTIONS[number]}\n"
        assert sheet == f"FAULT {number} {k}\n"
    return sheet + told


def main():
    names = sorted(path.name for path in STORED.glob("*.book"))
    (HERE / "data/index").write_text("".join(name + "\n" for name in names))
    out = []
    with tempfile.TemporaryDirectory() as folder:
        plain = pathlib.Path(folder) / "plain"
        subprocess.run(["rustc", "-O", "-o", plain, TOP / "bench/plain.rs"], check=True)
        for name in names:
            book = (STORED / name).read_bytes()
            (HERE / "data" / name).write_bytes(book)
            sheet = subprocess.run([plain], input=book, stdout=subprocess.PIPE, check=True).stdout.decode()
            stored = STORED / name.replace(".book", ".sheet")
            assert not stored.exists() or stored.read_text() == sheet, name
            out.append(f"== {name}\n{shown(book, sheet)}")
    (HERE / "stdout").write_text("".join(out))


main()
