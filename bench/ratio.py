#!/usr/bin/env python3
"""Measures `whole_sheet` against the plain Rust program on the same large books.

    (cd crates/whole_sheet && rt run < stdin) && bench/ratio.py [RUNS]

It builds bench/plain.rs, makes the books (the same ones each time), feeds each to both programs by turns, checks that
their texts agree, and prints the least processor time of each and the ratio. The time of an empty book, which is that
of starting the program, is taken off.
"""
import os
import pathlib
import random
import subprocess
import sys
import tempfile

TOP = pathlib.Path(__file__).resolve().parent.parent
SHEET = TOP / "crates/whole_sheet/out/whole_sheet"
WAYS = ["crossing", "principles", "buyer's", "seller's", "half the sum", "continuous"]
SHARINGS = ["earliest", "largest", "pro rata"]
PLACE, WITHDRAW, ROUND = 0, 1, 2


def pack(*fields):
    """Six bytes of (value, width) pairs, the most significant first."""
    word = 0
    for value, width in fields:
        word = word << width | value
    return word.to_bytes(6, "big")


def header(way, sharing, count, period=4, reference=0):
    return pack((1, 4), (way, 3), (sharing, 2), (reference, 11), (period, 12), (count, 12), (0, 4))


def place(side, member, limit, quantity, kind=0):
    return pack((PLACE, 2), (side, 1), (kind, 2), (member, 6), (limit, 11), (quantity, 20), (0, 6))


ROUND_RECORD = pack((ROUND, 2), (0, 46))


def book(way, sharing, records):
    return header(way, sharing, len(records), reference=300 if way == 1 else 0) + b"".join(records)


def orders(rng, low, high):
    """511 orders: odd members sell, even ones buy, limits within a band so that many groups are shared."""
    return [place(member % 2, member, rng.randint(low, high), rng.randint(100, 9999)) for member in (rng.randint(1, 63) for _ in range(511))]


def books():
    rng = random.Random(1)
    yield "4,095 empty rounds", book(0, 0, [ROUND_RECORD] * 4095)
    for way in range(2):
        for sharing in range(3):
            yield f"{WAYS[way]}, {SHARINGS[sharing]}: 511 orders, 3,584 rounds", book(way, sharing, orders(rng, 0, 2000) + [ROUND_RECORD] * 3584)
            mixed = [r for order in orders(rng, 900, 1100) for r in (order, ROUND_RECORD, ROUND_RECORD)]
            yield f"{WAYS[way]}, {SHARINGS[sharing]}: two rounds after each of 511 orders", book(way, sharing, mixed)
    for way in range(2, 5):
        yield f"{WAYS[way]}: 511 orders, 3,584 rounds", book(way, 0, orders(rng, 0, 2000) + [ROUND_RECORD] * 3584)
        mixed = [r for order in orders(rng, 900, 1100) for r in (order, ROUND_RECORD, ROUND_RECORD)]
        yield f"{WAYS[way]}: two rounds after each of 511 orders", book(way, 0, mixed)
    yield "continuous: 511 orders", book(5, 0, orders(rng, 900, 1100))


def run(program, path):
    """The program's text and its processor time in seconds."""
    with open(path, "rb") as source, tempfile.TemporaryFile() as out:
        child = subprocess.Popen([program], stdin=source, stdout=out, stderr=subprocess.DEVNULL)
        _, status, usage = os.wait4(child.pid, 0)
        child.returncode = os.waitstatus_to_exitcode(status)
        out.seek(0)
        return child.returncode, out.read(), usage.ru_utime + usage.ru_stime


def least(programs, path, runs):
    """For each program its text and the least of its times."""
    texts, times = {}, {program: [] for program in programs}
    for _ in range(runs):
        for program in programs:
            status, text, time = run(program, path)
            texts[program] = text if status == 0 else None
            times[program].append(time)
    return texts, {program: min(times[program]) for program in programs}


def main():
    runs = int(sys.argv[1]) if len(sys.argv) > 1 else 20
    with tempfile.TemporaryDirectory() as folder:
        plain = pathlib.Path(folder) / "plain"
        subprocess.run(["rustc", "-O", "-o", plain, TOP / "bench/plain.rs"], check=True)
        path = pathlib.Path(folder) / "book"
        path.write_bytes(header(0, 0, 0))
        _, start = least([SHEET, plain], path, runs)
        for name, content in books():
            path.write_bytes(content)
            texts, times = least([SHEET, plain], path, runs)
            if texts[SHEET] is None:
                print(f"not cleared     {name}")
                continue
            if texts[SHEET] != texts[plain]:
                sys.exit(f"the texts differ: {name}")
            ours, theirs = (max(times[p] - start[p], 1e-5) * 1000 for p in (SHEET, plain))
            print(f"{ours:8.2f} ms  {theirs:8.2f} ms  ratio {ours / theirs:5.2f}  {name}")


main()
