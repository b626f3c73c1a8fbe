#!/usr/bin/env python3
"""Makes the expected output of the program `samples`, without any of the library's code.

    tools/samples.py                writes crates/samples/stdout from crates/samples/data
    tools/samples.py --damage DIR   adds damaged copies of the books in DIR to the data first

The reader here is written straight from docs/BOOK.md: it is the second opinion that the verified
reader is held to. Where a book has a stored sheet (NAME.sheet beside NAME.book in the vectors), the
fault that it tells must be the sheet's, or this program stops.
"""
import pathlib
import random
import sys

DATA = pathlib.Path(__file__).resolve().parent.parent / "crates/samples/data"
WAYS = ["crossing", "principles", "buyer's price", "seller's price", "half the sum", "continuous at the earlier order's price"]
SHARINGS = ["earliest first", "largest first", "pro rata"]
SIDES = ["buy", "sell"]
KINDS = ["normal", "fill-and-kill", "fill-or-kill"]
QUESTIONS = {
    14: "has the book six bytes or more?",
    15: "is the form 1?",
    16: "is the way 0 to 5?",
    17: "is the sharing 0 to 2, and 0 for the ways 2 to 5?",
    18: "is the reference price 0, unless the way is 1?",
    19: "are the header's spare bits 0?",
    20: "is the length 6 bytes plus 6 for each record?",
    21: "is the kind 0 to 2, and 2 only for ways below 5?",
    22: "is the order kind 0 to 2?",
    23: "are the record's spare bits 0?",
}


def cut(six, *widths):
    """The fields of six bytes, as text of bits cut from the front."""
    bits = "".join(f"{byte:08b}" for byte in six)
    fields = []
    for width in widths:
        fields.append(int(bits[:width], 2))
        bits = bits[width:]
    return fields


class Fault(Exception):
    pass


def record(way, k, six):
    kind = cut(six, 2)[0]
    if kind == 3 or (kind == 2 and way == 5):
        raise Fault(21, k)
    if kind == 0:
        _, side, order_kind, member, limit, quantity, spare = cut(six, 2, 1, 2, 6, 11, 20, 6)
        if order_kind == 3:
            raise Fault(22, k)
        text = f"{k} place: {SIDES[side]}, {KINDS[order_kind]}, member {member}, limit {limit}, quantity {quantity}"
    elif kind == 1:
        _, member, number, spare = cut(six, 2, 6, 9, 31)
        text = f"{k} withdraw: member {member}, number {number}"
    else:
        _, spare = cut(six, 2, 46)
        text = f"{k} round"
    if spare:
        raise Fault(23, k)
    return text


def lines(book):
    if len(book) < 6:
        raise Fault(14, 0)
    form, way, sharing, reference, period, count, spare = cut(book[:6], 4, 3, 2, 11, 12, 12, 4)
    if form != 1:
        raise Fault(15, 0)
    if way > 5:
        raise Fault(16, 0)
    if sharing == 3 or (way >= 2 and sharing):
        raise Fault(17, 0)
    if way != 1 and reference:
        raise Fault(18, 0)
    if spare:
        raise Fault(19, 0)
    if len(book) != 6 + 6 * count:
        raise Fault(20, 0)
    yield f"way {way}, {WAYS[way]}"
    yield f"sharing {sharing}, {SHARINGS[sharing]}"
    yield f"reference price {reference}"
    yield f"period {period}"
    yield f"records {count}"
    for k in range(1, count + 1):
        yield record(way, k, book[6 * k : 6 * k + 6])


def shown(book):
    try:
        return "".join(line + "\n" for line in lines(book)) + "written alike: true\n"
    except Fault as fault:
        number, k = fault.args
        return f"FAULT {number} {k}\nfault {number} in record {k}: {QUESTIONS[number]}\n"


def damaged(book, rng):
    """A copy with a few bits turned, bytes lost or bytes added."""
    book = bytearray(book)
    for _ in range(rng.choice([1, 1, 1, 2, 5])):
        if book and rng.random() < 0.85:
            book[rng.randrange(len(book))] ^= 1 << rng.randrange(8)
        elif rng.random() < 0.5:
            del book[rng.randrange(len(book) + 1) :]
        else:
            book += bytes(rng.randrange(256) for _ in range(rng.randrange(1, 13)))
    return bytes(book)


def damage(folder, count=120, seed=20):
    rng = random.Random(seed)
    books = sorted(path for path in pathlib.Path(folder).rglob("*.book") if path.stat().st_size <= 1300)
    for i in range(count):
        (DATA / f"damaged_{i:03}.book").write_bytes(damaged(rng.choice(books).read_bytes(), rng))


def main(arguments):
    if arguments[:1] == ["--damage"]:
        damage(arguments[1])
    names = sorted(path.name for path in DATA.glob("*.book"))
    (DATA / "index").write_text("".join(name + "\n" for name in names))
    out = []
    for name in names:
        text = shown((DATA / name).read_bytes())
        sheet = DATA / name.replace(".book", ".sheet")
        if sheet.exists():
            told = sheet.read_text()
            assert told.startswith("FAULT") == text.startswith("FAULT"), name
            assert not told.startswith("FAULT") or text.startswith(told), name
        out.append(f"== {name}\n{text}")
    (DATA.parent / "stdout").write_text("".join(out))


if __name__ == "__main__":
    main(sys.argv[1:])
