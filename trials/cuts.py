#!/usr/bin/env python3
"""An index cut into parts at random places: the search over the parts as one against that over the whole.

usage: cuts.py INDEX QUERIES N [PROGRAM [SEED]]

INDEX is exported once by PROGRAM, which is `jass` on the PATH unless said. Its documents are cut N times into 2 to 16
ranges, at places that are drawn from SEED (1 unless said); ranges may be empty. Each range is imported with its
impacts as they are. Then `PROGRAM shards` over the parts and `PROGRAM search` over INDEX answer the query file QUERIES
by the same options, which are drawn too. Status, run, output and notes of both must be the same, byte for byte. A cut
at which they differ is printed with its places and options. The last line says how many were compared; the status is 1
where one differs.
"""
import os
import random
import struct
import subprocess
import sys
import tempfile

SIZES = ["0", "1", "100", "1000", "10000", "100000", "all"]


def varint(number):
    out = bytearray()
    while number > 127:
        out.append(number & 127 | 128)
        number >>= 7
    out.append(number)
    return bytes(out)


def read_varint(data, at):
    number = shift = 0
    while True:
        byte = data[at]
        number |= (byte & 127) << shift
        at, shift = at + 1, shift + 7
        if byte < 128:
            return number, at


def number_field(field, number):
    """A field with a number, which is left out where it is 0."""
    return varint(field << 3) + varint(number) if number else b""


def bytes_field(field, content):
    return varint(field << 3 | 2) + varint(len(content)) + content


def message(body):
    return varint(len(body)) + body


def fields_of(body):
    """The fields of a message as (number, value), eight bytes or a text as bytes."""
    at = 0
    while at < len(body):
        tag, at = read_varint(body, at)
        if tag & 7 == 0:
            value, at = read_varint(body, at)
        elif tag & 7 == 1:
            value, at = body[at:at + 8], at + 8
        elif tag & 7 == 2:
            length, at = read_varint(body, at)
            value, at = body[at:at + length], at + length
        else:
            sys.exit("the export has a field of another kind")
        yield tag >> 3, value


def read_list(body):
    """The term of a list, and its postings as (document, tf)."""
    term, postings, doc = b"", [], 0
    for field, value in fields_of(body):
        if field == 1:
            term = value
        elif field == 4:
            posting = dict(fields_of(value))
            doc += posting.get(1, 0)
            postings.append((doc, posting.get(2, 0)))
    return term, postings


def read_ciff(path):
    """The lists of a canonical CIFF file, and the (name, length) of each document."""
    with open(path, "rb") as file:
        data = file.read()
    bodies, at = [], 0
    while at < len(data):
        length, at = read_varint(data, at)
        bodies.append(data[at:at + length])
        at += length
    header = dict(fields_of(bodies[0]))
    count = header.get(2, 0)
    lists = [read_list(body) for body in bodies[1:1 + count]]
    records = [dict(fields_of(body)) for body in bodies[1 + count:]]
    return lists, [(record.get(2, b""), record.get(3, 0)) for record in records]


def write_part(path, lists, records, first, last):
    """Writes the CIFF file of the documents from first on and below last, numbered from 0."""
    docs = records[first:last]
    total = sum(length for _, length in docs)
    parts = [(term, [(doc - first, tf) for doc, tf in postings if first <= doc < last]) for term, postings in lists]
    parts = [(term, postings) for term, postings in parts if postings]
    header = b"".join(number_field(field, value) for field, value in enumerate(
        (1, len(parts), len(docs), len(parts), len(docs), total), 1))
    if total:
        header += varint(7 << 3 | 1) + struct.pack("<d", total / len(docs))
    with open(path, "wb") as out:
        out.write(message(header))
        for term, postings in parts:
            body = bytes_field(1, term) + number_field(2, len(postings))
            body += number_field(3, sum(tf for _, tf in postings))
            before = 0
            for doc, tf in postings:
                body += bytes_field(4, number_field(1, doc - before) + number_field(2, tf))
                before = doc
            out.write(message(body))
        for doc, (name, length) in enumerate(docs):
            out.write(message(number_field(1, doc) + bytes_field(2, name) + number_field(3, length)))


def left_by(words, run):
    """The status, the output and the notes of a command, and the run that it leaves, if it does."""
    if os.path.exists(run):
        os.remove(run)
    did = subprocess.run(words, stdin=subprocess.DEVNULL, capture_output=True, check=False)
    content = None
    if os.path.exists(run):
        with open(run, "rb") as file:
            content = file.read()
    return did.returncode, did.stdout, did.stderr, content


def drawn_options(draw):
    budgets = [draw.choice(SIZES) for _ in range(draw.randint(1, 4))]
    mode = draw.choice(["plain", "folded"])
    return [f"k={draw.choice([1, 10, 1000])}", "budget=" + ",".join(budgets), f"mode={mode}"]


def compare(program, index, queries, whole, draw, folder):
    """Nothing, or the cut and the options by which the parts are answered otherwise; and the whole's status."""
    lists, records = whole
    count = draw.randint(2, 16)
    places = [0, *sorted(draw.randint(0, len(records)) for _ in range(count - 1)), len(records)]
    parts = []
    for part in range(count):
        ciff, name = os.path.join(folder, "part.ciff"), os.path.join(folder, f"part.{part + 1}.idx")
        write_part(ciff, lists, records, places[part], places[part + 1])
        subprocess.run([program, "import", ciff, name, "weights=tf", "bits=raw"], stdout=subprocess.DEVNULL, check=True)
        parts.append(name)
    options, run = drawn_options(draw), os.path.join(folder, "run")
    cut = left_by([program, "shards", str(count), *parts, queries, run, *options], run)
    one = left_by([program, "search", index, queries, run, *options], run)
    wrong = None if cut == one else f"cut at {places[1:-1]}, {' '.join(options)}: another answer than the whole"
    return wrong, one[0]


def main():
    if "--help" in sys.argv[1:]:
        print(__doc__.strip())
        return 0
    if len(sys.argv) not in (4, 5, 6) or not sys.argv[3].isdecimal():
        print(__doc__.strip(), file=sys.stderr)
        return 2
    index, queries, count = sys.argv[1], sys.argv[2], int(sys.argv[3])
    program = sys.argv[4] if len(sys.argv) > 4 else "jass"
    draw = random.Random(int(sys.argv[5]) if len(sys.argv) == 6 else 1)
    wrong = answered = 0
    with tempfile.TemporaryDirectory() as folder:
        ciff = os.path.join(folder, "whole.ciff")
        subprocess.run([program, "export", index, ciff], stdout=subprocess.DEVNULL, check=True)
        whole = read_ciff(ciff)
        for _ in range(count):
            fault, status = compare(program, index, queries, whole, draw, folder)
            answered += status == 0
            if fault:
                print(fault)
                wrong += 1
    print(f"{count} cuts, {answered} answered: {wrong} differ")
    return 1 if wrong else 0


if __name__ == "__main__":
    sys.exit(main())
