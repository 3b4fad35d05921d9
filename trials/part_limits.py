#!/usr/bin/env python3
"""Parts that have as many documents and postings together as one index may have, and one more.

usage: part_limits.py PROGRAM

Made index files of up to 2^25 + 1 documents and 2^28 + 1 postings, some 170 MB each, are searched by `PROGRAM shards`:
at 2^26 documents and at 2^29 postings it answers; with one more it is refused by 57 or 58, with the part that passes
the limit and the sum. 57 comes before 58, both before a bad line of QUERIES, and a missing QUERIES before both. The last
line says how many cases there were; the status is 1 where one is wrong.
"""
import os
import struct
import subprocess
import sys
import tempfile

# Documents and terms that all of them have, and whether one more term has document 0 alone.
PARTS = {
    "half": (1 << 25, 0, False),
    "more": ((1 << 25) + 1, 0, False),
    "dense": (1 << 24, 16, False),
    "denser": (1 << 24, 16, True),
    "both": ((1 << 25) + 1, 8, True),
}
QUERIES = {"queries": b"q t00\n", "bad": b"q t00\n t\n"}

# The words, the status, and the note.
CASES = [
    ("half half.2 queries", 0, b""),
    ("half more queries", 3, b"more: refusal 57 at 67108865\n"),
    ("more half queries", 3, b"half: refusal 57 at 67108865\n"),
    ("dense dense.2 queries", 0, b""),
    ("dense denser queries", 3, b"denser: refusal 58 at 536870913\n"),
    ("denser dense queries", 3, b"dense: refusal 58 at 536870913\n"),
    ("both denser dense queries", 3, b"dense: refusal 57 at 67108865\n"),
    ("half more bad", 3, b"more: refusal 57 at 67108865\n"),
    ("dense denser bad", 3, b"denser: refusal 58 at 536870913\n"),
    ("dense dense.2 bad", 3, b"bad: refusal 51 at line 2\n"),
    ("half more missing", 4, b"missing: read fault\n"),
]


def term_of(before, term, count, codec, payload):
    """The bytes of a term with one segment behind another term."""
    shared = len(os.path.commonprefix([before, term]))
    rest = term[shared:]
    return struct.pack("<HH", shared, len(rest)) + rest + struct.pack("<IHIBI", 1, 1, count, codec, len(payload))


def index_of(docs, terms, has_one):
    """An index file, in pieces."""
    full = b"\xff" * (docs // 8) + b"\x00" * (docs % 8 > 0)
    heads, payloads, before = [], [], b""
    # (bitmaps, and a list of one gap)
    lists = [(b"t%02d" % term, docs // 8 * 8, 2, full) for term in range(terms)]
    lists += [(b"u", 1, 0, b"\x00")] if has_one else []
    for term, count, codec, payload in lists:
        heads.append(term_of(before, term, count, codec, payload))
        payloads.append(payload)
        before = term
    names = (struct.pack("<I", 1) + b"d") * docs
    body = [names, *heads, *payloads]
    postings = sum(count for _, count, _, _ in lists)
    length = 40 + sum(map(len, body))
    return [b"JASSIDX2" + struct.pack("<QIIQII", length, docs, len(lists), postings, 1 if lists else 0, 0), *body]


def main(words):
    if words[:1] == ["--help"] or len(words) != 1:
        print(__doc__.strip(), file=sys.stdout if words[:1] == ["--help"] else sys.stderr)
        return 0 if words[:1] == ["--help"] else 2
    program, wrong = os.path.abspath(words[0]), 0
    with tempfile.TemporaryDirectory() as folder:
        for name, (docs, terms, has_one) in PARTS.items():
            with open(os.path.join(folder, name), "wb") as file:
                file.writelines(index_of(docs, terms, has_one))
        for name in ("half", "dense"):
            os.link(os.path.join(folder, name), os.path.join(folder, f"{name}.2"))
        for name, content in QUERIES.items():
            with open(os.path.join(folder, name), "wb") as file:
                file.write(content)
        for case, status, note in CASES:
            files = case.split(" ")
            command = [program, "shards", str(len(files) - 1), *files, "run", "k=1", "budget=0"]
            did = subprocess.run(command, cwd=folder, stdin=subprocess.DEVNULL, capture_output=True, check=False)
            if (did.returncode, did.stderr) != (status, note):
                print(f"{case}: ended with {did.returncode} and {did.stderr!r}")
                wrong += 1
    print(f"{len(CASES)} cases, {wrong} wrong")
    return 1 if wrong else 0


if __name__ == "__main__":
    sys.exit(main(sys.argv[1:]))
