#!/usr/bin/env python3
"""Short files that promise much, and long lines: what they cost.

usage: hostile.py PROGRAM

Each file is made in a folder of its own and handed to a command of PROGRAM. A line for each: the bytes of the file,
the note, the greatest memory and the seconds. The status is 1 where a note isn't the one that is wanted, or where
the memory is above 16 MB and four times the bytes of the files that are read (192 times where terms share nearly
all of their bytes, since an opened index holds up to 64 bytes of terms for each byte of its file).
"""
import os
import struct
import subprocess
import sys
import tempfile
import time

MOST = 1 << 26


def varint(number):
    out = b""
    while number >= 128:
        out += bytes([number & 127 | 128])
        number >>= 7
    return out + bytes([number])


def number(field, value):
    return varint(field * 8) + varint(value)


def text(field, value):
    return varint(field * 8 + 2) + varint(len(value)) + value


def message(body):
    return varint(len(body)) + body


def index(docs, terms, postings, behind=b""):
    return b"JASSIDX2" + struct.pack("<QIIQII", 40 + len(behind), docs, terms, postings, 0, 0) + behind


def line(word, count):
    """A query of so many words, in pieces."""
    yield b"1 "
    while count:
        some = min(count, 1 << 16)
        yield word * some
        count -= some
    yield b"\n"


def alike_terms(count):
    """An index file of so many terms of 65,535 bytes, which differ in the last three."""
    front = b"a" * 65_532
    parts = [NAME]
    before = b""
    for place in range(count):
        rest = bytes(97 + place // 26 ** power % 26 for power in (2, 1, 0))
        term = front + rest
        shared = 65_532 + len(os.path.commonprefix([before, rest])) if before else 0
        before = rest
        parts.append(struct.pack("<HH", shared, 65_535 - shared) + term[shared:] + struct.pack("<IHIBI", 1, 1, 1, 0, 1))
    return index(1, count, count, b"".join(parts))


NAME = struct.pack("<I", 1) + b"d"
HEADER = number(1, 1) + number(2, 1) + number(3, 1)
SMALL = message(HEADER) + message(text(1, b"a") + text(4, number(2, 1))) + message(text(2, b"d"))

# Index files that promise what they don't have, and the note that is wanted of each command that opens one.
SHORT = [
    ("2^26 names", index(MOST, 0, 0), "it: refusal 41 at 40"),
    ("2^24 terms", index(0, 1 << 24, 0), "it: refusal 41 at 40"),
    ("all limits", index(MOST, 1 << 24, 1 << 29, NAME), "it: refusal 41 at 45"),
    ("2^32 - 1 heads", index(1, 1, 1, NAME + struct.pack("<HH", 0, 1) + b"a" + b"\xff" * 4), "it: refusal 41 at 54"),
]
# The commands that open one; a search opens its index first, so that its queries aren't read.
OPENING = [("checked", "check it"), ("exported", "export it new"), ("searched", "search it ciff new")]

# What the file is, the words of the command, the bytes of its file `it`, and the note that is wanted. No large text is
# held here: the greatest memory of a process is at least that of the one that began it.
CASES = [
    ("a document far away", "import it new", message(number(1, 1) + number(3, MOST)) + message(
        number(1, MOST - 1) + text(2, b"d") + number(3, 1)), "it: refusal 10 at 19"),
    ("2^24 lists", "import it new", message(number(1, 1) + number(2, 1 << 24) + number(3, MOST)),
     "it: refusal 10 at 13"),
    ("a list of 4 GB", "import it new", message(HEADER) + varint((1 << 32) - 100) + b"\x0a", "it: refusal 10 at 7"),
    *((f"{what}, {how}", words, content, wanted) for what, content, wanted in SHORT for how, words in OPENING),
    ("terms that are alike", "export it new", alike_terms(700), "no memory"),
    ("the same, searched", "search it ciff new", alike_terms(700), "no memory"),
    ("the same, checked", "check it", alike_terms(700), "it: refusal 41 at 79606"),
    ("a word of 1 MB", "search small it new", line(b"a", (1 << 20) - 2), ""),
    ("the same, folded", "search small it new mode=folded", line(b"a", (1 << 20) - 2), ""),
    ("a line too long", "search small it new", line(b"a", (1 << 20) - 1), "it: refusal 54 at line 1"),
    ("half a million words", "search small it new", line(b"b ", 500_000), ""),
    ("the same, folded", "search small it new mode=folded", line(b"b ", 500_000), ""),
    ("a file too long", "search small it new", line(b"b ", 1 << 27), "it: refusal 55 at line 0"),
]


def run(words, folder):
    """The standard error, the greatest memory in bytes and the seconds."""
    begin = time.perf_counter()
    process = subprocess.Popen(words, cwd=folder, stdout=subprocess.DEVNULL, stderr=subprocess.PIPE)
    note = process.stderr.read().decode()
    _, _, usage = os.wait4(process.pid, 0)
    process.returncode = 0
    process.stderr.close()
    return note.rstrip("\n"), usage.ru_maxrss * 1024, time.perf_counter() - begin


def main():
    if len(sys.argv) != 2:
        sys.exit(__doc__)
    program = os.path.abspath(sys.argv[1])
    wrong = 0
    for what, words, content, wanted in CASES:
        with tempfile.TemporaryDirectory() as folder:
            with open(os.path.join(folder, "ciff"), "wb") as out:
                out.write(SMALL)
            subprocess.run([program, "import", "ciff", "small"], cwd=folder, check=True, stdout=subprocess.DEVNULL)
            with open(os.path.join(folder, "it"), "wb") as out:
                out.writelines([content] if isinstance(content, bytes) else content)
                size = out.tell()
            note, memory, seconds = run([program, *words.split()], folder)
        factor = 192 if wanted == "no memory" else 4
        good = note == wanted and memory <= (1 << 24) + factor * size
        wrong += not good
        print(f"{what}: {size} bytes, {note or 'no note'}, {memory / 1e6:.1f} MB, {seconds:.2f} s"
              + ("" if good else f"; wanted: {wanted or 'no note'}"))
    sys.exit(1 if wrong else 0)


if __name__ == "__main__":
    main()
