#!/usr/bin/python3
"""Cuts an index file into parts, which `jass shards` searches as one.

usage: cut_index.py JASS INDEX PARTS PREFIX

JASS is the program. Writes PREFIX.1.idx, PREFIX.2.idx and so on, PARTS files (2 to 16): INDEX is exported by `jass export`,
the CIFF file is cut by cut_ciff.py, and each piece is imported by `jass import` with its impacts as they stand. The parts
are ranges of documents in order. So `jass shards` over them, named in this order, gives the run and the reports of
`jass search` over INDEX. The CIFF files stand in a new folder beside the parts until all are imported. INDEX needs a
document for each part. Needs the packages python3-protobuf and protobuf-compiler.
"""
import os
import subprocess
import sys
import tempfile

from common import Bad, number_word, run_script
from cut_ciff import cut


def call(jass, *words):
    """Runs a command of the program, without its output. Its note stands on standard error."""
    status = subprocess.run([jass, *words], stdout=subprocess.DEVNULL).returncode
    if status:
        raise Bad(f"jass {words[0]} ended with {status}")


def cut_index(words):
    if len(words) != 4:
        return False
    jass, index, count, prefix = words
    parts = number_word(count, 2, 16, "PARTS")
    paths = [f"{prefix}.{part}.idx" for part in range(1, parts + 1)]
    for path in paths:
        if os.path.exists(path) and os.path.exists(index) and os.path.samefile(path, index):
            raise Bad(f"{path}: is read and written")
    with tempfile.TemporaryDirectory(dir=os.path.dirname(os.path.abspath(prefix))) as folder:
        whole = os.path.join(folder, "whole.ciff")
        piece = os.path.join(folder, "piece")
        call(jass, "export", index, whole)
        cut([whole, count, piece])
        for part, path in enumerate(paths, 1):
            call(jass, "import", f"{piece}.{part}.ciff", path, "weights=tf", "bits=raw")
    return True


if __name__ == "__main__":
    sys.exit(run_script("cut_index.py", __doc__, cut_index, sys.argv[1:]))
