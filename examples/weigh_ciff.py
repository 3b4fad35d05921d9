#!/usr/bin/python3
"""Weighs the postings of shards by the totals of all of them together.

usage: weigh_ciff.py BITS PREFIX CIFF..

For a collection that is too large for one index: the CIFF files are its shards, each with documents of its
own. Writes PREFIX.1.ciff, PREFIX.2.ciff and so on, with the impacts of the whole collection in the place of
the frequencies: those that `jass import WHOLE INDEX weights=bm25 bits=BITS` would give (docs/FORMATS.md,
"Weights and impacts"; BITS is `raw` or 1 to 16). Import them with weights=tf and bits=raw. Lengths are left
out, as in an export. Each file is read some times over, in one process; held are a count for each term of the
collection, the names of one file and one list. Needs the packages python3-protobuf and protobuf-compiler.
"""
import collections
import sys

from common import Bad, CiffFile, lengths_of, messages, number_word, run_script, write_header, write_list, write_records


def lg(number):
    """1,024 times the binary logarithm, by a straight line between powers of 2."""
    power = number.bit_length() - 1
    return 1024 * power + (number - (1 << power)) * 1024 // (1 << power)


class Weights:
    """BM25 of docs/FORMATS.md over the totals of all files."""

    def __init__(self, files):
        self.documents = 0
        self.counts = collections.Counter()
        self.lengths = 0
        for file in files:
            records = file.records()
            self.documents += len(records)
            self.lengths += sum(length for _, length in records)
            for term, postings in file.lists():
                self.counts[term] += len(postings)
        self.lengths = max(1, self.lengths)

    def of(self, records, term, postings):
        """The (document, weight) of a list."""
        idf = lg(1024 * (self.documents + 1) // self.counts[term]) - 10240
        for doc, tf in postings:
            length = records[doc][1]
            k = (540 * self.lengths + 360 * length * self.documents) // self.lengths
            yield doc, max(1, idf * 1900 * tf // (1000 * tf + k))


def quantised(weight, least, greatest, bits):
    if bits == "raw":
        return min(weight, 65535)
    if least == greatest:
        return 1
    return 1 + (weight - least) * ((1 << bits) - 2) // (greatest - least)


def weigh(words):
    if len(words) < 3:
        return False
    bits = words[0] if words[0] == "raw" else number_word(words[0], 1, 16, "BITS")
    ciff = messages()
    files = [CiffFile(ciff, path) for path in words[2:]]
    weights = Weights(files)
    least, greatest = None, None
    for file in files:
        records = file.records()
        for term, postings in file.lists():
            for _, weight in weights.of(records, term, postings):
                least = weight if least is None else min(least, weight)
                greatest = weight if greatest is None else max(greatest, weight)
    if least is None:
        raise Bad("the files have no postings")

    for place, file in enumerate(files, 1):
        path = f"{words[1]}.{place}.ciff"
        if path in words[2:]:
            raise Bad(f"{path}: is read and written")
        records = file.records()
        bare = [(name, 0) for name, _ in records]
        with open(path, "wb") as out:
            lists = sum(1 for _, postings in file.lists() if postings)
            write_header(out, ciff, "", lists, lengths_of(bare))
            for term, postings in file.lists():
                impacts = [(doc, quantised(weight, least, greatest, bits))
                           for doc, weight in weights.of(records, term, postings)]
                if impacts:
                    write_list(out, ciff, term, impacts)
            write_records(out, ciff, bare)
    print("documents", weights.documents, "terms", len(weights.counts),
          "postings", sum(weights.counts.values()), "weights", least, "to", greatest)
    return True


if __name__ == "__main__":
    sys.exit(run_script("weigh_ciff.py", __doc__, weigh, sys.argv[1:]))
