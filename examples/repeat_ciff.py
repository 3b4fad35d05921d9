#!/usr/bin/python3
"""Repeats the documents of a CIFF file, to try sizes.

usage: repeat_ciff.py CIFF TIMES TO

TO has the documents of CIFF so many times over (1 to 10,000), each time all of them in order, with the number
of the copy behind a point at the end of their names. Terms, frequencies and lengths are those of CIFF. Needs
the packages python3-protobuf and protobuf-compiler.
"""
import sys

from common import (Bad, CiffFile, lengths_of, messages, number_word, run_script, varint, write_header,
                    write_records)


def spelled(ciff, postings, before):
    """The postings of a list as its fields, where the document before them is this one."""
    entry = ciff.PostingsList()
    for doc, tf in postings:
        entry.postings.add(docid=doc - before, tf=tf)
        before = doc
    return entry.SerializeToString()


def write_repeated(out, ciff, term, postings, documents, times):
    """Puts a list so many times over. Later copies differ from the first in the gap of their first posting alone."""
    counts = ciff.PostingsList(term=term, df=times * len(postings), cf=times * sum(tf for _, tf in postings))
    parts = [counts.SerializeToString()]
    if postings:
        rest = spelled(ciff, postings[1:], postings[0][0])
        again = spelled(ciff, postings[:1], postings[-1][0] - documents) + rest
        parts += [spelled(ciff, postings[:1], 0), rest, again * (times - 1)]
    out.write(varint(sum(map(len, parts))))
    out.writelines(parts)


def repeat(words):
    if len(words) != 3:
        return False
    times = number_word(words[1], 1, 10_000, "TIMES")
    if words[0] == words[2]:
        raise Bad(f"{words[2]}: is read and written")
    ciff = messages()
    file = CiffFile(ciff, words[0])
    records = file.records()
    with open(words[2], "wb") as out:
        lists = file.header().num_postings_lists
        write_header(out, ciff, f"{times} times over", lists, lengths_of(records), times)
        for term, postings in file.lists():
            write_repeated(out, ciff, term, postings, len(records), times)
        write_records(out, ciff, ((f"{name}.{copy}", length) for copy in range(1, times + 1) for name, length in records))
    return True


if __name__ == "__main__":
    sys.exit(run_script("repeat_ciff.py", __doc__, repeat, sys.argv[1:]))
