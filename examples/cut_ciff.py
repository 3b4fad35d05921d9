#!/usr/bin/python3
"""Cuts a CIFF file into shards by document ranges.

usage: cut_ciff.py CIFF SHARDS PREFIX

Writes PREFIX.1.ciff, PREFIX.2.ciff and so on, SHARDS files (1 to 256). Of D documents, shard number s
has those from D*(s-1)/SHARDS on and below D*s/SHARDS, rounded down, numbered from 0 in the same order; so
the order of the shards, and of the documents within each, is the order of the documents of CIFF. A list
without postings in a shard is left out of it. Frequencies, names and lengths stay as they are. CIFF is
read three times; all names, and one list at a time, are held. Needs the packages python3-protobuf and
protobuf-compiler.
"""
import sys
from contextlib import ExitStack

from common import Bad, CiffFile, lengths_of, messages, number_word, run_script, write_header, write_list, write_records


def parts_of(postings, starts):
    """The postings of each shard that has some, as (shard, [(document, tf)])."""
    shard = 0
    part = []
    for doc, tf in postings:
        while doc >= starts[shard + 1]:
            if part:
                yield shard, part
            part = []
            shard += 1
        part.append((doc - starts[shard], tf))
    if part:
        yield shard, part


def cut(words):
    if len(words) != 3:
        return False
    shards = number_word(words[1], 1, 256, "SHARDS")
    ciff = messages()
    file = CiffFile(ciff, words[0])
    records = file.records()
    if len(records) < shards:
        raise Bad(f"{words[0]}: {len(records)} documents make no {shards} shards")
    starts = [len(records) * shard // shards for shard in range(shards + 1)]

    counts = [0] * shards
    totals = [0] * shards
    for _, postings in file.lists():
        for shard, part in parts_of(postings, starts):
            counts[shard] += 1
            totals[shard] += len(part)

    description = file.header().description
    with ExitStack() as stack:
        outs = [stack.enter_context(open(f"{words[2]}.{shard + 1}.ciff", "wb")) for shard in range(shards)]
        for shard, out in enumerate(outs):
            write_header(out, ciff, description, counts[shard],
                         lengths_of(records[starts[shard]:starts[shard + 1]]))
        for term, postings in file.lists():
            for shard, part in parts_of(postings, starts):
                write_list(outs[shard], ciff, term, part)
        for shard, out in enumerate(outs):
            write_records(out, ciff, records[starts[shard]:starts[shard + 1]])
    for shard in range(shards):
        documents = starts[shard + 1] - starts[shard]
        print("shard", shard + 1, "documents", documents, "terms", counts[shard], "postings", totals[shard])
    return True


if __name__ == "__main__":
    sys.exit(run_script("cut_ciff.py", __doc__, cut, sys.argv[1:]))
