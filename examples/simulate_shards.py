#!/usr/bin/python3
"""Reckons what a collection of many shards would take, from what was measured on a small one. A simulation.

usage: simulate_shards.py DOCUMENTS POSTINGS MEASURED REPORTS..

DOCUMENTS is the number of documents of the collection, POSTINGS how many postings each has in the mean.
MEASURED has lines `NAME NUMBER`, and lines that begin with `#` are comments; the names are

    documents postings index_bytes      the index that was measured
    import_seconds import_bytes         making it, and the memory that this took
    open_seconds open_bytes             a search without queries, which reads and checks the index
    search_postings search_seconds      the postings that a search scored, and its seconds less open_seconds
    ask_postings                        the postings that the queries of REPORTS score over the measured index

REPORTS are what an exhaustive search of the same queries printed over each shard of a collection; of them the
spread is taken, which is a query's postings in a shard by its mean over the shards.

So it is reckoned:
- as few shards as keep 2^26 documents, 2^29 postings and 2^32 bytes of index each, all of one size;
- bytes and seconds of import and opening, and memory, are in proportion to the postings of a shard;
- a query scores the same share of all postings as in the measured index, evenly over the shards but for the
  spread: in each of 1,000 draws each shard gets one of the spreads of the query, with replacement, from the
  state 1 of Python's generator;
- seconds are in proportion to the postings scored, and the slowest shard ends the query. Nothing is reckoned
  for the network, for starting processes and for the merging.
"""
import random
import re
import sys

from common import Bad, lines_of, number_word, run_script

NAMES = ("documents", "postings", "index_bytes", "import_seconds", "import_bytes", "open_seconds",
         "open_bytes", "search_postings", "search_seconds", "ask_postings")
REPORT = re.compile(r"([^ ]+) postings ([0-9]+) segments ([0-9]+) of ([0-9]+) .*")
DRAWS = 1000


def read_measured(path):
    values = {}
    for number, line in enumerate(lines_of(path), 1):
        if line.startswith("#"):
            continue
        match = re.fullmatch(r"([a-z_]+) ([0-9]+(?:\.[0-9]+)?)", line)
        if not match or match[1] not in NAMES or match[1] in values or not float(match[2]):
            raise Bad(f"{path}: line {number} is no measured number, or its name stood before")
        values[match[1]] = float(match[2])
    missing = [name for name in NAMES if name not in values]
    if missing:
        raise Bad(f"{path}: {missing[0]} is missing")
    return values


def read_reports(path):
    """The postings of each query."""
    postings = {}
    for number, line in enumerate(lines_of(path), 1):
        match = REPORT.fullmatch(line)
        if not match or match[1] in postings or match[3] != match[4]:
            raise Bad(f"{path}: line {number} is no report line of a search with all postings as its one budget")
        postings[match[1]] = int(match[2])
    return postings


def spreads_of(paths):
    """The spreads of each query, by shard; a query without postings is left out."""
    shards = [read_reports(path) for path in paths]
    for path, shard in zip(paths, shards):
        if shard.keys() != shards[0].keys():
            raise Bad(f"{path}: has other queries than {paths[0]}")
    spreads = []
    for query in shards[0]:
        mean = sum(shard[query] for shard in shards) / len(shards)
        if mean:
            spreads.append([shard[query] / mean for shard in shards])
    if not spreads:
        raise Bad(f"{paths[0]}: no query has postings")
    return spreads


def up(number, limit):
    return -(-number // limit)


def slowest(spreads, shards):
    """The mean over queries and draws of the greatest spread of so many shards."""
    generator = random.Random(1)
    greatest = [max(generator.choices(spread, k=shards)) for spread in spreads for _ in range(DRAWS)]
    return sum(greatest) / len(greatest)


def simulate(words):
    if len(words) < 4:
        return False
    documents = number_word(words[0], 1, 10**12, "DOCUMENTS")
    postings = documents * number_word(words[1], 1, 10**6, "POSTINGS")
    measured = read_measured(words[2])
    spreads = spreads_of(words[3:])

    each = {name: measured[name] / measured["postings"] for name in NAMES}
    index_bytes = postings * each["index_bytes"]
    needs = {"documents": up(documents, 1 << 26), "postings": up(postings, 1 << 29),
             "bytes": int(up(index_bytes, 1 << 32))}
    shards = max(needs.values())
    part = postings / shards
    scored = part * each["ask_postings"] / ask_count(words[3])
    seconds = scored * measured["search_seconds"] / measured["search_postings"]
    factor = slowest(spreads, shards)

    print(f"collection documents {documents} postings {postings} index {index_bytes / 2**30:.0f} GiB")
    print(f"shards {shards} (documents ask for {needs['documents']}, postings for {needs['postings']}, "
          f"bytes for {needs['bytes']})")
    print(f"each shard documents {documents / shards:.0f} postings {part:.0f} "
          f"index {index_bytes / shards / 2**30:.2f} GiB")
    print(f"import of a shard {part * each['import_seconds']:.0f} s, memory "
          f"{part * each['import_bytes'] / 2**30:.1f} GiB")
    print(f"opening of a shard {part * each['open_seconds']:.1f} s, memory "
          f"{part * each['open_bytes'] / 2**30:.1f} GiB")
    print(f"a query with all postings, in a mean shard: {scored:.0f} postings, {seconds:.3f} s")
    print(f"in the slowest shard: {factor:.2f} times as many, {factor * seconds:.3f} s")
    return True


def ask_count(path):
    return len(read_reports(path))


if __name__ == "__main__":
    usage = "simulate_shards.py DOCUMENTS POSTINGS MEASURED REPORTS.."
    sys.exit(run_script("simulate_shards.py", usage, simulate, sys.argv[1:]))
