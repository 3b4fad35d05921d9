#!/usr/bin/python3
"""Merges the runs of shards into one run.

usage: merge_runs.py K QUERIES MERGED RUN..

The RUN files are those of one search over each shard, in the order of the shards, all with this QUERIES
file, the same K or a larger one, and one budget. MERGED gets the first K documents of each query by falling
score. Of equal scores the earlier file's come first, and within a file the lower rank; as `jass` ranks equal
scores by rising document number, and the shards are ranges of documents in order, that is the order of the
document numbers of the whole collection. Queries come in the order of QUERIES.
"""
import re
import sys

from common import Bad, lines_of, number_word, run_script

RUN = re.compile(r"([^ ]+) Q0 ([^ ]+) ([1-9][0-9]*) ([0-9]+) ([^ ]+)")


def read_queries(path):
    """The ids, in order; as `jass` reads them, the last line needs no end."""
    with open(path, encoding="utf-8", newline="\n") as text:
        lines = [line.removesuffix("\r") for line in text.read().split("\n")]
    ids = [re.split("[ \t]", line, maxsplit=1)[0] for line in lines if line]
    if "" in ids:
        raise Bad(f"{path}: has a line with a blank in front")
    if len(set(ids)) != len(ids):
        raise Bad(f"{path}: has two queries of one id")
    return ids


def read_run(path, queries, tags):
    """The (document, score) of each query by rank."""
    answers = {query: [] for query in queries}
    for number, line in enumerate(lines_of(path), 1):
        match = RUN.fullmatch(line)
        if not match:
            raise Bad(f"{path}: line {number} is no run line")
        query, name, rank, score, tag = match.groups()
        if query not in answers:
            raise Bad(f"{path}: line {number} is of {query}, which is no query")
        tags.add(tag)
        if len(tags) > 1:
            raise Bad(f"{path}: line {number} has the tag {tag}, and there is another one")
        hits = answers[query]
        if int(rank) != len(hits) + 1 or (hits and int(score) > hits[-1][1]):
            raise Bad(f"{path}: line {number} does not follow the line before by rank and score")
        hits.append((name, int(score)))
    return answers


def merged_hits(query, runs, k):
    """The first k documents. The sort is stable: equal scores stay in the order of files and ranks."""
    hits = [hit for run in runs for hit in run[query]]
    if len({name for name, _ in hits}) != len(hits):
        raise Bad(f"{query} has one document in two runs")
    return sorted(hits, key=lambda hit: -hit[1])[:k]


def merge(words):
    if len(words) < 4:
        return False
    k = number_word(words[0], 1, 100_000, "K")
    queries = read_queries(words[1])
    if words[2] in [words[1]] + words[3:]:
        raise Bad(f"{words[2]}: is read and written")
    tags = set()
    runs = [read_run(path, queries, tags) for path in words[3:]]
    answers = [(query, merged_hits(query, runs, k)) for query in queries]
    with open(words[2], "w", encoding="utf-8", newline="\n") as out:
        for query, hits in answers:
            for rank, (name, score) in enumerate(hits, 1):
                print(query, "Q0", name, rank, score, *tags, file=out)
    return True


if __name__ == "__main__":
    sys.exit(run_script("merge_runs.py", __doc__, merge, sys.argv[1:]))
