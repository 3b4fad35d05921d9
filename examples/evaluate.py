#!/usr/bin/python3
"""Evaluates a run against judgements.

usage: evaluate.py QRELS RUN [complete]

QRELS has lines `QUERY ITERATION DOCUMENT RELEVANCE`, RUN lines `QUERY Q0 DOCUMENT RANK SCORE TAG`. Printed
are, for each query and for the mean, `map` (average precision), `recip_rank`, `P_10` and `ndcg_cut_10`, by the
definitions of trec_eval and in the shape of its lines. As there,
- documents are ordered by falling score, and equal scores by falling document name (as bytes); the column
  RANK is not used,
- a document is relevant where its relevance is 1 or more, and its gain is that number,
- the mean is over the queries that both files have; with `complete` over all of QRELS, where one without
  run lines counts 0.
"""
import collections
import math
import re
import sys

from common import Bad, run_script

MEASURES = ("map", "recip_rank", "P_10", "ndcg_cut_10")


def columns_of(path, count, what):
    """The columns of each line, with the line's number."""
    with open(path, encoding="utf-8", newline="\n") as text:
        for number, line in enumerate(text.read().split("\n"), 1):
            columns = line.split()
            if columns and len(columns) != count:
                raise Bad(f"{path}: line {number} has not the {count} columns of {what}")
            if columns:
                yield number, columns


def read_qrels(path):
    """The relevance of each judged document, by query."""
    qrels = collections.defaultdict(dict)
    for number, (query, _, name, relevance) in columns_of(path, 4, "judgements"):
        if not re.fullmatch("-?[0-9]{1,9}", relevance):
            raise Bad(f"{path}: line {number}: {relevance} is no relevance")
        if name in qrels[query]:
            raise Bad(f"{path}: line {number}: {name} is judged twice for {query}")
        qrels[query][name] = int(relevance)
    if not qrels:
        raise Bad(f"{path}: has no judgement")
    return qrels


def read_run(path):
    """The documents of each query in the order in which they are evaluated."""
    scores = collections.defaultdict(dict)
    tags = set()
    for number, (query, _, name, _, score, tag) in columns_of(path, 6, "a run"):
        tags.add(tag)
        if len(tags) > 1:
            raise Bad(f"{path}: line {number} has the tag {tag}, and there is another one: evaluate one run at a time")
        if name in scores[query]:
            raise Bad(f"{path}: line {number}: {name} stands twice for {query}")
        if not re.fullmatch("[+-]?([0-9]+[.]?[0-9]*|[.][0-9]+)([eE][+-]?[0-9]+)?", score):
            raise Bad(f"{path}: line {number}: {score} is no score")
        scores[query][name] = float(score)
    return {query: sorted(hits, key=lambda name: (hits[name], name.encode()), reverse=True)
            for query, hits in scores.items()}


def evaluate_query(judged, names):
    """The measures of one query."""
    gains = [max(0, judged.get(name, 0)) for name in names]
    ideal = sorted((gain for gain in judged.values() if gain > 0), reverse=True)
    places = [place for place, gain in enumerate(gains, 1) if gain]
    precisions = sum(found / place for found, place in enumerate(places, 1))
    best = discounted(ideal)
    return (precisions / len(ideal) if ideal else 0.0,
            1 / places[0] if places else 0.0,
            sum(place <= 10 for place in places) / 10,
            discounted(gains) / best if best else 0.0)


def discounted(gains):
    return sum(gain / math.log2(place + 1) for place, gain in enumerate(gains[:10], 1))


def evaluate(words):
    if len(words) not in (2, 3) or words[2:] not in ([], ["complete"]):
        return False
    qrels = read_qrels(words[0])
    run = read_run(words[1])
    queries = sorted(query for query in qrels if query in run or len(words) == 3)
    if not queries:
        raise Bad(f"{words[1]}: has no query of {words[0]}")
    values = {query: evaluate_query(qrels[query], run.get(query, [])) for query in queries}
    means = [sum(column) / len(queries) for column in zip(*values.values())]
    for query, row in [*values.items(), ("all", means)]:
        for measure, value in zip(MEASURES, row):
            print(f"{measure:<22}\t{query}\t{value:.4f}")
    return True


if __name__ == "__main__":
    sys.exit(run_script("evaluate.py", __doc__, evaluate, sys.argv[1:]))
