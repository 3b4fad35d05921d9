#!/usr/bin/python3
"""Makes a CIFF file, or queries with factors, of the weighted terms that a learned sparse model gives.

usage: vectors_ciff.py documents VECTORS CIFF [GREATEST]
       vectors_ciff.py queries VECTORS QUERIES [GREATEST]

VECTORS has a JSON object a line, as encoders write them for Anserini: the name under `id`, the weights by term under
`vector`. `-` is the standard input. All weights are scaled by one number and rounded, so that the greatest becomes
GREATEST: 255 for documents and queries unless said, at most 65,535 for documents and 255 for queries. A weight that
rounds to 0 is left out. Weights that are whole numbers up to GREATEST stay as they are. What scaling changed is printed.
In the CIFF file a weight stands as a term frequency: import it with weights=tf bits=raw. Queries are read in plain
mode; a term with a blank, a caret or a control character is refused, since no plain query names it. Needs the packages
python3-protobuf and protobuf-compiler for documents.
"""
import array
import json
import math
import sys

from common import Bad, check_name, lengths_of, messages, number_word, run_script, write_header, write_list, write_records

LONGEST_TERM = 65_535
MOST_TERMS = 256


def vectors(path):
    """The name and the weights of each line that isn't empty."""
    with (sys.stdin if path == "-" else open(path, encoding="utf-8-sig")) as lines:
        for number, line in enumerate(lines, 1):
            if not line.strip():
                continue
            where = f"{path}: line {number}"
            try:
                entry = json.loads(line)
                name, weights = str(entry["id"]), entry["vector"]
                items = weights.items()
            except (ValueError, KeyError, TypeError, AttributeError):
                raise Bad(f"{where} is no JSON object with an id and a vector") from None
            check_name(name, where)
            for term, weight in items:
                if type(weight) not in (int, float) or not 0 <= weight < math.inf:
                    raise Bad(f"{where}: the weight of {term!r} is no number from 0 on")
                if not 1 <= len(term.encode()) <= LONGEST_TERM:
                    raise Bad(f"{where}: a term has no byte, or more than {LONGEST_TERM}")
            yield name, weights, where


class Scale:
    """One factor for all weights, and what it changed."""

    def __init__(self, whole, greatest, most):
        self.factor = 1 if whole and greatest <= most else most / greatest if greatest else 1
        self.most = most
        self.left_out = 0
        self.worst = 0.0

    def of(self, weight):
        """The whole number that stands for a weight; 0 where it is left out."""
        exact = weight * self.factor
        near = min(int(exact + 0.5), self.most)
        if weight and not near:
            self.left_out += 1
        self.worst = max(self.worst, abs(near - exact))
        return near

    def told(self):
        return f"factor {self.factor:.6g} left out {self.left_out} greatest change {self.worst / self.factor:.4g}"


def read(path):
    """All entries, and whether their weights are whole numbers, and the greatest."""
    entries = []
    names = set()
    whole, greatest = True, 0
    for name, weights, where in vectors(path):
        if name in names:
            raise Bad(f"{where}: there is another {name}")
        names.add(name)
        entries.append((name, weights, where))
        for weight in weights.values():
            whole = whole and weight == int(weight)
            greatest = max(greatest, weight)
    if not entries:
        raise Bad(f"{path}: has no vector")
    return entries, whole, greatest


def write_documents(entries, scale, path):
    ciff = messages()
    lists = {}
    records = []
    for name, weights, _ in entries:
        total = 0
        for term, weight in weights.items():
            tf = scale.of(weight)
            if tf:
                docs, tfs = lists.setdefault(term, (array.array("I"), array.array("I")))
                docs.append(len(records))
                tfs.append(tf)
                total += tf
        records.append((name, total))
    with open(path, "wb") as out:
        write_header(out, ciff, "learned sparse vectors", len(lists), lengths_of(records))
        for term in sorted(lists, key=str.encode):
            write_list(out, ciff, term, list(zip(*lists[term])))
        write_records(out, ciff, records)
    print("documents", len(records), "terms", len(lists), "postings", sum(len(docs) for docs, _ in lists.values()))


def mention(term, factor, where):
    """A term of a plain query with its factor."""
    if "^" in term or any(character <= " " or character == "\x7f" for character in term):
        raise Bad(f"{where}: no plain query names the term {term!r}")
    return f"{term}^{factor}"


def write_queries(entries, scale, path):
    lines = []
    for name, weights, where in entries:
        factors = [(scale.of(weight), term) for term, weight in weights.items()]
        mentions = [mention(term, factor, where) for factor, term in factors if factor]
        if len(mentions) > MOST_TERMS:
            raise Bad(f"{where}: has {len(mentions)} terms, and a query has at most {MOST_TERMS}")
        lines.append(" ".join([name] + mentions) + "\n")
    with open(path, "w", encoding="utf-8", newline="\n") as out:
        out.writelines(lines)
    print("queries", len(lines))


def make(words):
    if not 3 <= len(words) <= 4 or words[0] not in ("documents", "queries"):
        return False
    of_documents = words[0] == "documents"
    limit = 65_535 if of_documents else 255
    most = number_word(words[3], 1, limit, "GREATEST") if len(words) == 4 else 255
    entries, whole, greatest = read(words[1])
    scale = Scale(whole, greatest, most)
    (write_documents if of_documents else write_queries)(entries, scale, words[2])
    print(scale.told())
    return True


if __name__ == "__main__":
    sys.exit(run_script("vectors_ciff.py", __doc__, make, sys.argv[1:]))
