#!/usr/bin/python3
"""Makes queries and judgements of the package descriptions of make_ciff.py.

usage: known_items.py QUERIES QRELS

Of the 5,000 packages that make_ciff.py takes, each fiftieth is an item: its query is the first four words of
its description, and the package is the one document that is relevant to it. So the judgements say whether a
document is found by its own words; they say nothing of how good answers are.
"""
import sys

from common import Bad, run_script
from make_ciff import WORD, chosen, packages


def known_items(words):
    if len(words) != 2:
        return False
    if words[0] == words[1]:
        raise Bad(f"{words[1]}: is written twice")
    told = packages(("Description",))
    names = chosen(told, 5000)[::50]
    with open(words[0], "w", encoding="utf-8") as queries, open(words[1], "w", encoding="utf-8") as qrels:
        for place, name in enumerate(names, 1):
            first = WORD.findall(told[name].lower())[:4]
            print(f"i{place}", *first, file=queries)
            print(f"i{place}", 0, name, 1, file=qrels)
    print("items", len(names))
    return True


if __name__ == "__main__":
    sys.exit(run_script("known_items.py", __doc__, known_items, sys.argv[1:]))
