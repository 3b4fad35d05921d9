#!/usr/bin/python3
"""Makes a CIFF file of the package descriptions that this Debian machine knows.

usage: make_ciff.py CIFF [PACKAGES]

Reads `apt-cache dumpavail`. Of all packages, at most PACKAGES (5,000 unless said) are taken at even
distances. A package is a document with its name; its words are those of its name, section, description
and tags, lower-cased and split at every character that is neither a letter nor a digit. Needs the
packages python3-protobuf and protobuf-compiler.
"""
import collections
import re
import subprocess
import sys

from common import Bad, lengths_of, messages, number_word, run_script, write_header, write_list, write_records

FIELDS = ("Package", "Section", "Description", "Tag")
WORD = re.compile(r"[^\W_]+")


def packages(fields=FIELDS):
    """The text of each package in these fields, by its name; of two of one name the first counts."""
    told = subprocess.run(["apt-cache", "dumpavail"], check=True, stdout=subprocess.PIPE)
    texts = {}
    for paragraph in told.stdout.decode("utf-8", "replace").split("\n\n"):
        values = dict(re.findall(r"^([A-Za-z0-9-]+):(.*(?:\n[ \t].*)*)", paragraph, re.M))
        if "Package" in values:
            text = " ".join(values.get(field, "") for field in fields)
            texts.setdefault(values["Package"].strip(), text)
    return texts


def chosen(texts, limit):
    """The names in order, at most so many of them, at even distances."""
    names = sorted(texts)
    if len(names) <= limit:
        return names
    return [names[place * len(names) // limit] for place in range(limit)]


def make(words):
    if not 1 <= len(words) <= 2:
        return False
    limit = number_word(words[1], 1, 1 << 26, "PACKAGES") if len(words) == 2 else 5000
    ciff = messages()
    texts = packages()
    if not texts:
        raise Bad("apt-cache tells no package")

    lists = collections.defaultdict(list)
    records = []
    for doc, name in enumerate(chosen(texts, limit)):
        counts = collections.Counter(WORD.findall(texts[name].lower()))
        records.append((name, sum(counts.values())))
        for term, tf in counts.items():
            lists[term].append((doc, tf))

    with open(words[0], "wb") as out:
        write_header(out, ciff, "package descriptions", len(lists), lengths_of(records))
        for term in sorted(lists):
            write_list(out, ciff, term, lists[term])
        write_records(out, ciff, records)
    print("documents", len(records), "terms", len(lists), "postings", sum(map(len, lists.values())))
    return True


if __name__ == "__main__":
    sys.exit(run_script("make_ciff.py", __doc__, make, sys.argv[1:]))
