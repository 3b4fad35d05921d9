#!/usr/bin/python3
"""Makes a CIFF file of a text collection.

usage: text_ciff.py TEXT CIFF [LIMIT]

TEXT has a document a line, either `NAME TAB text` or a JSON object with the name under `id`, `_id`, `docid` or `docno`
and the text under `contents`, `text` or `body`, behind that of `title` where there is one. `-` is the standard input.
At most LIMIT documents are taken; all where it isn't said. The terms are the words of the text as folded queries have
them: longest runs of letters and digits, folded. So search with mode=folded. A document's length is the number of its
words. Names must be 1 to 1,048,576 bytes without blanks and control characters, and a name may stand once. The terms
and postings are held in memory, some 12 bytes a posting. Needs the packages python3-protobuf and protobuf-compiler.
"""
import array
import collections
import json
import sys

from common import Bad, check_name, lengths_of, messages, number_word, run_script, write_header, write_list, write_records
from words import words_of

NAMES = ("id", "_id", "docid", "docno")
TEXTS = ("contents", "text", "body")
LONGEST_TERM = 65_535


def first_of(document, keys):
    """The value under the first of these keys that is there."""
    for key in keys:
        if key in document:
            value = document[key]
            if isinstance(value, (str, int)):
                return str(value)
    return None


def of_json(line, where):
    """The name and the text of a JSON object."""
    try:
        document = json.loads(line)
    except ValueError:
        raise Bad(f"{where} is no JSON object") from None
    if not isinstance(document, dict):
        raise Bad(f"{where} is no JSON object")
    name = first_of(document, NAMES)
    text = first_of(document, TEXTS)
    if name is None or text is None:
        raise Bad(f"{where} has no name under {', '.join(NAMES)}, or no text under {', '.join(TEXTS)}")
    title = first_of(document, ("title",))
    return name, text if title is None else title + " " + text


def of_columns(line, where):
    """The name and the text of a line with a tab."""
    name, tab, text = line.partition("\t")
    if not tab:
        raise Bad(f"{where} has no tab behind a name")
    return name, text


def documents(lines, path):
    """The name and the text of each line that isn't empty."""
    for number, line in enumerate(lines, 1):
        where = f"{path}: line {number}"
        if number == 1:
            line = line.removeprefix("\ufeff")
        line = line.rstrip("\r\n")
        if line:
            name, text = of_json(line, where) if line.startswith("{") else of_columns(line, where)
            check_name(name, where)
            yield name, text, where


def opened(path):
    """The lines of a file, or of the standard input."""
    if path == "-":
        sys.stdin.reconfigure(encoding="utf-8", newline="\n")
        return sys.stdin
    return open(path, encoding="utf-8", newline="\n")


def make(words):
    if not 2 <= len(words) <= 3:
        return False
    limit = number_word(words[2], 1, 1 << 26, "LIMIT") if len(words) == 3 else 1 << 26
    ciff = messages()
    lists = {}
    records = []
    names = set()
    with opened(words[0]) as lines:
        for name, text, where in documents(lines, words[0]):
            if len(records) == limit:
                if len(words) == 3:
                    break
                raise Bad(f"{where}: there are more than {limit} documents")
            if name in names:
                raise Bad(f"{where}: there is another {name}")
            names.add(name)
            counts = collections.Counter(words_of(text))
            for term, tf in counts.items():
                entry = lists.get(term)
                if entry is None:
                    if len(term.encode()) > LONGEST_TERM:
                        raise Bad(f"{where}: a word has more than {LONGEST_TERM} bytes")
                    entry = lists[term] = (array.array("I"), array.array("I"))
                entry[0].append(len(records))
                entry[1].append(tf)
            records.append((name, sum(counts.values())))
    if not records:
        raise Bad(f"{words[0]}: has no document")
    with open(words[1], "wb") as out:
        write_header(out, ciff, "text", len(lists), lengths_of(records))
        for term in sorted(lists):
            write_list(out, ciff, term, list(zip(*lists[term])))
        write_records(out, ciff, records)
    postings = sum(len(docs) for docs, _ in lists.values())
    print("documents", len(records), "terms", len(lists), "postings", postings)
    return True


if __name__ == "__main__":
    sys.exit(run_script("text_ciff.py", __doc__, make, sys.argv[1:]))
