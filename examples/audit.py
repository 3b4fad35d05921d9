#!/usr/bin/python3
"""Says whether a run and its reports are those of a search, as `jass audit` does, without anything of jass.

usage: audit.py CIFF QUERIES RUN REPORTS [k=K] [budget=B,..] [tag=TAG] [mode=plain|folded]

CIFF is the index as `jass export INDEX CIFF` writes it, with impacts as frequencies; the other words are those
of `jass audit`, and so is the line that is printed. It is for those who trust no proof: it reads docs/FORMATS.md's
formats by itself, adds up each query's postings and sorts, and finds the grade by the gains that could change the
answer. Queries are to be such as `jass search` takes. In folded mode it stops at a character of which Python doesn't
tell whether it is alphabetic (marks, and symbols such as circled letters). Needs the packages python3-protobuf and
protobuf-compiler.
"""
import collections
import sys
import unicodedata

from common import Bad, CiffFile, messages, number_word, run_script

ALL = 2**64 - 1


def lines_in(text):
    """The lines of bytes, without their LF and one CR, numbered from 1; those without bytes are left out."""
    pieces = text.split(b"\n")
    for number, line in enumerate(pieces, 1):
        line = line.removesuffix(b"\r")
        if line:
            yield number, line


def decimal(word):
    """The decimal below 2^64 that bytes of 1 to 20 digits spell, or None."""
    if word.isdigit() and len(word) <= 20 and int(word) <= ALL:
        return int(word)
    return None


# ---- queries


def factor_of(text):
    if text.isascii() and text.isdigit() and len(text) <= 3 and 1 <= int(text) <= 255:
        return int(text)
    return None


def plain_mentions(text):
    for run in text.replace(b"\t", b" ").split(b" "):
        if run:
            front, caret, behind = run.rpartition(b"^")
            factor = factor_of(behind) if caret and front else None
            yield (run, 1) if factor is None else (front, factor)


def is_word(letter):
    category = unicodedata.category(letter)
    if letter > "\x7f" and (category[0] == "M" or category == "So"):
        raise Bad(f"whether {letter!r} is alphabetic isn't known here")
    return category[0] == "L" or category in ("Nl", "Nd")


def folded_mentions(text):
    runs = [["", False]]  # each with whether one ^ follows it
    for letter in text.decode():
        if is_word(letter):
            runs[-1][0] += letter
        else:
            runs[-1][1] = letter == "^"
            runs.append(["", False])
    at = 0
    while at < len(runs):
        run, caret = runs[at]
        at += 1
        if run:
            factor = factor_of(runs[at][0]) if caret else None
            at += factor is not None
            yield run.casefold().encode(), factor or 1


class Query:
    """A line's id, its known terms by first mention with the sums of their factors, and the number of other mentions."""

    def __init__(self, line, mode, lists):
        end = min((at for at in (line.find(b" "), line.find(b"\t")) if at >= 0), default=len(line))
        self.id = line[:end]
        if not self.id:
            raise Bad("a query has no id")
        self.times = {}
        self.unknown = 0
        mentions = folded_mentions if mode == "folded" else plain_mentions
        for term, factor in mentions(line[end:]):
            if term in lists:
                self.times[term] = self.times.get(term, 0) + factor
            else:
                self.unknown += 1


# ---- answers


class Plan:
    """The segments of a query, the postings of a term and an impact each, in the order in which they are scored."""

    def __init__(self, query, lists):
        self.segments = []  # (weight, the term's place, documents)
        for place, (term, times) in enumerate(query.times.items()):
            for impact, docs in lists[term].items():
                self.segments.append((impact * times, place, docs))
        self.segments.sort(key=lambda s: (-s[0], len(s[2]), s[1]))

    def prefix(self, budget):
        """How many whole segments a budget pays for, and their postings."""
        postings = 0
        for number, (_, _, docs) in enumerate(self.segments):
            if postings + len(docs) > budget:
                return number, postings
            postings += len(docs)
        return len(self.segments), postings


def rank(hit):
    doc, score = hit
    return -score, doc


def grade(ranked, k, bound, documents):
    """By gains from 0 to the bound, one for each document: whether some change the first k, or their order."""
    hits, others = ranked[:k], ranked[k:]
    if bound == 0:
        return "final"
    scored = {doc for doc, _ in ranked}
    unscored = [doc for doc in range(documents) if doc not in scored]
    others = others + [(doc, 0) for doc in unscored[:1]]
    if len(hits) < k and others:
        return "open"
    for other, score in others:
        if rank((other, score + bound)) < rank(hits[-1]):
            return "open"
    later = None
    for doc, score in reversed(hits):
        if later is not None and later < rank((doc, score)):
            return "set"
        gained = rank((doc, score + bound))
        later = gained if later is None else min(later, gained)
    return "final"


def answer(query, plan, budget, k, documents):
    """The first k of the sums over the prefix, and the report line."""
    count, postings = plan.prefix(budget)
    scores = collections.Counter()
    for weight, _, docs in plan.segments[:count]:
        for doc in docs:
            scores[doc] += weight
    ranked = sorted(scores.items(), key=rank)
    rest = {}
    for weight, place, _ in plan.segments[count:]:
        rest.setdefault(place, weight)
    bound = sum(rest.values())
    cutoff = plan.segments[count - 1][0] if count else 0
    following = plan.segments[count][0] if count < len(plan.segments) else 0
    report = (f" postings {postings} segments {count} of {len(plan.segments)} cutoff {cutoff} next {following} "
              f"bound {bound} unknown {query.unknown} {grade(ranked, k, bound, documents)}\n")
    return ranked[:k], query.id + report.encode()


class Search:
    """What a search leaves: its run by rows, and its reports."""

    def __init__(self, path, asked):
        file = CiffFile(messages(), path)
        self.names = [name.encode() for name, _ in file.records()]
        self.lists = {}
        for term, postings in file.lists():
            by_impact = self.lists[term.encode()] = {}
            for doc, impact in postings:
                by_impact.setdefault(impact, []).append(doc)
        self.asked = asked

    def of(self, text):
        rows, reports = [], []
        for _, line in lines_in(text):
            query = Query(line, self.asked.mode, self.lists)
            plan = Plan(query, self.lists)
            granted = 0
            for number, budget in enumerate(self.asked.budgets, 1):
                granted = min(ALL, granted + budget)
                hits, report = answer(query, plan, granted, self.asked.k, len(self.names))
                tag = self.asked.tag + (b".%d" % number if len(self.asked.budgets) > 1 else b"")
                reports.append(report)
                rows.extend((query.id, self.names[doc], place, score, tag) for place, (doc, score) in enumerate(hits, 1))
        return rows, b"".join(reports)


# ---- what is audited


def rows_of(path, text):
    """The rows of a run, by its lines that have bytes."""
    rows = []
    for number, line in lines_in(text):
        columns = [column for column in line.replace(b"\t", b" ").split(b" ") if column]
        try:
            line.decode()
        except UnicodeDecodeError:
            columns = []
        if len(columns) != 6 or columns[1] != b"Q0":
            raise Bad(f"{path}: refusal 80 at line {number}")
        place, score = decimal(columns[3]), decimal(columns[4])
        if place is None or score is None:
            raise Bad(f"{path}: refusal 81 at line {number}")
        rows.append((columns[0], columns[2], place, score, columns[5]))
    return rows


def parting(first, second):
    """How many items two sequences begin with alike; None where they are the same."""
    if first == second:
        return None
    count = 0
    for one, other in zip(first, second):
        if one != other:
            break
        count += 1
    return count


def verdict(found, given):
    rows, reports = found
    run, printed = given
    at = parting(reports, printed)
    if at is not None:
        return f"audit no report line {reports[:at].count(10) + 1}"
    at = parting(rows, run)
    if at is not None:
        return f"audit no run line {at + 1}"
    return "audit ok"


class Asked:
    """The options of a search."""

    def __init__(self, words):
        self.k, self.budgets, self.tag, self.mode = 1000, [ALL], b"jass", "plain"
        for word in words:
            key, _, value = word.partition("=")
            if key == "k":
                self.k = number_word(value, 1, 100_000, "k")
            elif key == "budget":
                self.budgets = [ALL if part == "all" else number_word(part, 0, ALL, "budget") for part in value.split(",")]
            elif key == "tag":
                self.tag = value.encode()
            elif key == "mode" and value in ("plain", "folded"):
                self.mode = value
            else:
                raise Bad(f"{word} is no option")


def content(path):
    with open(path, "rb") as file:
        return file.read()


def main(words):
    if len(words) < 4:
        return False
    ciff, queries, run, reports = words[:4]
    search = Search(ciff, Asked(words[4:]))
    asked = content(queries)
    given = rows_of(run, content(run)), content(reports)
    print(verdict(search.of(asked), given))
    return True


if __name__ == "__main__":
    sys.exit(run_script("audit.py", __doc__.split("usage: ")[1].split("\n")[0], main, sys.argv[1:]))
