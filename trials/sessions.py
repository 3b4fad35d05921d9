#!/usr/bin/env python3
"""Sixty-four sessions at one desk, with interleaved grants, against as many searches alone.

usage: sessions.py PROGRAM INDEX QUERIES [SEED]

The first 64 queries of the plain query file QUERIES are opened at one desk, `PROGRAM serve INDEX`, each with a k
and grants of its own; the grants come in an order that is drawn from SEED (1 unless said), and behind each grant
the session is asked for its report and its answer. All of these must be those of `PROGRAM search INDEX` for that
query alone under the same budgets. The last line says how many were compared; the status is 1 where one differs.
"""
import os
import random
import subprocess
import sys
import tempfile

SESSIONS = 64
SIZES = ["0", "1", "100", "1000", "10000", "100000", "all"]


def printed(words, text=""):
    return subprocess.run(words, input=text, capture_output=True, text=True, check=True).stdout


def read_queries(path):
    """The texts of the first queries, without their ids."""
    with open(path, encoding="utf-8", newline="\n") as lines:
        texts = [line.rstrip("\n").partition(" ")[2] for line in lines if line.strip()]
    if len(texts) < SESSIONS:
        sys.exit(f"{path}: fewer than {SESSIONS} queries")
    return texts[:SESSIONS]


def alone(program, index, name, text, k, budgets):
    """The report and the answer of one search after each of its budgets."""
    with tempfile.TemporaryDirectory() as folder:
        queries, run = os.path.join(folder, "queries"), os.path.join(folder, "run")
        with open(queries, "w", encoding="utf-8") as out:
            out.write(f"{name} {text}\n")
        words = [program, "search", index, queries, run, f"k={k}", "budget=" + ",".join(budgets)]
        reports = printed(words).splitlines()
        with open(run, encoding="utf-8") as lines:
            rows = [line.split() for line in lines]
    tags = [f"jass.{place + 1}" for place in range(len(budgets))] if len(budgets) > 1 else ["jass"]
    answers = [[row[:5] for row in rows if row[5] == tag] for tag in tags]
    return list(zip(reports, answers))


def dialogue(names, texts, ks, grants, draw):
    """The lines for the desk, and the session of each grant in turn."""
    lines = [f"open {name} {k} {text}" for name, text, k in zip(names, texts, ks)]
    order = [place for place in range(SESSIONS) for _ in grants[place]]
    draw.shuffle(order)
    given = [0] * SESSIONS
    for place in order:
        name = names[place]
        lines += [f"grant {name} {grants[place][given[place]]}", f"why {name}", f"top {name}"]
        given[place] += 1
    lines += [f"close {name}" for name in names] + ["end"]
    return lines, order


def read_replies(replies, order):
    """The reports and answers in the replies, in the order of the grants."""
    at = SESSIONS
    found = []
    for _ in order:
        report, again, hits = replies[at:at + 3]
        count = int(hits.removeprefix("hits "))
        rows = [line.split()[:5] for line in replies[at + 3:at + 3 + count]]
        found.append((report, again, rows))
        at += 3 + count
    return found, replies[at:]


def main():
    if len(sys.argv) not in (4, 5):
        sys.exit(__doc__)
    program, index, path = sys.argv[1:4]
    draw = random.Random(int(sys.argv[4]) if len(sys.argv) == 5 else 1)
    documents = int(printed([program, "check", index]).split()[1])
    texts = read_queries(path)
    names = [f"s{place}" for place in range(SESSIONS)]
    ks = [draw.choice([1, 10, 1000]) for _ in names]
    grants = [[draw.choice(SIZES) for _ in range(draw.randint(1, 6))] for _ in names]
    lines, order = dialogue(names, texts, ks, grants, draw)
    frames = SESSIONS * (documents // 256 + 1)
    replies = printed([program, "serve", index, f"frames={frames}"], "\n".join(lines) + "\n").splitlines()
    found, rest = read_replies(replies, order)
    wanted = [alone(program, index, *session) for session in zip(names, texts, ks, grants)]
    wrong = 0
    for place, (report, again, rows) in zip(order, found):
        if (report, rows) != wanted[place].pop(0) or again != report:
            print(f"session {names[place]}: another answer than alone")
            wrong += 1
    if rest != [f"closed {name}" for name in names] + ["bye"]:
        print("other replies at the end")
        wrong += 1
    print(f"{SESSIONS} sessions, {len(order)} grants: {wrong} differ")
    sys.exit(1 if wrong else 0)


if __name__ == "__main__":
    main()
