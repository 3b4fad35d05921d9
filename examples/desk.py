#!/usr/bin/python3
"""Asks `jass serve` for the answers of a query file, with postings granted in turn.

usage: desk.py JASS INDEX QUERIES K PART MOST

Opens a session for each query (at most 64, in plain mode). Then it grants each PART postings in turn, until the
answer is `set` or `final`, or the session was granted MOST postings or more. Printed are, for each query, its
report line and its first document.
"""
import subprocess
import sys

from common import Bad, number_word, run_script

MOST_FRAMES = 1048576  # that `serve` takes


def enough_frames(jass, index, sessions):
    """Frames that always have room for so many sessions: each needs one for 256 documents at the most."""
    totals = subprocess.run([jass, "check", index], encoding="utf-8", stdout=subprocess.PIPE)
    if totals.returncode:
        raise Bad(f"{index}: is no index, or could not be read")
    pages = (int(totals.stdout.split()[1]) + 255) // 256
    return min(max(sessions * pages, 1), MOST_FRAMES)


class Desk:
    """A running `jass serve`."""

    def __init__(self, jass, index, sessions):
        frames = enough_frames(jass, index, sessions)
        self.process = subprocess.Popen([jass, "serve", index, f"frames={frames}"], encoding="utf-8",
                                        stdin=subprocess.PIPE, stdout=subprocess.PIPE)

    def ask(self, line):
        """The reply to a line, as its first line; a refusal is raised."""
        try:
            print(line, file=self.process.stdin, flush=True)
        except BrokenPipeError:
            pass  # the program has ended, and its output too
        reply = self.process.stdout.readline()
        if not reply.endswith("\n"):
            raise Bad(f"the program ended with {self.process.wait()}")
        if reply.startswith("refused "):
            raise Bad(f"{line}: {reply.rstrip()}")
        return reply.rstrip("\n")

    def hits(self, name):
        """The answer of a session as it stands: its run lines, which follow their number."""
        count = int(self.ask(f"top {name}").split(" ")[1])
        return [self.process.stdout.readline().rstrip("\n") for _ in range(count)]

    def end(self):
        self.ask("end")
        self.process.communicate()


def desk(words):
    if len(words) != 6:
        return False
    jass, index, queries = words[:3]
    k, part, most = (number_word(word, 1, 10**9, "a number") for word in words[3:])
    with open(queries, encoding="utf-8") as text:
        asked = [line.split(maxsplit=1) for line in text if line.strip()]

    served = Desk(jass, index, len(asked))
    names = [query[0] for query in asked]
    for name, *mentions in asked:
        served.ask(" ".join(["open", name, str(k), *(text.strip() for text in mentions)]))
    reports = {name: served.ask(f"why {name}") for name in names}
    for _ in range(0, most, part):
        for name in names:
            if reports[name].endswith(" open"):
                reports[name] = served.ask(f"grant {name} {part}")
    for name in names:
        print(reports[name])
        for line in served.hits(name)[:1]:
            print(line)
        served.ask(f"close {name}")
    served.end()
    return True


if __name__ == "__main__":
    sys.exit(run_script("desk.py", __doc__, desk, sys.argv[1:]))
