#!/usr/bin/python3
"""Runs the program with its notes at a terminal, and in a pipe, and compares what stands there.

usage: terminal.py PROGRAM

In a pipe the note stands alone. At a terminal the lines of advice below it must hold what is written here. The status
is 1 where a case differs.
"""
import gzip
import os
import pty
import subprocess
import sys
import tempfile

# The words, the note, and what the advice must hold.
CASES = [
    ([], "word 1", ["a word is missing", "jass --help"]),
    (["seach", "x"], "word 1", ["the word is seach", "did you mean search?", "jass --help"]),
    (["zzz"], "word 1", ["the word is zzz", "jass --help"]),
    (["search", "a.idx"], "word 3", ["a word is missing", "here stands QUERIES", "usage: jass search INDEX QUERIES RUN*"]),
    (["search", "a.idx", "q", "r", "kk=3"], "word 5", ["the word is kk=3", "an option may stand", "usage: jass search"]),
    (["once", "b.ciff", "0", "all", "a"], "word 3", ["the word is 0", "1 to 100000", "usage: jass once"]),
    (["check", "a.idx", "more"], "word 3", ["the word is more", "no word may stand here"]),
    (["import", "c.gz", "x.idx"], "c.gz: refusal 1", ["compressed by gzip"]),
    (["check", "b.ciff"], "b.ciff: refusal 40 at 0", ["it is no index file"]),
    (["check", "text"], "text: refusal 4", ["it begins as a text does"]),
    (["check", "missing"], "missing: read fault", ["No such file"]),
    (["rewrite", "b.ciff", "no/x"], "no/x: write fault", ["No such file"]),
]


def lines_of(data):
    return data.decode("utf-8", "replace").replace("\r\n", "\n").splitlines()


def at_terminal(command, folder):
    """What stands on a terminal that gets the notes."""
    ours, theirs = pty.openpty()
    process = subprocess.Popen(command, cwd=folder, stdin=subprocess.DEVNULL, stdout=subprocess.DEVNULL, stderr=theirs)
    os.close(theirs)
    said = b""
    while True:
        try:
            piece = os.read(ours, 4096)
        except OSError:
            break
        if not piece:
            break
        said += piece
    process.wait()
    os.close(ours)
    return lines_of(said)


def differs(program, folder, words, note, wanted):
    """What is wrong with a case, if anything is."""
    command = [program, *words]
    piped = lines_of(subprocess.run(command, cwd=folder, stdin=subprocess.DEVNULL, capture_output=True).stderr)
    shown = at_terminal(command, folder)
    if len(piped) != 1 or not piped[0].startswith(note):
        return f"in a pipe: {piped}"
    if shown[:1] != piped:
        return f"another note at a terminal: {shown}"
    advice = shown[1:]
    if not advice or not all(line.startswith("  ") for line in advice):
        return f"no advice: {shown}"
    missing = [text for text in wanted if not any(text in line for line in advice)]
    return f"{missing} isn't said: {advice}" if missing else None


def main(words):
    if len(words) != 1:
        print(__doc__, file=sys.stderr)
        return 2
    program = os.path.abspath(words[0])
    here = os.path.dirname(os.path.abspath(__file__))
    with open(f"{here}/../crates/jass/data/b.ciff", "rb") as file:
        ciff = file.read()
    wrong = 0
    with tempfile.TemporaryDirectory() as folder:
        for name, content in (("b.ciff", ciff), ("c.gz", gzip.compress(ciff)), ("text", b"a line of words\n" * 9)):
            with open(f"{folder}/{name}", "wb") as file:
                file.write(content)
        for case in CASES:
            found = differs(program, folder, *case)
            if found:
                wrong += 1
                print(f"{' '.join(case[0])}: {found}")
    print(f"{len(CASES)} cases, {wrong} wrong")
    return 1 if wrong else 0


if __name__ == "__main__":
    sys.exit(main(sys.argv[1:]))
