#!/usr/bin/python3
"""Tries the scripts that turn text, topics and vectors into files of the program.

usage: examples.py [JASS]

Each script of `examples/` is called with small inputs, good and bad, and what it prints and writes is compared with
what stands here. With JASS, the built program, texts of random characters are imported and asked for by themselves, in
folded mode: no word of a text may be unknown, so the words of the script are those of the program. The last line says
how many cases there were. Needs the packages python3-protobuf and protobuf-compiler.
"""
import os
import random
import subprocess
import sys
import tempfile

HERE = os.path.dirname(os.path.abspath(__file__))
EXAMPLES = os.path.join(os.path.dirname(HERE), "examples")

# words behind the script, files by name, status, the output, the note's end, and a file that is written with its content
CASES = [
    ("text_ciff.py t.tsv c", {"t.tsv": "d1\tThe Straße in ÉCOLE, 2nd\nd2\tCats; CATS!\n"}, 0,
     "documents 2 terms 6 postings 6\n", "", None),
    ("text_ciff.py t.tsv c 1", {"t.tsv": "d1\tx\nd2\ty\n"}, 0, "documents 1 terms 1 postings 1\n", "", None),
    ("text_ciff.py t.json c", {"t.json": '{"id":"a","title":"T","contents":"x y"}\n\n{"_id":7,"text":"z"}\n'}, 0,
     "documents 2 terms 4 postings 4\n", "", None),
    ("text_ciff.py t.tsv c", {"t.tsv": "\ufeffd1\tx\r\n"}, 0, "documents 1 terms 1 postings 1\n", "", None),
    ("text_ciff.py t.tsv c", {"t.tsv": "d1 x\n"}, 2, "", "t.tsv: line 1 has no tab behind a name\n", None),
    ("text_ciff.py t.tsv c", {"t.tsv": "d1\tx\nd1\ty\n"}, 2, "", "t.tsv: line 2: there is another d1\n", None),
    ("text_ciff.py t.tsv c", {"t.tsv": "d 1\tx\n"}, 2, "", "line 1: 'd 1' is no name of a document or a query\n", None),
    ("text_ciff.py t.tsv c", {"t.tsv": ""}, 2, "", "t.tsv: has no document\n", None),
    ("text_ciff.py t.json c", {"t.json": '{"id":"a"}\n'}, 2, "", "or no text under contents, text, body\n", None),
    ("text_ciff.py t.tsv", {}, 2, "", "usage: text_ciff.py TEXT CIFF [LIMIT]\n", None),
    ("text_ciff.py -t c", {}, 2, "", "-t is no option; a file by such a name is ./-t\n", None),
    ("topics.py t q", {"t": "<top>\n<num> Number: 301 \n<title> Organized Crime \n\n<desc> Description: \nIt.\n</top>\n"},
     0, "queries 1 without a word 0\n", "", ("q", "301 organized crime\n")),
    ("topics.py t q both", {"t": "<top><num>302</num><title>Post-Polio &amp; x</title><desc>d^2</desc></top>"},
     0, "queries 1 without a word 0\n", "", ("q", "302 post polio x d 2\n")),
    ("topics.py t q", {"t": '<topics><topic number="1"><query>a b</query></topic>\n<topic number="2"/></topics>'},
     0, "queries 1 without a word 0\n", "", ("q", "1 a b\n")),
    ("topics.py t q", {"t": "\ufeff1048585\twho is paula's brother\n7\t?\n"}, 0, "queries 2 without a word 1\n", "",
     ("q", "1048585 who is paula s brother\n7\n")),
    ("topics.py t q", {"t": '{"_id":"a","text":"x"}\n'}, 0, "queries 1 without a word 0\n", "", ("q", "a x\n")),
    ("topics.py t q", {"t": "1\ta\n1\tb\n"}, 2, "", "t: there is another topic 1\n", None),
    ("topics.py t q", {"t": "<top><title>x</title></top>"}, 2, "", "t: topic 1 has no number\n", None),
    ("topics.py t q narrative", {"t": ""}, 2, "", "usage: topics.py TOPICS QUERIES [title|description|both]\n", None),
    ("vectors_ciff.py documents v c", {"v": '{"id":"d","vector":{"cat":1.25,"dog":0.001,"owl":3}}\n'}, 0,
     "documents 1 terms 2 postings 2\nfactor 85 left out 1 greatest change 0.002941\n", "", None),
    ("vectors_ciff.py documents v c", {"v": '{"id":"d","vector":{"cat":12,"dog":3}}\n'}, 0,
     "documents 1 terms 2 postings 2\nfactor 1 left out 0 greatest change 0\n", "", None),
    ("vectors_ciff.py queries v q", {"v": '{"id":"q1","vector":{"cat":12,"##s":3.0}}\n'}, 0,
     "queries 1\nfactor 1 left out 0 greatest change 0\n", "", ("q", "q1 cat^12 ##s^3\n")),
    ("vectors_ciff.py queries v q 10", {"v": '{"id":"q1","vector":{"cat":20,"dog":10}}\n'}, 0,
     "queries 1\nfactor 0.5 left out 0 greatest change 0\n", "", ("q", "q1 cat^10 dog^5\n")),
    ("vectors_ciff.py queries v q", {"v": '{"id":"q1","vector":{"a^b":1}}\n'}, 2, "",
     "v: line 1: no plain query names the term 'a^b'\n", None),
    ("vectors_ciff.py queries v q 256", {"v": ""}, 2, "", "GREATEST: 256 is no number from 1 to 255\n", None),
    ("vectors_ciff.py documents v c", {"v": '{"id":"d","vector":{"cat":-1}}\n'}, 2, "",
     "v: line 1: the weight of 'cat' is no number from 0 on\n", None),
    ("make_ciff.py --help", {}, 0, None, "", None),
]


def called(words, folder):
    """What a script did with words."""
    script, *behind = words.split(" ")
    return subprocess.run([sys.executable, "-B", os.path.join(EXAMPLES, script), *behind], cwd=folder,
                          stdout=subprocess.PIPE, stderr=subprocess.PIPE, encoding="utf-8", check=False)


def check(case):
    """Nothing, or what is wrong with a case."""
    words, files, status, out, note, written = case
    with tempfile.TemporaryDirectory() as folder:
        for name, content in files.items():
            with open(os.path.join(folder, name), "w", encoding="utf-8", newline="") as file:
                file.write(content)
        did = called(words, folder)
        if did.returncode != status:
            return f"status {did.returncode}: {did.stderr}"
        if out is not None and did.stdout != out:
            return f"printed {did.stdout!r}"
        if not did.stderr.endswith(note) or not note and did.stderr:
            return f"noted {did.stderr!r}"
        if written:
            with open(os.path.join(folder, written[0]), encoding="utf-8", newline="") as file:
                content = file.read()
            if content != written[1]:
                return f"wrote {content!r}"
    return None


def random_text(draw):
    """A text of characters from all of Unicode, and of plain ones."""
    planes = ((32, 127), (160, 0x600), (0x600, 0x3000), (0x3000, 0xD800), (0xE000, 0x10000), (0x10000, 0x20000))
    characters = []
    for _ in range(draw.randrange(1, 200)):
        first, last = draw.choice(planes)
        character = chr(draw.randrange(first, last))
        if character.splitlines() == [character]:  # no end of a line
            characters.append(character)
    return "".join(characters).replace("\t", " ")


def unknown_words(jass, draw, count):
    """How many texts have a word that their own query doesn't find; and how many texts there were."""
    texts = [text for text in (random_text(draw) for _ in range(count)) if text.strip()]
    with tempfile.TemporaryDirectory() as folder:
        for name in ("t.tsv", "q"):
            with open(os.path.join(folder, name), "w", encoding="utf-8", newline="\n") as file:
                for number, text in enumerate(texts):
                    # A query of a text has its words without their digits in a row, which would be factors behind ^.
                    between, text = ("\t", text) if name == "t.tsv" else (" ", text.replace("^", " "))
                    file.write(f"d{number}{between}{text}\n")
        made = called("text_ciff.py t.tsv c", folder)
        if made.returncode:
            raise SystemExit(made.stderr)
        subprocess.run([jass, "import", "c", "i"], cwd=folder, stdout=subprocess.DEVNULL, check=True)
        told = subprocess.run([jass, "search", "i", "q", "r", "mode=folded", "k=1"], cwd=folder,
                              stdout=subprocess.PIPE, encoding="utf-8", check=True)
        lines = told.stdout.splitlines()
        return sum(" unknown 0 " not in line for line in lines), len(lines)


def main(words):
    bad = 0
    for case in CASES:
        wrong = check(case)
        if wrong:
            bad += 1
            print(f"{case[0]}: {wrong}")
    count = len(CASES)
    if words:
        unknown, texts = unknown_words(os.path.abspath(words[0]), random.Random(1), 200)
        bad += unknown
        count += texts
        if unknown:
            print(f"{unknown} texts have a word that their query doesn't find")
    print(f"{count} cases, {bad} wrong")
    return 1 if bad else 0


if __name__ == "__main__":
    sys.exit(main(sys.argv[1:]))
