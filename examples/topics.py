#!/usr/bin/python3
"""Makes a query file of the topics of an evaluation.

usage: topics.py TOPICS QUERIES [title|description|both]

TOPICS is one of: TREC topics, with `<num>` and `<title>`, also `<desc>`, on one line or on many; XML topics, with
`number` as an attribute or a tag; `NUMBER TAB text` a line, as MS MARCO's; JSON lines with `_id` or `id` and `text` or
`title`. A byte order mark is passed over. QUERIES gets a line `NUMBER text` for each, with the words of the title
unless said, as folded queries have them: search with mode=folded. Only letters and digits of the text are left, so
nothing of a topic is read as a factor.
"""
import html
import json
import re
import sys

from common import Bad, check_name, run_script
from words import words_of

PARTS = ("title", "description", "both")
TOPIC = re.compile(r"<top(?:ic)?\b([^>]*)>(.*?)</top(?:ic)?>", re.S | re.I)
TAG = re.compile(r"<(/?)([A-Za-z]+)\b[^>]*>")
LABEL = re.compile(r"^\s*(?:Number|Topic|Description|Narrative)\s*:", re.I)
NUMBER = re.compile(r"""\bnumber\s*=\s*["']?([^"'\s>]+)""", re.I)
LONGEST_LINE = 1_048_576


def tagged(text):
    """The text behind each tag up to the next one, by the tag's name; the first of a name counts."""
    fields = {}
    tags = list(TAG.finditer(text))
    for place, tag in enumerate(tags):
        if not tag[1]:
            end = tags[place + 1].start() if place + 1 < len(tags) else len(text)
            field = LABEL.sub("", html.unescape(text[tag.end():end]))
            fields.setdefault(tag[2].lower(), " ".join(field.split()))
    return fields


def of_tags(text, path):
    """The number, title and description of each topic."""
    for place, topic in enumerate(TOPIC.finditer(text), 1):
        fields = tagged(topic[2])
        named = NUMBER.search(topic[1])
        number = named[1] if named else fields.get("num", fields.get("number", ""))
        if not number:
            raise Bad(f"{path}: topic {place} has no number")
        yield number, fields.get("title", fields.get("query", "")), fields.get("desc", fields.get("description", ""))


def of_json(text, path):
    for place, line in enumerate(text.splitlines(), 1):
        if line.strip():
            try:
                topic = json.loads(line)
                number = topic.get("_id", topic.get("id", topic.get("qid")))
                title = topic.get("text", topic.get("title", topic.get("query")))
            except (ValueError, AttributeError):
                raise Bad(f"{path}: line {place} is no JSON object") from None
            if number is None or not isinstance(title, str):
                raise Bad(f"{path}: line {place} has no number or no text")
            yield str(number), title, ""


def of_columns(text, path):
    for place, line in enumerate(text.splitlines(), 1):
        if line.strip():
            number, tab, title = line.partition("\t")
            if not tab:
                raise Bad(f"{path}: line {place} has no tab behind a number")
            yield number, title, ""


def topics(text, path):
    """The topics, by what the text begins with."""
    start = text.lstrip()
    if start.startswith("<"):
        return of_tags(text, path)
    return of_json(text, path) if start.startswith("{") else of_columns(text, path)


def make(words):
    if not 2 <= len(words) <= 3 or len(words) == 3 and words[2] not in PARTS:
        return False
    part = words[2] if len(words) == 3 else "title"
    with open(words[0], encoding="utf-8-sig") as file:
        text = file.read()
    lines = []
    seen = set()
    for number, title, description in topics(text, words[0]):
        check_name(number, f"{words[0]}: a topic")
        if number in seen:
            raise Bad(f"{words[0]}: there is another topic {number}")
        seen.add(number)
        wanted = {"title": title, "description": description, "both": title + " " + description}[part]
        line = " ".join([number] + words_of(wanted))
        if len(line.encode()) > LONGEST_LINE:
            raise Bad(f"{words[0]}: topic {number} is longer than a query may be")
        lines.append(line)
    if not lines:
        raise Bad(f"{words[0]}: has no topic")
    with open(words[1], "w", encoding="utf-8", newline="\n") as out:
        out.writelines(line + "\n" for line in lines)
    print("queries", len(lines), "without a word", sum(" " not in line for line in lines))
    return True


if __name__ == "__main__":
    sys.exit(run_script("topics.py", __doc__, make, sys.argv[1:]))
