#!/usr/bin/env python3
"""Whether docs/DEFINITIONS.md names each file of specs/ with a word that the contract of `run` reaches.

usage: trials/definitions.py [--parts]

It reads the clauses of `run` in crates/jass_top/src/program.rt, and follows each word through the files of specs/
that define and import it. It prints the words that the document doesn't name and whose file it doesn't name either,
and ends with 1 where there are some. With --parts it prints the words that it doesn't name, file by file: each is a
part of the definition of one that it names.
"""
import os
import re
import sys

ROOT = os.path.dirname(os.path.dirname(os.path.abspath(__file__)))
DOCUMENT = f"{ROOT}/docs/DEFINITIONS.md"
TOP = f"{ROOT}/crates/jass_top/src/program.rt"


class Module:
    """One file of specs/: the words that it defines, with their texts, and those that it imports."""

    def __init__(self, text):
        self.words, self.owner, self.imported, self.renamed = {}, {}, {}, {}
        for said in re.findall(r"(?m)^(?:pub )?use\s+([^\n]*(?:\n[ \t][^\n]*)*)", text):
            self.take_import(said)
        self.take_words(re.sub(r"--[^\n]*", "", text))

    def take_import(self, said):
        listed = re.match(r"Rattle\.(\w+)\.specs\.([\w.]+)\.\{([^}]*)\}", said)
        if listed:
            for word in listed[3].split(","):
                there, _, here = word.strip().partition(" as ")
                self.imported[here or there] = (listed[1], listed[2], there)
            return
        whole = re.match(r"Rattle\.(\w+)\.specs\.([\w.]+)\s+as\s+(\w+)", said)
        if whole:
            self.renamed[whole[3]] = (whole[1], whole[2])

    def take_words(self, text):
        word = None
        for line in text.split("\n"):
            if line and not line[0].isspace():
                head = re.match(r"(?:(?:abbrev|unfoldable|opaque|pub|data|record)\s+)*([^\s:({]+)", line)
                is_word = not line.startswith(("use ", "pub use ", "module", "infix", "mod ", "pub mod "))
                word = head[1] if head and is_word else None
            if word is None:
                continue
            self.words[word] = self.words.get(word, "") + line + "\n"
            case = re.match(r"\s+(\w+) : ", line)
            if case and "data " in self.words[word].split("\n")[0]:
                self.owner[case[1]] = word

    def leads_to(self, word, crate, place):
        """Yields what a word's text names: crate, file and word."""
        text = self.words[word]
        for module, name in re.findall(r"\b(\w+)\.(\w+)", text):
            if module in self.renamed:
                yield (*self.renamed[module], name)
        for name in set(re.findall(r"[A-Za-z_][\w-]*", text)):
            if name in self.imported:
                yield self.imported[name]
            elif name in self.words:
                yield crate, place, name


def modules():
    """Gives each file of specs/ by its crate and its place there."""
    found = {}
    for crate in sorted(os.listdir(f"{ROOT}/crates")):
        top = f"{ROOT}/crates/{crate}/specs"
        for at, _, names in os.walk(top):
            for name in names:
                if name.endswith(".antt") and name != "Lib.antt":
                    place = os.path.relpath(f"{at}/{name}", top)[:-5].replace("/", ".")
                    with open(f"{at}/{name}", encoding="utf-8") as file:
                        found[crate, place] = Module(file.read())
    return found


def begins():
    """Gives the words that the clauses of `run` name."""
    with open(TOP, encoding="utf-8") as file:
        text = file.read()
    clauses = text[text.index("pub fn run") :]
    clauses = clauses[: clauses.index("\n{")]
    for crate, place, words in re.findall(r"ghost use Rattle\.(\w+)\.specs\.([\w.]+)\.\{([^}]*)\}", text):
        for word in re.split(r",\s*", words.strip()):
            if re.search(rf"\b{re.escape(word)}\b", clauses):
                yield crate, place, word


def reached(found):
    seen, todo = set(), [*begins()]
    while todo:
        crate, place, word = todo.pop()
        module = found.get((crate, place))
        if module is None:
            continue
        word = module.owner.get(word, word)
        if word in module.words and (crate, place, word) not in seen:
            seen.add((crate, place, word))
            todo += module.leads_to(word, crate, place)
    return sorted(seen)


def main(words):
    with open(DOCUMENT, encoding="utf-8") as file:
        text = file.read()
    named = {name.rstrip("`") for name in re.findall(r"`([^`\s]+)", text)}
    named |= {part for name in named for part in name.split("/")}
    left = [it for it in reached(modules()) if it[2].rstrip("`") not in named]
    if words == ["--parts"]:
        rows = {}
        for crate, place, word in left:
            rows.setdefault(f"{crate}/specs/{place}", []).append(f"`{word}`")
        for place, parts in rows.items():
            print(f"| `{place}` | {', '.join(parts)} |")
        return 0
    left = [it for it in left if it[0] not in named or it[1] not in named]
    for crate, place, word in left:
        print(f"{crate}/specs/{place}: {word}")
    print(f"{len(left)} words stand in a file that is not named")
    return 1 if left else 0


if __name__ == "__main__":
    sys.exit(main(sys.argv[1:]))
