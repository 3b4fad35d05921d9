#!/usr/bin/python3
"""Runs the commands that stand in documents, and compares what they print.

usage: console.py PROGRAM [write] DOCUMENT..

A command is a line behind `$ ` in a block ```console, and what follows it there is what it must print, on both
outputs. All run in one new folder with copies of the files of examples/, in order, with PROGRAM as `jass` on the
PATH. A file that `cat` shows and that isn't there is made of what is shown. With `write` the documents get what was
printed. Sizes, times and packages differ between machines, and so does what the commands print.
"""
import os
import re
import shutil
import struct
import subprocess
import sys
import tempfile

HERE = os.path.dirname(os.path.abspath(__file__))


def version_1():
    """The index of the example of docs/FORMATS.md in version 1, which no command writes."""
    names = [b"d0", b"d1", b"d2"]
    body = struct.pack("<IIQII", 3, 1, 3, 9, 0)
    body += struct.pack("<4I", 0, 2, 4, 6) + b"".join(names)
    body += struct.pack("<H", 1) + b"a" + struct.pack("<I", 3)
    body += b"".join(struct.pack("<HIBI", impact, 1, 0, 1) for impact in (9, 5, 1))
    body += bytes((0, 1, 2))
    return b"JASSIDX1" + struct.pack("<Q", len(body) + 16) + body


def parts_of(lines):
    """The commands of a block with the lines behind each."""
    parts = []
    for line in lines:
        if line.startswith("$ "):
            parts.append((line[2:], []))
        elif parts:
            parts[-1][1].append(line)
    return parts


def printed(command, wanted, folder, path):
    """What a command prints, as lines."""
    shown = re.fullmatch("cat ([A-Za-z0-9._]+)", command)
    if shown and not os.path.exists(os.path.join(folder, shown[1])):
        with open(os.path.join(folder, shown[1]), "w", encoding="utf-8") as out:
            out.writelines(line + "\n" for line in wanted)
    run = subprocess.run(["bash", "-c", command], cwd=folder, env=dict(os.environ, PATH=path), encoding="utf-8",
                         stdin=subprocess.DEVNULL, stdout=subprocess.PIPE, stderr=subprocess.STDOUT)
    return run.stdout.removesuffix("\n").split("\n") if run.stdout else []


def run_document(document, folder, path, write):
    """How many commands ran, and how many printed something else."""
    with open(document, encoding="utf-8") as text:
        lines = text.read().split("\n")
    out, ran, differ = [], 0, 0
    at = 0
    while at < len(lines):
        out.append(lines[at])
        at += 1
        if out[-1] != "```console":
            continue
        end = lines.index("```", at)
        for command, wanted in parts_of(lines[at:end]):
            got = printed(command, wanted, folder, path)
            ran += 1
            if got != wanted:
                differ += 1
                print(f"{document}: $ {command}", *(f"- {line}" for line in wanted), *(f"+ {line}" for line in got),
                      sep="\n")
            out += ["$ " + command] + (got if write else wanted)
        at = end
    if write:
        with open(document, "w", encoding="utf-8") as text:
            text.write("\n".join(out))
    return ran, differ


def main(words):
    write = words[1:2] == ["write"]
    documents = words[2:] if write else words[1:]
    if not documents:
        print("usage: console.py PROGRAM [write] DOCUMENT..", file=sys.stderr)
        return 2
    with tempfile.TemporaryDirectory() as folder, tempfile.TemporaryDirectory() as bin_folder:
        shutil.copytree(os.path.join(HERE, "..", "examples"), folder, dirs_exist_ok=True)
        with open(os.path.join(folder, "old.idx"), "wb") as old:
            old.write(version_1())
        os.symlink(os.path.abspath(words[0]), os.path.join(bin_folder, "jass"))
        counts = [run_document(document, folder, f"{bin_folder}:{os.environ['PATH']}", write) for document in documents]
    ran, differ = map(sum, zip(*counts))
    print(f"{ran} commands, {differ} printed something else")
    return 1 if differ else 0


if __name__ == "__main__":
    sys.exit(main(sys.argv[1:]))
