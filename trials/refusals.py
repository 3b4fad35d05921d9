#!/usr/bin/python3
"""Runs each command of the built program with one call refused at a time, and looks at what is left.

usage: refusals.py PROGRAM

For each command on a small input, and each kind of call (refuse.c): the first call is refused, then the second, and
so on until a run has no such call. Of each run it is asked that it ends by itself, with a status that the kind allows;
with 0 that the output and the files are those of a run without refusal; else that one note stands on standard error,
that the output is a prefix of that run's, with nothing at 1 and 4 but by `search`, `shards`, `exhaust` and `serve`, and
that files are as at entry, but that a part that stood there may be gone. Where a call on a file is refused, one run may
leave the new file at 5: the one that could not have the folder written to the disk behind the renaming. A run that ends with 1 is made
once more with notes that can't be put, and has to end the same. Needs a C compiler.
"""
import os
import shutil
import subprocess
import sys
import tempfile

from console import version_1

HERE = os.path.dirname(os.path.abspath(__file__))
# The statuses beside 0 that a refused call of each kind may have.
# Where the host's edge is refused memory, that call on a file fails.
KINDS = {"alloc": {1, 4, 5}, "io": {4, 5}, "file": {4, 5}, "short": set()}
DIALOGUE = b"open a 3 a\ngrant a 1\nbad\nopen a 1 a\nopen b 2 a^3 x\ngrant b all\ntop b\nwhy a\nclose a\ntop a\nend\n"
QUERIES = b"q1 a\nq2 a^2 b\n\nq3 b\n"

# The words, the file that is written, and the input.
COMMANDS = [
    ("once b.ciff 3 2 a", None, b""),
    ("rewrite b.ciff new", "new", b""),
    ("import b.ciff new weights=bm25 bits=8", "new", b""),
    ("check b.idx", None, b""),
    ("export b.idx new", "new", b""),
    ("migrate old.idx new", "new", b""),
    ("search b.idx q.txt new k=2 budget=1,1,all", "new", b""),
    ("search b.idx q.txt new mode=folded", "new", b""),
    ("shards 2 b.idx c.idx q.txt new k=2 budget=1,1,all", "new", b""),
    ("exhaust b.idx q.txt new k=2", "new", b""),
    ("serve b.idx frames=20", None, DIALOGUE),
    ("trial 7 40 12 3", None, b""),
    ("--help", None, b""),
    ("--version", None, b""),
]


class Trial:
    def __init__(self, program, shim, folder):
        self.program = program
        self.shim = shim
        self.folder = folder

    def files(self):
        found = {}
        for name in sorted(os.listdir(self.folder)):
            with open(os.path.join(self.folder, name), "rb") as file:
                found[name] = file.read()
        return found

    def lay(self, files):
        for name in os.listdir(self.folder):
            os.unlink(os.path.join(self.folder, name))
        for name, content in files.items():
            with open(os.path.join(self.folder, name), "wb") as file:
                file.write(content)

    def run(self, words, given, refuse=None, notes=subprocess.PIPE):
        """The status, the output, the notes, the files behind it, and how many calls of the kind there were."""
        env = {"LD_PRELOAD": self.shim, "REFUSE": refuse} if refuse else {}
        reading, writing = os.pipe()
        command = [self.program, *words.split(" ")]
        if refuse:
            command = ["/bin/sh", "-c", f'exec 9>&{writing}; exec env "$@"', "sh",
                       *(f"{key}={value}" for key, value in env.items()), *command]
        run = subprocess.run(command, cwd=self.folder, input=given, env={}, pass_fds=(writing,), timeout=60,
                             stdout=subprocess.PIPE, stderr=notes)
        os.close(writing)
        with os.fdopen(reading, "rb") as pipe:
            told = pipe.read()
        return run.returncode, run.stdout, run.stderr, self.files(), int(told) if told.strip().isdigit() else None


def fault_of(kind, words, target, entry, whole, got):
    """What is wrong with a run, if anything."""
    status, output, notes, files, _ = got
    if status != 0 and status not in KINDS[kind]:
        return f"ended with {status}"
    if status == 0:
        return None if (output, notes, files) == whole else "another outcome with status 0"
    if notes.count(b"\n") != 1:
        return f"its notes are {notes!r}"
    if not whole[0].startswith(output):
        return "its output is no prefix"
    if status in (1, 4) and output and not words.startswith(("search", "shards", "exhaust", "serve")):
        return f"ended with {status} and printed something"
    for name in files.keys() | entry.keys():
        before, after = entry.get(name), files.get(name)
        if after == before or (name == f"{target}.part" and after is None):
            continue
        if name == target and kind == "file" and after == whole[2][target]:
            continue
        return f"left {name} other than it was"
    return None


def entries_of(inputs, target):
    """The files at entry: without the one that is written, with an old one, and with a part that was left behind."""
    if not target:
        return [inputs]
    old = dict(inputs, **{target: b"old content\n" * 400})
    return [inputs, old, dict(old, **{f"{target}.part": b"left behind by a crash"})]


def try_command(trial, words, target, given, inputs):
    """How many runs there were, and how many of them were faulty, by kind."""
    counts = {}
    for kind in KINDS:
        runs = faults = 0
        for entry in entries_of(inputs, target):
            trial.lay(entry)
            status, output, notes, files, _ = trial.run(words, given)
            if status:
                raise SystemExit(f"{words}: ended with {status} where nothing was refused")
            whole = (output, notes, files)
            number = placed = 0
            while True:
                number += 1
                trial.lay(entry)
                got = trial.run(words, given, f"{kind} {number}")
                if got[4] is not None and got[4] < number:
                    break
                runs += 1
                if got[4] is None:
                    raise SystemExit(f"{words}: {kind} {number}: was killed, and ended with {got[0]}")
                fault = fault_of(kind, words, target, entry, whole, got)
                placed += bool(got[0] and target and got[3].get(target) == files[target])
                if not fault and placed > 1:
                    fault = "a second run that failed and left the new file"
                if not fault and kind == "alloc" and got[0]:
                    trial.lay(entry)
                    with open("/dev/full", "wb") as full:
                        muted = trial.run(words, given, f"{kind} {number}", full)
                    fault = None if (muted[:2], muted[3]) == (got[:2], got[3]) else "another end where no note can be put"
                if fault:
                    faults += 1
                    print(f"{words}: {kind} {number}: {fault}")
        counts[kind] = (runs, faults)
    return counts


def main(words):
    if len(words) != 1:
        print("usage: refusals.py PROGRAM", file=sys.stderr)
        return 2
    program = os.path.abspath(words[0])
    faults = 0
    with tempfile.TemporaryDirectory() as top:
        shim = os.path.join(top, "refuse.so")
        subprocess.run(["cc", "-O1", "-shared", "-fPIC", "-o", shim, os.path.join(HERE, "refuse.c"), "-ldl"], check=True)
        folder = os.path.join(top, "files")
        os.mkdir(folder)
        shutil.copy(os.path.join(HERE, "..", "crates", "jass", "data", "b.ciff"), folder)
        subprocess.run([program, "import", "b.ciff", "b.idx"], cwd=folder, check=True, stdout=subprocess.DEVNULL)
        shutil.copy(os.path.join(folder, "b.idx"), os.path.join(folder, "c.idx"))
        for name, content in (("old.idx", version_1()), ("q.txt", QUERIES)):
            with open(os.path.join(folder, name), "wb") as file:
                file.write(content)
        trial = Trial(program, shim, folder)
        inputs = trial.files()
        print("runs with a refused allocation, a failed call, a failed call on a file, a short call:")
        for words, target, given in COMMANDS:
            counts = try_command(trial, words, target, given, inputs)
            faults += sum(count for _, count in counts.values())
            print(*(count for count, _ in counts.values()), words)
    print(f"{faults} faults")
    return 1 if faults else 0


if __name__ == "__main__":
    sys.exit(main(sys.argv[1:]))
