#!/usr/bin/python3
"""Kills, full disks, closed descriptors and slips of the built program: what stands in the files behind them.

usage: losses.py PROGRAM [MOMENTS]

Each command that writes a file is killed at so many moments of its run (100 unless said), is run where the disk or
the length of a file has a limit, where standard streams are closed, and on names that lead to what it reads. Each time
the file that it writes has to be whole, the old one or the new one; nothing else may have changed; and nothing may be
left but the new file's part, by a kill. The last rows have a reader beside a writer. A row for each kind and command
counts runs; what is wrong is said above it. The status is 1 where something is. Limits of the disk need the right to
mount.
"""
import os
import random
import resource
import shutil
import signal
import struct
import subprocess
import sys
import tempfile
import threading
import time

from console import version_1
from hostile import message, number, text, varint

HERE = os.path.dirname(os.path.abspath(__file__))
OLD = b"old content\n" * 400
DIALOGUE = b"open a 3 a\ngrant a 1\ntop a\nclose a\nend\n"

# The words of each command that writes, on small inputs. The last word that is no option is the file.
WRITING = ["import b.ciff new", "search b.idx q.txt new k=2 budget=1,all", "rewrite b.ciff new", "export b.idx new",
           "migrate old.idx new", "shards 2 b.idx c.idx q.txt new k=2 budget=1,all"]
OTHERS = ["once b.ciff 3 2 a", "check b.idx", "serve b.idx frames=20", "trial 7 40 12 3", "--help", "--version",
          "import missing new", "import cut.ciff new", "bad"]
SILENT = ("rewrite", "export")


def ciff(docs, terms, seed):
    """A collection with a posting for each third of the pairs."""
    draw = random.Random(seed)
    lengths = [0] * docs
    lists = []
    for term in range(terms):
        last, gaps, total = 0, [], 0
        for place in draw.sample(range(docs), docs // 3):
            gaps.append(place)
        gaps.sort()
        body = []
        for place in gaps:
            frequency = draw.randint(1, 9)
            body.append(text(4, (number(1, place - last) if place > last else b"") + number(2, frequency)))
            last, total = place, total + frequency
            lengths[place] += frequency
        lists.append(message(text(1, b"t%d" % term) + number(2, len(gaps)) + number(3, total) + b"".join(body)))
    header = number(1, 1) + number(2, terms) + number(3, docs) + number(4, terms) + number(5, docs)
    header += number(6, sum(lengths)) + b"\x39" + struct.pack("<d", sum(lengths) / docs)
    records = [message((number(1, place) if place else b"") + text(2, b"d%d" % place)
                       + (number(3, length) if length else b"")) for place, length in enumerate(lengths)]
    return message(header) + b"".join(lists) + b"".join(records)


def old_index(docs):
    """An index of version 1 with one term, whose documents have falling impacts."""
    names = [b"d%d" % place for place in range(docs)]
    at, places = 0, [0]
    for name in names:
        at += len(name)
        places.append(at)
    payloads = [varint(place) for place in range(docs)]
    body = struct.pack("<IIQII", docs, 1, docs, docs, 0) + struct.pack(f"<{docs + 1}I", *places) + b"".join(names)
    body += struct.pack("<H", 1) + b"a" + struct.pack("<I", docs)
    body += b"".join(struct.pack("<HIBI", docs - place, 1, 0, len(payload)) for place, payload in enumerate(payloads))
    body += b"".join(payloads)
    return b"JASSIDX1" + struct.pack("<Q", len(body) + 16) + body


class Folder:
    """A folder with the files of a run, and what they hold at entry."""

    def __init__(self, program, path, files):
        self.program = program
        self.path = path
        self.entry = files
        self.lay()

    def lay(self):
        for name in os.listdir(self.path):
            os.unlink(os.path.join(self.path, name))
        for name, content in self.entry.items():
            with open(os.path.join(self.path, name), "wb") as out:
                out.write(content)

    def files(self):
        found = {}
        for name in sorted(os.listdir(self.path)):
            with open(os.path.join(self.path, name), "rb") as file:
                found[name] = file.read()
        return found

    def start(self, words, **more):
        given = dict(stdin=subprocess.DEVNULL, stdout=subprocess.PIPE, stderr=subprocess.PIPE)
        return subprocess.Popen([self.program, *words.split(" ")], cwd=self.path, **{**given, **more})

    def run(self, words, given=None, **more):
        """The status, the output and the notes."""
        if given is not None:
            more["stdin"] = subprocess.PIPE
        with self.start(words, **more) as process:
            out, notes = process.communicate(given, timeout=120)
        return process.returncode, out or b"", notes or b""

    def whole(self, words, given=None):
        """A run with nothing in its way: its output, and its file if it writes one."""
        self.lay()
        status, out, notes = self.run(words, given)
        files = self.files()
        self.lay()
        return status, out, notes, files


def target_of(words):
    return [word for word in words.split(" ") if "=" not in word][-1]


def changed(folder, target, whole, parts):
    """What is wrong with the files behind a run, if anything; `parts` says whether a part may be left."""
    files = folder.files()
    part = files.pop(target + ".part", None)
    if part is not None and (not parts or not whole.startswith(part)):
        return "left a part"
    content = files.get(target)
    if content not in (folder.entry.get(target), whole):
        return f"left {target} with {len(content or b'')} bytes, neither old nor new"
    others = {name: content for name, content in folder.entry.items() if name != target}
    return None if {name: content for name, content in files.items() if name != target} == others else "another file"


class Count:
    """The runs of a kind, by what stood behind them, and what was wrong."""

    def __init__(self):
        self.wrong = 0

    def row(self, kind, words, faults, **counts):
        for fault in faults[:5]:
            print(f"{kind}: {words}: {fault}")
        self.wrong += len(faults)
        print(f"{kind}: {words}:", ", ".join(f"{value} {name.replace('_', ' ')}" for name, value in counts.items()),
              f"- {len(faults)} wrong", flush=True)


def try_kills(count, folder, words, moments):
    target = target_of(words)
    status, _, _, files = folder.whole(words)
    if status:
        sys.exit(f"{words}: ended with {status}")
    whole = files[target]
    begin = time.perf_counter()
    for _ in range(3):
        folder.run(words)
    long = (time.perf_counter() - begin) / 3
    faults, old, new, parts = [], 0, 0, 0
    for moment in range(moments):
        folder.lay()
        process = folder.start(words, stdout=subprocess.DEVNULL, stderr=subprocess.DEVNULL)
        time.sleep(long * (moment + 1) / moments)
        process.kill()
        process.wait()
        fault = changed(folder, target, whole, True)
        left = folder.files()
        old += left.get(target) == OLD
        new += left.get(target) == whole
        parts += target + ".part" in left
        again = folder.run(words)
        if not fault and (again[0] or folder.files() != files):
            fault = f"the next run ended with {again[0]}, or left something else"
        if fault:
            faults.append(f"moment {moment}: {fault}")
    count.row("killed", words, faults, runs=moments, old=old, new=new, parts=parts,
              milliseconds=round(long * 1000))


def try_limits(count, folder, words, mount):
    """A disk that is too small, and a limit on the length of a file."""
    target = target_of(words)
    _, _, _, files = folder.whole(words)
    whole = files[target]
    if mount:
        faults, full = [], 0
        disk = os.path.join(folder.path, "disk")
        inside = words.replace(target, f"disk/{target}")
        for step in range(6):
            size = 16384 + len(whole) * step // 5 // 4096 * 4096
            os.mkdir(disk)
            subprocess.run(["mount", "-t", "tmpfs", "-o", f"size={size}", "tmpfs", disk], check=True)
            with open(os.path.join(disk, target), "wb") as out:
                out.write(OLD)
            status, _, notes = folder.run(inside)
            left = {name: open(os.path.join(disk, name), "rb").read() for name in os.listdir(disk)}
            subprocess.run(["umount", disk], check=True)
            os.rmdir(disk)
            full += status == 5
            wanted = {target: whole if status == 0 else OLD}
            noted = f"disk/{target}: write fault\n".encode() if status else b""
            if status not in (0, 5) or left != wanted or notes != noted:
                faults.append(f"a disk of {size} bytes: ended with {status}, {notes!r}, left {sorted(left)}")
        count.row("full disk", words, faults, runs=6, full=full)
    faults, limited = [], 0
    for ignored in (True, False):
        for step in range(5):
            most = len(whole) * step // 5

            def limit():
                resource.setrlimit(resource.RLIMIT_FSIZE, (most, most))
                signal.signal(signal.SIGXFSZ, signal.SIG_IGN if ignored else signal.SIG_DFL)

            folder.lay()
            status, _, notes = folder.run(words, preexec_fn=limit)
            fault = changed(folder, target, OLD, False) if ignored else changed(folder, target, whole, True)
            if folder.files()[target] != OLD:
                fault = "the old file is gone"
            wanted = (5, f"{target}: write fault\n".encode()) if ignored else (-signal.SIGXFSZ, b"")
            limited += (status, notes) == wanted
            if fault or (status, notes) != wanted:
                faults.append(f"at most {most} bytes: ended with {status}, {notes!r}: {fault}")
    folder.lay()
    count.row("limited length", words, faults, runs=10, limited=limited)


def closing(numbers):
    def close():
        for number in numbers:
            os.close(number)
    return close


def wanted_status(words, numbers, status):
    """The status where descriptors are closed, of a command that ends with `status` where none is."""
    if status or words.startswith(SILENT):
        return status
    if words.startswith("serve") and 0 in numbers:
        return 4
    return 5 if 1 in numbers else 0


def try_closed(count, folder, words):
    given = DIALOGUE if words.startswith("serve") else None
    target = target_of(words) if words.endswith("new") or " new " in words else "new"
    status, out, notes, files = folder.whole(words, given)
    faults, runs = [], 0
    for numbers in ((0,), (1,), (2,), (0, 1), (0, 2), (1, 2), (0, 1, 2)):
        for full in (False, True):
            if full and 1 in numbers:
                continue
            folder.lay()
            wanted = wanted_status(words, (1, *numbers) if full else numbers, status)
            with open("/dev/full", "wb") as sink:
                more = dict(stdout=sink) if full else {}
                try:
                    got = folder.run(words, given, preexec_fn=closing(numbers), **more)
                except BrokenPipeError:
                    got = (None, b"", b"")
            runs += 1
            left = folder.files()
            fault = None
            if got[0] != wanted:
                fault = f"ended with {got[0]}, not {wanted}"
            elif left != (files if wanted == 0 else folder.entry):
                fault = "left other files"
            elif 1 not in numbers and not full and got[1] != (out if wanted == status else b""):
                fault = f"printed {got[1]!r}"
            elif 2 not in numbers and wanted == status and got[2] != notes:
                fault = f"noted {got[2]!r}"
            elif 2 not in numbers and wanted == 4 != status and got[2] != b"input: read fault\n":
                fault = f"noted {got[2]!r}"
            elif 2 not in numbers and wanted == 5 and got[2] != b"output: write fault\n":
                fault = f"noted {got[2]!r}"
            if fault:
                faults.append(f"without {numbers}{' on a full output' if full else ''}: {fault}")
    folder.lay()
    count.row("closed", words, faults, runs=runs)


# How a name leads to a file that a command reads.
ALIASES = ["./", "the whole path", "a link", "a link of a link", "a hard link", "its part", "a link at its part"]


def make_alias(folder, name, kind):
    """A name for the output that leads to an input, and the name that the input has then."""
    def path(other):
        return os.path.join(folder.path, other)
    if kind == "./":
        return f"./{name}", name
    if kind == "the whole path":
        return path(name), name
    if kind == "its part":
        os.rename(path(name), path("put.part"))
        return "put", "put.part"
    if kind == "a link at its part":
        os.symlink(name, path("put.part"))
        return "put", name
    if kind == "a hard link":
        os.link(path(name), path("link"))
        return "link", name
    os.symlink(name, path("link"))
    if kind == "a link":
        return "link", name
    os.symlink("link", path("links"))
    return "links", name


def try_aliases(count, folder, words):
    """The name of the output leads to an input, or to the file of standard output."""
    target = target_of(words)
    faults, runs = [], 0
    parts = words.split(" ")
    for place in [place for place, word in enumerate(parts) if word in folder.entry and word != target]:
        for kind in ALIASES:
            folder.lay()
            alias, given = make_alias(folder, parts[place], kind)
            asked = [alias if word == target else word for word in parts]
            asked[place] = given
            before = looks(folder)
            got = folder.run(" ".join(asked))
            runs += 1
            if got != (5, b"", f"{alias}: write fault\n".encode()) or looks(folder) != before:
                faults.append(f"{kind} of {parts[place]}: ended with {got}")
    for alias in (target, f"./{target}", "link", "/dev/stdout"):
        folder.lay()
        os.symlink(target, os.path.join(folder.path, "link"))
        before = looks(folder)
        with open(os.path.join(folder.path, target), "ab") as out:
            status, _, notes = folder.run(" ".join(alias if word == target else word for word in parts), stdout=out)
        runs += 1
        if (status, notes) != (5, f"{alias}: write fault\n".encode()) or looks(folder) != before:
            faults.append(f"{alias} is the output: ended with {status}, {notes!r}")
    folder.lay()
    count.row("led to what is read or printed", words, faults, runs=runs)


def looks(folder):
    """What stands in a folder: names, contents, and which file or link each is."""
    found = []
    for name in sorted(os.listdir(folder.path)):
        path = os.path.join(folder.path, name)
        with open(path, "rb") as file:
            seen = os.lstat(path)
            found.append((name, seen.st_ino, seen.st_mode, seen.st_nlink, file.read()))
    return found


def try_reader(count, folder, words, seconds):
    """A check of an index again and again while it is made anew."""
    folder.lay()
    made, faults, checks = 0, [], 0
    folder.run(words)
    ended = threading.Event()

    def write():
        nonlocal made
        while not ended.is_set():
            status, _, notes = folder.run(words if made % 2 else words + " weights=bm25")
            if status:
                faults.append(f"the writer ended with {status}, {notes!r}")
            made += 1

    writer = threading.Thread(target=write)
    writer.start()
    end = time.monotonic() + seconds
    while time.monotonic() < end:
        status, _, notes = folder.run("check new")
        checks += 1
        if status:
            faults.append(f"a check ended with {status}, {notes!r}")
    ended.set()
    writer.join()
    folder.lay()
    count.row("read while it is made", words, faults, files=made, checks=checks)


def can_mount(folder):
    place = os.path.join(folder, "mounted")
    os.mkdir(place)
    said = subprocess.run(["mount", "-t", "tmpfs", "tmpfs", place], capture_output=True, check=False)
    if said.returncode == 0:
        subprocess.run(["umount", place], check=True)
    os.rmdir(place)
    return said.returncode == 0


def main(words):
    if len(words) not in (1, 2):
        print("usage: losses.py PROGRAM [MOMENTS]", file=sys.stderr)
        return 2
    program = os.path.abspath(words[0])
    moments = int(words[1]) if len(words) == 2 else 100
    count = Count()
    with tempfile.TemporaryDirectory() as top:
        mount = can_mount(top)
        if not mount:
            print("full disk: skipped, since nothing can be mounted here")
        path = os.path.join(top, "files")
        os.mkdir(path)
        data = os.path.join(HERE, "..", "crates", "jass", "data")
        small = {"q.txt": b"q1 a\nq2 a^2 b\n", "old.idx": version_1()}
        for name in ("b.ciff", "cut.ciff"):
            with open(os.path.join(data, name), "rb") as file:
                small[name] = file.read()
        small["b.idx"] = small["c.idx"] = Folder(program, path, small).whole("import b.ciff new")[3]["new"]
        small["new"] = OLD
        large = {"b.ciff": ciff(2000, 60, 1), "old.idx": old_index(12_000)}
        large["q.txt"] = b"".join(b"q%d t%d t%d\n" % (place, place % 60, (7 * place + 1) % 60) for place in range(200))
        large["b.idx"] = large["c.idx"] = Folder(program, path, large).whole("import b.ciff new")[3]["new"]
        large["new"] = OLD
        folder = Folder(program, path, large)
        for words in WRITING:
            try_kills(count, folder, words, moments)
        for words in WRITING:
            try_limits(count, folder, words, mount)
        try_reader(count, folder, WRITING[0], 10)
        folder = Folder(program, path, small)
        for words in WRITING + OTHERS:
            try_closed(count, folder, words)
        for words in WRITING:
            try_aliases(count, folder, words)
    print(f"{count.wrong} wrong")
    return 1 if count.wrong else 0


if __name__ == "__main__":
    sys.exit(main(sys.argv[1:]))
