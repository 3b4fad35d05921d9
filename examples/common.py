"""What the scripts of this folder share: CIFF files by Google's protobuf, and words that are refused.

Needs the packages python3-protobuf and protobuf-compiler.
"""
import importlib
import os
import subprocess
import sys
import tempfile
import warnings


class Bad(Exception):
    """Input that is refused, with the reason."""


def messages():
    """The Python module of ciff.proto."""
    warnings.simplefilter("error", RuntimeWarning)  # of bytes that are read in part
    here = os.path.dirname(os.path.abspath(__file__))
    with tempfile.TemporaryDirectory() as made:
        subprocess.run(["protoc", "-I", here, "--python_out", made, "ciff.proto"], check=True)
        sys.path.insert(0, made)
        try:
            return importlib.import_module("ciff_pb2")
        finally:
            sys.path.remove(made)


def varint(number):
    out = bytearray()
    while number > 127:
        out.append(number & 127 | 128)
        number >>= 7
    out.append(number)
    return bytes(out)


def write_message(out, message):
    """Puts a message behind the varint of its length."""
    body = message.SerializeToString()
    out.write(varint(len(body)) + body)


class CiffFile:
    """The messages of a CIFF file, one after the other. The file is read once for each call."""

    def __init__(self, ciff, path):
        self.ciff = ciff
        self.path = path

    def _bodies(self, file):
        while True:
            length = shift = 0
            while True:
                byte = file.read(1)
                if not byte and shift == 0:
                    return
                if not byte or shift > 63:
                    raise Bad(f"{self.path}: is no CIFF file, or is cut")
                length |= (byte[0] & 127) << shift
                shift += 7
                if byte[0] < 128:
                    break
            body = file.read(length) if length < 1 << 32 else b""
            if len(body) != length:
                raise Bad(f"{self.path}: is no CIFF file, or is cut")
            yield body

    def _parsed(self, kind, bodies):
        from google.protobuf.message import DecodeError
        try:
            return kind.FromString(next(bodies))
        except StopIteration:
            raise Bad(f"{self.path}: has fewer messages than its header says") from None
        except (DecodeError, SystemError):  # the latter where a warning is made an error
            raise Bad(f"{self.path}: has a message that is no {kind.DESCRIPTOR.name}") from None

    def header(self):
        with open(self.path, "rb") as file:
            return self._parsed(self.ciff.Header, self._bodies(file))

    def lists(self):
        """Each list as (term, [(document, tf)])."""
        with open(self.path, "rb") as file:
            bodies = self._bodies(file)
            header = self._parsed(self.ciff.Header, bodies)
            for _ in range(header.num_postings_lists):
                entry = self._parsed(self.ciff.PostingsList, bodies)
                doc = 0
                postings = []
                for posting in entry.postings:
                    doc += posting.docid
                    if (postings and posting.docid < 1) or not 0 <= doc < header.num_docs or posting.tf < 1:
                        raise Bad(f"{self.path}: the list of {entry.term!r} is no list of its documents")
                    postings.append((doc, posting.tf))
                yield entry.term, postings

    def records(self):
        """The (name, length) of each document, by its number."""
        with open(self.path, "rb") as file:
            bodies = self._bodies(file)
            header = self._parsed(self.ciff.Header, bodies)
            for _ in range(header.num_postings_lists):
                if next(bodies, None) is None:
                    raise Bad(f"{self.path}: has fewer messages than its header says")
            found = [None] * header.num_docs
            for _ in range(header.num_docs):
                record = self._parsed(self.ciff.DocRecord, bodies)
                if not 0 <= record.docid < header.num_docs or found[record.docid] is not None:
                    raise Bad(f"{self.path}: its records are not one for each document")
                found[record.docid] = (record.collection_docid, record.doclength)
            return found


def write_header(out, ciff, description, lists, lengths, times=1):
    """Puts the header of so many lists, and of documents of these lengths, so many times over."""
    documents = len(lengths) * times
    terms = sum(lengths) * times
    write_message(out, ciff.Header(
        version=1, num_postings_lists=lists, num_docs=documents,
        total_postings_lists=lists, total_docs=documents, total_terms_in_collection=terms,
        average_doclength=terms / documents if documents else 0.0, description=description))


def write_list(out, ciff, term, postings):
    """Puts the list of a term, whose postings are (document, tf) by rising document."""
    entry = ciff.PostingsList(term=term, df=len(postings), cf=sum(tf for _, tf in postings))
    before = 0
    for doc, tf in postings:
        entry.postings.add(docid=doc - before, tf=tf)
        before = doc
    write_message(out, entry)


def lengths_of(records):
    return [length for _, length in records]


def write_records(out, ciff, records):
    """Puts the records of documents, which are (name, length) by rising number."""
    for doc, (name, length) in enumerate(records):
        write_message(out, ciff.DocRecord(docid=doc, collection_docid=name, doclength=length))


def number_word(word, least, most, what):
    """The number that a word spells, within these bounds."""
    if not (word.isascii() and word.isdecimal() and len(word) <= 20 and least <= int(word) <= most):
        raise Bad(f"{what}: {word} is no number from {least} to {most}")
    return int(word)


def lines_of(path):
    """The lines of a text, each of which ends by LF."""
    with open(path, encoding="utf-8", newline="\n") as text:
        whole = text.read()
    if whole and not whole.endswith("\n"):
        raise Bad(f"{path}: the last line has no end")
    return whole.split("\n")[:-1]


def check_name(name, where):
    """Refuses a text that is no name: 1 to 1,048,576 bytes without blanks and control characters."""
    if not name or len(name.encode()) > 1 << 20 or any(character <= " " or character == "\x7f" for character in name):
        raise Bad(f"{where}: {name[:80]!r} is no name of a document or a query")


def run_script(name, told, main, words, own=None):
    """The status of a script: 0, or 2 with the usage or the reason on standard error. What it is told by is its first
    text, which `--help` prints; a word that begins with `-` and is longer than that is no file here. Of the words the first
    `own` are the script's own, all where it isn't said."""
    usage = told.strip() if "usage:" in told else f"usage: {told}"
    if "--help" in words[:own]:
        print(usage)
        return 0
    strange = [word for word in words[:own] if word.startswith("-") and word != "-"]
    try:
        if strange:
            raise Bad(f"{strange[0]} is no option; a file by such a name is ./{strange[0]}")
        if main(words):
            return 0
        print(usage_lines(usage), file=sys.stderr)
    except (Bad, ImportError, OSError, UnicodeDecodeError, subprocess.CalledProcessError) as fault:
        print(f"{name}: {fault}", file=sys.stderr)
    return 2


def usage_lines(told):
    """The lines of a text that say how a script is called."""
    lines = told[told.index("usage:"):].split("\n\n")[0]
    return lines
