"""The cases of crates/trials that were worked out by hand, as the fuzzer judges them."""
import os
import tempfile

from fuzzing.cases import Case
from fuzzing.judging import Ended, Judge, as_text
from harness import FEEDS
from said.jsons import Other

CASES = os.path.join(FEEDS, "..", "cases")
# What makes a run that the fuzzer doesn't try, or an answer that it doesn't know whole.
UNTRIED = ("any", "room", "folder", "moves", "input", "output", "each")
# The lines of a script, by those of a file.
OF_SCRIPTS = {"script": "row", "scripts": "rows", "piece": "cut", "octet": "byte"}


class Question:
    """A command line over a feed, by its files, and how it has to end."""

    def __init__(self, title, files, line):
        self.title, self.files, self.words = title, dict(files), line.split(" ")
        self.is_tried = True
        self.status, self.out, self.err, self.script = 0, "", "", b""

    def take(self, kind, rest):
        """Takes a line that says more of it."""
        if kind == "status":
            self.status = int(rest)
        elif kind in ("out", "err"):
            setattr(self, kind, f"{getattr(self, kind)}{rest}\n")
        elif kind in OF_SCRIPTS:
            self.script += bytes_of(OF_SCRIPTS[kind], rest)
        elif kind in UNTRIED:
            self.is_tried = False

    def judged(self, **other):
        """What is wrong with how it ends, or would end."""
        ended = {"status": self.status, "out": self.out, "err": self.err, "seconds": 0.01, **other}
        case = Case([word.encode() for word in self.words], {}, self.script)
        with tempfile.TemporaryDirectory() as folder:
            for name, text in self.files.items():
                path = os.path.join(folder, name)
                os.makedirs(os.path.dirname(path), exist_ok=True)
                with open(path, "wb") as file:
                    file.write(text)
            try:
                return Judge(case, folder).wrong(as_text(case, Ended(**ended)))
            except Other as other:
                return str(other)


def files_of(feed):
    found = {}
    for name in os.listdir(os.path.join(FEEDS, feed)):
        with open(os.path.join(FEEDS, feed, name), "rb") as file:
            found[f"{feed}/{name}"] = file.read()
    return found


def bytes_of(kind, rest):
    """What a line of a case adds to a file."""
    if kind == "byte":
        return bytes([int(rest)])
    if kind == "cut":
        return rest.encode()
    if kind == "row":
        return f"{rest}\n".encode()
    times, line = rest.split(" ", 1)
    return "".join(f"{line.replace('#', str(i))}\n" for i in range(int(times))).encode()


def questions(*names):
    """The questions of the cases of these names, as far as the fuzzer asks such."""
    found = []
    for name in names:
        with open(os.path.join(CASES, f"{name}.txt"), encoding="utf-8", newline="\n") as file:
            lines = [line.rstrip("\n").partition(" ") for line in file]
        for kind, _, rest in lines:
            if kind == "case":
                title = rest
            elif kind == "feed":
                feed, files = rest, files_of(rest)
            elif kind in ("file", "beside"):
                name = rest if kind == "beside" else f"{feed}/{rest}"
                files[name] = b""
            elif kind in ("row", "rows", "byte", "cut"):
                files[name] += bytes_of(kind, rest)
            elif kind == "without":
                del files[f"{feed}/{rest}"]
            elif kind == "words":
                found.append(Question(title, files, rest))
            elif kind and not kind.startswith("#"):
                found[-1].take(kind, rest)
    return [it for it in found if it.is_tried]
