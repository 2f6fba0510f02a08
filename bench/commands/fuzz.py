"""Inputs that are changed at random, and what comes of them.

Changes words, scripts, files of updates, claims and whole feeds: those of `examples/`, of the
cases, and small random ones. Runs the program over them, and compares what comes with what the
documents say, which bench/said says once more: the status; one line on standard error with the
first fault, and then nothing on standard output; the form of an answer, and over small feeds its
times and rides; each fault that `check` tells, and what `--lenient` leaves out; and processor time
that grows with the input. What comes with `--json` has to stand for such a text, byte by byte. An
answer with `--lenient` is also held against a check of the feed and against what comes without the
option. The same seed makes the same cases. A case with which
something is wrong is kept in a folder, with what was run and what came of it. Prints how many runs
ended with each status and each fault, how many left rows out, the faults that checks told, the
seconds of the slowest, and how many were wrong.
"""
import collections
import json
import os
import resource
import shutil
import signal
import subprocess
import sys
import tempfile
import time

from fuzzing.agreeing import disagreement, words_beside
from fuzzing.cases import ByteMaker, Maker, bytes_of, lay_out
from fuzzing.judging import FAULTS_FOUND, Ended, Judge, as_text
from harness import Table, commit_of, count, router
from said.checks import told_in
from said.jsons import Other

# A run that takes longer by the clock is killed.
LONGEST = 120


def add_arguments(parser):
    parser.add_argument("--minutes", type=float, default=1, help="minutes by the clock (else 1)")
    parser.add_argument("--seed", default="1", help="any word (else 1)")
    parser.add_argument("--workers", type=count, default=1, help="processes (else 1)")
    parser.add_argument("--case", type=int, metavar="N", help="try and show this case alone")
    every = "put each byte into each file and word of each command, as long as that takes"
    parser.add_argument("--every-byte", action="store_true", help=every)
    keep = "the folder for cases with which something is wrong (else fuzz-kept)"
    parser.add_argument("--keep", default="fuzz-kept", metavar="FOLDER", help=keep)


def signal_or_status(status):
    return signal.Signals(-status).name if status < 0 else status


def run_case(program, case, folder):
    """Runs the program where a case is laid out."""
    before = resource.getrusage(resource.RUSAGE_CHILDREN)
    with open(os.path.join(folder, "given"), "rb") as given:
        pipe = subprocess.PIPE
        words = [program.encode(), *case.words]
        child = subprocess.Popen(words, stdin=given, stdout=pipe, stderr=pipe, cwd=folder)
        try:
            out, err = child.communicate(timeout=LONGEST)
        except subprocess.TimeoutExpired:
            child.kill()
            out, err = child.communicate()
    after = resource.getrusage(resource.RUSAGE_CHILDREN)
    seconds = after.ru_utime + after.ru_stime - before.ru_utime - before.ru_stime
    texts = (text.decode(errors="replace") for text in (out, err))
    return Ended(signal_or_status(child.returncode), *texts, seconds)


def tried(program, case):
    """What came of a case, and what is wrong with that, or None."""
    with tempfile.TemporaryDirectory() as folder:
        lay_out(case, folder)
        ended = run_case(program, case, folder)
        try:
            ended = as_text(case, ended)
            wrong = Judge(case, folder).wrong(ended)
            others = None if wrong else words_beside(case.words)
            if others:
                cases = [case._replace(words=words) for words in others]
                runs = [as_text(it, run_case(program, it, folder)) for it in cases]
                wrong = disagreement(ended, *runs)
        except Other as other:
            wrong = f"with --json: {other}"
        return ended, wrong


def keep(folder, name, case, ended, wrong):
    """Keeps a case and what came of it."""
    to = os.path.join(folder, name)
    shutil.rmtree(to, ignore_errors=True)
    os.makedirs(to)
    lay_out(case, to)
    told = {
        "wrong": wrong,
        "words": [word.decode(errors="backslashreplace") for word in case.words],
        "status": ended.status,
        "out": ended.out[:2000],
        "err": ended.err[:2000],
        "seconds": ended.seconds,
    }
    with open(os.path.join(to, "told.json"), "w", encoding="utf-8") as file:
        json.dump(told, file, indent=1, ensure_ascii=False)
    print(f"bench: {to}: {wrong}"[:300], file=sys.stderr, flush=True)


class Counts:
    """What became of many cases."""

    def __init__(self):
        self.statuses, self.faults = collections.Counter(), collections.Counter()
        self.told = collections.Counter()
        self.bytes = self.slowest = self.wrong = self.left_out = 0

    def add(self, case, ended, wrong):
        self.statuses[str(ended.status)] += 1
        fault = ended.err.partition("refused: ")[2].split(" ")[:2]
        if fault != [""]:
            self.faults[f"{ended.status} {' '.join(fault)}".strip()] += 1
        if ended.status == FAULTS_FOUND:
            self.told.update(" ".join(it.split(" ")[:2]) for it in told_in(ended.out) or ())
        self.left_out += ended.status == 0 and ended.err != ""
        self.bytes += bytes_of(case)
        self.slowest = max(self.slowest, ended.seconds)
        self.wrong += wrong is not None

    def __iadd__(self, other):
        self.statuses += other.statuses
        self.faults += other.faults
        self.told += other.told
        self.left_out += other.left_out
        self.bytes, self.wrong = self.bytes + other.bytes, self.wrong + other.wrong
        self.slowest = max(self.slowest, other.slowest)
        return self


def maker_of(words):
    return (ByteMaker if words.every_byte else Maker)(words.seed)


def run_some(program, words, worker):
    """Tries every so manyth case, until the time is over or all were tried."""
    maker, counts, number = maker_of(words), Counts(), worker
    end = time.monotonic() + words.minutes * 60
    while number < maker.count if maker.count else time.monotonic() < end:
        case = maker.case(number)
        ended, wrong = tried(program, case)
        counts.add(case, ended, wrong)
        if wrong:
            keep(words.keep, f"{words.seed}-{number}", case, ended, wrong)
        number += words.workers
    return counts


def show(maker, program, number):
    case = maker.case(number)
    ended, wrong = tried(program, case)
    print(" ".join(word.decode(errors="backslashreplace") for word in case.words))
    print(f"status {ended.status}, {ended.seconds:.2f} s\n{ended.out}{ended.err}", end="")
    print(wrong or "as it has to be")
    return 1 if wrong else 0


def run_all(program, words):
    """Tries cases in as many processes as are asked for."""
    if words.workers == 1:
        return run_some(program, words, 0)
    # pickled, counts come back from the processes
    import multiprocessing

    with multiprocessing.Pool(words.workers) as pool:
        found = pool.starmap(run_some, [(program, words, it) for it in range(words.workers)], 1)
    counts = Counts()
    for one in found:
        counts += one
    return counts


def run(words):
    program = router()
    if words.case is not None:
        return show(maker_of(words), program, words.case)
    counts = run_all(program, words)
    runs = sum(counts.statuses.values())
    table = Table(commit_of(program), "what came", "runs")
    for status, number in sorted(counts.statuses.items()):
        table.row(f"status {status}", number)
    for fault, number in sorted(counts.faults.items()):
        table.row(f"status {fault}", number)
    table.row("status 0 with rows left out", counts.left_out)
    for fault, number in sorted(counts.told.items()):
        table.row(f"told {fault}", number)
    table.row("all", runs)
    table.row("MB of input", f"{counts.bytes / 1e6:.0f}")
    table.row("seconds of the slowest", f"{counts.slowest:.2f}")
    table.row("wrong", counts.wrong)
    return 1 if counts.wrong else 0
