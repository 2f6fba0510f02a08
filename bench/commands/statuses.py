"""The program in each of its statuses.

Prints what each run ended with and what it wrote to standard error, and whether both, and standard
output, are what the documents say.
"""
import os
import tempfile

from harness import BEST, DAY, SCRIPT, TOP, Run, Table, commit_of, example, limited, outcome, router

USAGE = (
    "usage: router [--change SECS] [--station SECS] [--close] [--lenient] [--days N] [--workers N]"
    " [--plain] [--lanes N] [--mirror] [--csv] COMMAND WORDS"
)
USAGE_JSON = f'{{"status":2,"message":"{USAGE.replace("[--csv]", "[--csv] [--json]")}"}}'
ASK = [DAY, "A", "D", "08:00:00"]


def add_arguments(parser):
    pass


def cases(program, folder):
    """What is met, the status, standard output and the line of standard error, and the run."""
    feed = example(folder)
    ask = ["ask", feed, *ASK]
    serve = ["serve", f"{feed}@{DAY}"]
    refused = "router: feed refused: 1 MissingFile stops.txt"
    nowhere = ["ask", os.path.join(folder, "none"), *ASK]
    late = os.path.join(folder, "late")
    with open(late, "w", encoding="ascii") as file:
        file.write("late T1 1 120\nlate T9 0 60\n")

    def run(words, **how):
        return Run(program, words, **how)

    yield "an answer", 0, BEST, "", run(ask)
    yield "no words", 2, "", USAGE, run([])
    yield "a word too many", 2, "", USAGE, run([*ask, "more"])
    yield "a word that isn't UTF-8", 2, "", USAGE_JSON, run(["--json", "ask", b"\xff"])
    yield "no feed", 3, "", refused, run(nowhere)
    closed = run(serve, before=lambda: os.close(0))
    yield "no standard input for a script", 4, "", "router: read fault", closed
    with open("/dev/full", "wb") as full:
        written = run(ask, out=full)
    yield "a full disk behind standard output", 5, "", "router: write fault", written
    small = run(["--workers", "1", "city", "40"], before=limited(30_000_000))
    yield "30 MB for a made city that takes more", 6, "", "router: out of memory", small
    fault = "router: script refused: 1 BadLine line 4"
    yield "a bad line in a script", 7, "", fault, run(serve, given=f"{SCRIPT}more\n".encode())
    fault = "router: late refused: 1 UnknownTrip line 2"
    yield "a late trip that isn't there", 8, "", fault, run(["late", feed, DAY, late, *ASK[1:]])
    fault = "router: journey refused: 1 BadLine line 1"
    yield "a claim without a value", 9, "", fault, run(["verify", feed, *ASK], given=b"more\n")
    told = "1 MissingFile stops.txt\nfaults 1\nwarnings 0\n"
    yield "a feed with a fault, checked", 10, told, "", run(["check", nowhere[1], DAY])
    none = "faults 0\nwarning UnservedStop stops.txt row 6\nwarnings 1\n"
    yield "a feed without a fault, checked", 0, none, "", run(["check", feed, DAY])
    left = "router: left out 1 row of stops.txt, trips for 2 rows of stop_times.txt (see check)"
    lenient = run(["--lenient", "ask", os.path.join(TOP, "examples", "faulty"), *ASK])
    yield "an answer without bad rows", 0, BEST[: BEST.index("arrive 08:30")], left, lenient


def run(words):
    bad = 0
    program = router()
    table = Table(commit_of(program), "what is met", "status", "wanted", "standard error")
    with tempfile.TemporaryDirectory() as folder:
        for what, status, out, err, ended in cases(program, folder):
            said = f"{err}\n" if err else ""
            is_right = (ended.status, ended.out, ended.err) == (status, out, said)
            bad += not is_right
            line = f"`{ended.err.splitlines()[0]}`" if ended.err else "nothing"
            table.row(what, ended.status, status, outcome(is_right, line))
    return 1 if bad else 0
