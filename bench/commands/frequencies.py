"""Reading trips by frequency, beside the same trips written out.

Writes each network three times: with every second route by rows of frequencies.txt, with the same
trips written out, and without them. Reads each and makes the timetable of a weekday. Prints the
least processor seconds of all runs, and from these the microseconds that a trip takes: one of the
routes that are always written out, one by frequency, and one of the same trips written out. The
last two have to give the same answers.
"""
import os
import tempfile

from feeds import network
from harness import BenchError, Table, asking, asking_words, commit_of, count, done, rows_of


def add_arguments(parser):
    patterns = "patterns of each network (else 300 3000)"
    parser.add_argument("--patterns", type=count, nargs="+", default=[300, 3000], help=patterns)
    runs = "runs of each, of which the least counts (else 5)"
    parser.add_argument("--runs", type=count, default=5, help=runs)


def answers(program, folder):
    return done(program, asking_words(folder, 100, "plain"), out=None).out


def measure(program, table, patterns, runs, folder):
    if patterns < 4:
        raise BenchError(f"{patterns} patterns have no route by frequency; 4 have one")
    folders = {half: os.path.join(folder, half) for half in network.HALVES}
    for half, path in folders.items():
        network.make(path, patterns, half=half)
    if answers(program, folders["frequencies"]) != answers(program, folders["written"]):
        raise BenchError(f"{patterns} patterns: trips by frequency have other answers")
    taken = {
        half: min(done(program, asking_words(path, 0, "plain")).seconds for _ in range(runs))
        for half, path in folders.items()
    }
    without = taken["without"]
    others = rows_of(folders["without"], "trips.txt")
    trips = rows_of(folders["written"], "trips.txt") - others
    seconds = [taken[half] for half in ("frequencies", "written")]
    table.row(
        f"{patterns:,}",
        f"{trips:,}",
        f"{rows_of(folders['frequencies'], 'frequencies.txt'):,}",
        f"{without:.3f}",
        *(f"{secs:.3f}" for secs in seconds),
        f"{without * 1e6 / others:.1f}",
        *(f"{(secs - without) * 1e6 / trips:.1f}" for secs in seconds),
    )


def run(words):
    program = asking()
    table = Table(
        commit_of(program),
        "patterns",
        "trips of the half",
        "rows of frequencies.txt",
        "without it s",
        "by frequency s",
        "written out s",
        "other half, us a trip",
        "by frequency",
        "written out",
    )
    for patterns in words.patterns:
        with tempfile.TemporaryDirectory() as folder:
            measure(program, table, patterns, words.runs, folder)
    return 0
