"""Queries, profiles, latest departures, reach and travel times, measured.

Asks each feed 1,000 random queries by the search and round by round, 50 random profiles of 24
hours, 1,000 random latest departures, the best values from 20 random stops to every stop, and the
travel times from 5 stops over sixty departures of an hour, each within one process. Prints the
milliseconds of processor time that each takes, of the asking alone: the least and the most of all
runs. With another build of the program that asks, both are measured by turns.
"""
import os

from feeds import add_feed_argument, feed_of
from harness import BenchError, Table, asking, asking_words, commit_of, count, done

COUNTS = {"search": 1000, "plain": 1000, "profile": 50, "latest": 1000, "reach": 20, "times": 5}


def add_arguments(parser):
    add_feed_argument(parser, "city:2000", "city:20000", "network:300")
    methods = " ".join(COUNTS)
    parser.add_argument(
        "--method",
        metavar="METHOD",
        nargs="+",
        choices=COUNTS,
        default=list(COUNTS),
        help=f"of {methods} (else all)",
    )
    parser.add_argument("--runs", type=count, default=3, help="runs of each (else 3)")
    other = "another build of the program that asks"
    parser.add_argument("--with", dest="other", metavar="PROGRAM", help=other)


def ask(program, feed, method):
    """The milliseconds of processor time of each question of a run, and what it found."""
    ended = done(program, asking_words(feed, COUNTS[method], method), out=None)
    micros = ended.err.split()[-1:]
    if not micros or not micros[0].isdecimal():
        raise BenchError(f"{program} says no processor time: {ended.first_line()}")
    return int(micros[0]) / 1000 / COUNTS[method], ended.out.strip()


def run(words):
    programs = {"this": asking()}
    if words.other:
        programs["other"] = os.path.realpath(words.other)
    columns = "feed", "method", "program", "ms each, least", "most", "found"
    table = Table(commit_of(programs["this"]), *columns)
    for word in words.feeds:
        with feed_of(word) as (name, feed):
            for method in words.method:
                taken = {one: [] for one in programs}
                for _ in range(words.runs):
                    for one, program in programs.items():
                        taken[one].append(ask(program, feed, method))
                for one, asked in taken.items():
                    each = [millis for millis, _ in asked]
                    cells = f"{min(each):.2f}", f"{max(each):.2f}", asked[0][1]
                    table.row(name, method, one, *cells)
    return 0
