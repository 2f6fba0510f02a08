"""Two builds of the program, measured by turns.

OTHER is another build of the program, such as one of an earlier state. Both programs read each feed
by `direct` and make its transfers by `build`, by turns. Prints for both the least processor seconds
of `direct`, and of `build` less `direct`, with the ratios; and how many megabytes of stop_times.txt
this build's `direct` reads in a second.
"""
import os

from feeds import add_feed_argument, feed_of
from harness import DAY, BenchError, Table, commit_of, count, done, megabytes_of, router


def add_arguments(parser):
    parser.add_argument("other", metavar="OTHER", help="the path of the other build")
    add_feed_argument(parser, "network:300", "city:20000")
    runs = "runs of each, of which the least counts (else 5)"
    parser.add_argument("--runs", type=count, default=5, help=runs)


def ends_of(feed):
    """The first and the last stop of a feed."""
    with open(os.path.join(feed, "stops.txt"), encoding="utf-8") as file:
        ids = [line.split(",")[0] for line in file]
    return ids[1], ids[-1]


def least(feed, programs, runs):
    """Of each program the least seconds of `direct`, and those of `build` less these."""
    direct = ["direct", feed, DAY, *ends_of(feed), "08:00:00"]
    took = [([], []) for _ in programs]
    for _ in range(runs):
        for program, seconds in zip(programs, took):
            for words, found in zip((direct, ["build", feed, DAY]), seconds):
                found.append(done(program, ["--change", "60", *words]).seconds)
    return [(min(reads), min(builds) - min(reads)) for reads, builds in took]


def run(words):
    if not os.access(words.other, os.X_OK):
        raise BenchError(f"there is no program {words.other}")
    programs = [os.path.realpath(words.other), router()]
    table = Table(
        commit_of(programs[1]),
        "feed",
        "`direct` s, other",
        "this",
        "ratio",
        "MB/s",
        "`build` less `direct` s, other",
        "this",
        "ratio",
    )
    for word in words.feeds:
        with feed_of(word) as (name, feed):
            (old_read, old_made), (read, made) = least(feed, programs, words.runs)
            size = megabytes_of(os.path.join(feed, "stop_times.txt"))
            reads = f"{old_read:.3f}", f"{read:.3f}", f"{read / old_read:.2f}", f"{size / read:.0f}"
            table.row(name, *reads, f"{old_made:.2f}", f"{made:.2f}", f"{made / old_made:.2f}")
    return 0
