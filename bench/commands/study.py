"""A shard of a study: travel times from many stations to every stop, as `studies/shard` asks them.

Asks from so many stations of a feed, at sixty departures of an hour, by `matrix`. Prints minutes by
the clock, seconds of processor time an origin, mebibytes that the program held at most, and
megabytes of rows an origin; all but the memory without those of the same run with no origins, which
makes the day's network, and whose seconds by the clock stand in a column.
"""
import os
import random
import tempfile

from commands.lanes import stations_of
from feeds import add_feed_argument, feed_of
from harness import DAY, Table, commit_of, count, done, router

TIMES = ["08:00:00", "08:59:00", "60"]


def add_arguments(parser):
    add_feed_argument(parser, "network:3000")
    parser.add_argument("--origins", type=count, default=1000, help="stations (else 1,000)")
    parser.add_argument(
        "--workers", type=count, nargs="+", default=[1, 4], help="workers of each run (else 1 4)"
    )


def asked(program, feed, workers, origins):
    """A run over these origins, and the bytes of rows that it wrote."""
    words = ["--json", "--workers", str(workers), "--change", "60", "matrix", feed, DAY, "-", *TIMES]
    given = "".join(f'"{origin}"\n' for origin in origins).encode()
    with tempfile.TemporaryFile() as rows:
        ended = done(program, words, given=given, out=rows)
        return ended, rows.seek(0, os.SEEK_END)


def run(words):
    program = router()
    columns = "feed", "workers", "origins", "day, s by the clock", "minutes by the clock"
    more = "processor s an origin", "memory MiB", "MB of rows an origin"
    table = Table(commit_of(program), *columns, *more)
    for word in words.feeds:
        with feed_of(word) as (name, feed):
            stations = stations_of(feed)
            origins = random.Random(23).choices(stations, k=words.origins)
            for workers in words.workers:
                least, _ = asked(program, feed, workers, [])
                whole, size = asked(program, feed, workers, origins)
                minutes = f"{(whole.clock - least.clock) / 60:.1f}"
                each = f"{(whole.seconds - least.seconds) / len(origins):.3f}"
                row = name, workers, f"{len(origins):,}", f"{least.clock:.1f}", minutes, each
                table.row(*row, f"{whole.mebibytes:,.0f}", f"{size / 1e6 / len(origins):.2f}")
    return 0
