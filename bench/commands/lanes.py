"""A script of requests, served in 1, 4 and 8 lanes.

The requests are for best values between random stations, dealt out to the lanes. They are served
over one day and over two, where the second day is read, built and published meanwhile. Prints
requests a second by the clock and milliseconds of processor time a request, both less what the same
run takes with one request a lane, and the most memory.
"""
import os
import random

from feeds import add_feed_argument, feed_of
from harness import Table, clock, commit_of, count, done, router

OPTIONS = ["--change", "60", "--workers", "1"]
DAYS = ["20260302", "20260303"]
LANES = (1, 4, 8)


def add_arguments(parser):
    add_feed_argument(parser, "city:20000")
    requests = "requests in all (else 10,000)"
    parser.add_argument("--requests", type=count, default=10_000, help=requests)


def stations_of(feed):
    """The ids of the feed's stations."""
    with open(os.path.join(feed, "stops.txt"), encoding="utf-8") as file:
        return [line.split(",")[0] for line in file if line.split(",")[2] == "1"]


def script_of(stations, lanes, requests):
    """So many requests, the same for the same stations, dealt out to lanes."""
    chance = random.Random(11)
    lines = []
    for lane in range(lanes):
        lines.append(f"lane lane{lane}\n")
        for _ in range(max(1, requests // lanes)):
            one, other = chance.choice(stations), chance.choice(stations)
            time = clock(chance.randrange(24) * 3600 + chance.randrange(60) * 60)
            lines.append(f"ask {one} {other} {time}\n")
    return "".join(lines).encode()


def measure(program, feed, lanes, days, requests):
    """The seconds by the clock and of processor time of all requests, and the mebibytes held."""
    stations = stations_of(feed)
    items = [f"{feed}@{day}" for day in days]
    whole, least = (
        done(program, [*OPTIONS, "serve", *items], given=script_of(stations, lanes, number))
        for number in (requests, lanes)
    )
    return whole.clock - least.clock, whole.seconds - least.seconds, whole.mebibytes


def run(words):
    program = router()
    table = Table(
        commit_of(program),
        "feed",
        "lanes",
        "editions",
        "s by the clock",
        "requests a second",
        "processor ms a request",
        "memory MiB",
    )
    for word in words.feeds:
        with feed_of(word) as (name, feed):
            for lanes in LANES:
                for days in (DAYS[:1], DAYS):
                    secs, used, memory = measure(program, feed, lanes, days, words.requests)
                    rate = f"{secs:.1f}", f"{words.requests / secs:,.0f}"
                    each = f"{used * 1000 / words.requests:.2f}"
                    table.row(name, lanes, len(days), *rate, each, f"{memory:,.0f}")
    return 0
