"""`live` over a pipe: how long a reply takes, and requests a second beside `serve`.

Prints three tables. First what one request at a time takes by the clock, from its line to its whole
reply, while nothing else goes on and while further days are built; beside it the search alone,
within one process, and a request for a place that isn't there, which searches nothing. Second the
requests a second by the clock of `live` and of `serve`, with 1 and 4 lanes, less what the same run
takes with one request a lane. Third the most memory of a run that publishes a day once, and of one
that publishes it as often as `--publications` says.
"""
import random

from commands.lanes import stations_of
from feeds import add_feed_argument, feed_of, feed_word
from harness import (
    DAY,
    BenchError,
    Table,
    asking,
    asking_words,
    clock,
    commit_of,
    count,
    done,
    router,
)
from living import Living

OPTIONS = ["--change", "60"]
SHOWN = ("median ms", "99th part ms", "worst ms")
NOWHERE = "ask nowhere nowhere 08:00:00"
BUILT_BESIDE = 3


def add_arguments(parser):
    add_feed_argument(parser, "network:300", "network:3000")
    helps = {
        "--requests": (count, 1000, "requests one at a time (else 1,000)"),
        "--many": (count, 10_000, "requests at once (else 10,000)"),
        "--publications": (count, 200, "publications of one day (else 200)"),
        "--middle": (feed_word, "network:300", "the feed of the third table (else network:300)"),
    }
    for name, (kind, default, text) in helps.items():
        parser.add_argument(name, type=kind, default=default, help=text)


def requests_of(feed, number):
    """So many requests between random stations, the same for the same feed."""
    chance, stations = random.Random(17), stations_of(feed)
    for _ in range(number):
        one, other = chance.choice(stations), chance.choice(stations)
        yield f"ask {one} {other} {clock(chance.randrange(5 * 3600, 23 * 3600))}"


def shown(seconds):
    """Cells for seconds: the middle one, that which one in a hundred passes, and the worst."""
    ordered = sorted(seconds)
    at = len(ordered) // 2, len(ordered) * 99 // 100, -1
    return [f"{ordered[place] * 1000:.2f}" for place in at]


def searched(feed, number):
    """The milliseconds of processor time of a search alone."""
    asked = done(asking(), asking_words(feed, number, "search"), out=None)
    return int(asked.err.split()[-1]) / 1000 / number


def lone(program, feed, requests):
    """The seconds of lone requests: idle, of no place, and while days are built beside."""
    day = f"{feed}@{DAY}"
    with Living(program, [*OPTIONS, "--workers", "1", "live", day]) as process:
        process.start()
        idle = [process.timed(request) for request in requests]
        nowhere = [process.timed(NOWHERE) for _ in requests]
        for _ in range(BUILT_BESIDE):
            process.ask(f"publish {day}")
        beside = []
        while len(process.news) <= BUILT_BESIDE:
            beside.append(process.timed(requests[len(beside) % len(requests)]))
        news = process.news
    if process.status != 0 or not all(line.startswith("edition ") for line in news):
        raise BenchError(f"live ended with {process.status}, and wrote {news}")
    return idle, nowhere, beside


def script_of(lanes, requests):
    """A script of `serve` with these requests, dealt out to lanes."""
    dealt = [requests[lane::lanes] for lane in range(lanes)]
    lines = [line for lane, mine in enumerate(dealt) for line in (f"lane lane{lane}", *mine)]
    return "".join(f"{line}\n" for line in lines).encode()


def rate(program, words, script, requests, lanes):
    """Requests a second by the clock, and the mebibytes held."""
    whole, least = (
        done(program, words, given=script(requests[:number])) for number in (len(requests), lanes)
    )
    return (len(requests) - lanes) / (whole.clock - least.clock), whole.mebibytes


def rates(program, feed, requests, table, name):
    for lanes in (1, 4):
        given = {
            "live": lambda some: "".join(f"{line}\n" for line in some).encode(),
            "serve": lambda some: script_of(lanes, some),
        }
        for command, script in given.items():
            words = [*OPTIONS, "--lanes", str(lanes), command, f"{feed}@{DAY}"]
            each, memory = rate(program, words, script, requests, lanes)
            table.row(name, command, lanes, f"{each:,.0f}", f"{memory:,.0f}")


def published(program, feed, number):
    """The mebibytes that a run holds at most which publishes a day so many times."""
    day = f"{feed}@{DAY}"
    lines = f"publish {day}\n" * (number - 1)
    ended = done(program, [*OPTIONS, "live", day], given=lines.encode(), out=None)
    if ended.out.count(f"edition {number} ") != 1:
        raise BenchError(f"live didn't publish {number} times: {ended.first_line()}")
    return ended.mebibytes, ended.clock


def run(words):
    program = router()
    table = Table(commit_of(program), "feed", "lone requests", *SHOWN)
    for word in words.feeds:
        with feed_of(word) as (name, feed):
            requests = list(requests_of(feed, words.requests))
            search = f"{searched(feed, words.requests):.2f}"
            table.row(name, "the search alone, mean of processor time", search, "", "")
            for what, seconds in zip(
                ("idle", "of no place", f"while {BUILT_BESIDE} days are built"),
                lone(program, feed, requests),
            ):
                table.row(name, f"{what} ({len(seconds):,})", *shown(seconds))
    print()
    table = Table(commit_of(program), "feed", "command", "lanes", "requests a second", "memory MiB")
    for word in words.feeds:
        with feed_of(word) as (name, feed):
            rates(program, feed, list(requests_of(feed, words.many)), table, name)
    print()
    table = Table(commit_of(program), "feed", "publications", "memory MiB", "s by the clock")
    with feed_of(words.middle) as (name, feed):
        for number in (1, 2, words.publications):
            memory, seconds = published(program, feed, number)
            table.row(name, number, f"{memory:,.0f}", f"{seconds:.1f}")
    return 0
