"""Asks the proved program from several threads while days are published, and amended by delays, and
holds a sample of the answers against the commands, each by its edition; then has it killed while
they ask.

python3 -m tests.stress [--threads 8] [--requests 100000] [--patterns 300] [--pause 2]
"""
import argparse
import collections
import itertools
import os
import random
import signal
import tempfile
import threading
import time
from concurrent.futures import ThreadPoolExecutor

from .proved import DAY, PROGRAM, commanded, commanded_late, make_network
from yuccadarts import (
    Answer,
    Ask,
    Cancellation,
    Delay,
    Latest,
    ProcessEnded,
    Profile,
    Question,
    Reach,
    Ride,
    Router,
    Times,
    Update,
)
from yuccadarts.stops import read_stops

DATES = (DAY, "20260303", "20260307", "20260308")
OPTIONS = ("--close", "--change=120")
HOUR = 3_600
LONG = 60.0
"""The seconds after which something hangs."""
Sample = tuple[Question, Answer]
Day = tuple[str, list[Update]]
"""The date of an edition, and the updates by which it was amended."""


def drawn_question(drawn: random.Random, stops: list[str]) -> Question:
    ends = drawn.sample(stops, 2)
    at = drawn.randrange(6 * HOUR, 22 * HOUR)
    match drawn.randrange(100):
        case 0:
            return Reach(ends[0], at) if drawn.randrange(2) else Times(ends[0], at, at + HOUR, 600)
        case 1 | 2:
            return Profile(*ends, at, at + HOUR // 4)
        case 3 | 4 | 5:
            return Latest(*ends, at)
    return Ask(*ends, at)


def ask_many(
    router: Router, stops: list[str], seed: int, count: int, samples: int
) -> tuple[collections.Counter[int], list[Sample]]:
    """Asks one after another; how many answers each edition gave, and a sample of them."""
    drawn = random.Random(seed)
    kept = set(drawn.sample(range(count), min(samples, count)))
    editions: collections.Counter[int] = collections.Counter()
    sample, last = [], 1
    for number in range(count):
        question = drawn_question(drawn, stops)
        (answer,) = router.answers([question])
        assert answer.edition >= last, f"edition {answer.edition} after {last}"
        last = answer.edition
        editions[last] += 1
        if number in kept:
            sample.append((question, answer))
    return editions, sample


def drawn_updates(router: Router, drawn: random.Random, stops: list[str]) -> list[Update]:
    """Delays and cancellations of some trips that run."""
    asked = [Ask(*drawn.sample(stops, 2), drawn.randrange(6 * HOUR, 22 * HOUR)) for _ in range(40)]
    rides = [
        leg
        for answer in router.answers(asked)
        for choice in answer
        for leg in choice.legs
        if isinstance(leg, Ride)
    ]
    trips = sorted({(ride.trip, ride.day) for ride in rides})
    return [
        Delay(trip, 0, 60 * drawn.randrange(1, 30), day)
        if drawn.randrange(4)
        else Cancellation(trip, day)
        for trip, day in trips
    ]


def publish(
    router: Router, feed: str, stops: list[str], pause: float, is_over: threading.Event
) -> dict[int, Day]:
    """Publishes and amends days one after another, while the others ask; what each edition is."""
    found: dict[int, Day] = {1: (DAY, [])}
    drawn = random.Random(1)
    for date in itertools.cycle(DATES[1:] + DATES[:1]):
        if is_over.wait(pause):
            break
        number = router.publish(feed, date).wait(LONG).number
        found[number] = date, []
        updates = drawn_updates(router, drawn, stops)
        amended = router.delays(updates).wait(LONG)
        assert 0 < amended.touched, amended
        found[amended.number] = date, updates
        # whoever waited for an edition is answered by it
        answer = router.ask(*stops[:2], 8 * HOUR)
        assert answer.edition == amended.number, f"edition {answer.edition}, not {amended.number}"
    return found


def run_right(words: argparse.Namespace, feed: str, stops: list[str]) -> None:
    each = words.requests // words.threads
    is_over = threading.Event()
    with Router(feed, DAY, mirror=True, program=PROGRAM) as router:
        with ThreadPoolExecutor(words.threads + 1) as threads:
            publishing = threads.submit(publish, router, feed, stops, words.pause, is_over)
            begin = time.monotonic()
            asking = [
                threads.submit(ask_many, router, stops, seed, each, words.samples)
                for seed in range(words.threads)
            ]
            try:
                results = [future.result() for future in asking]
            finally:
                is_over.set()
            took = time.monotonic() - begin
            days = publishing.result()
    editions: collections.Counter[int] = collections.Counter()
    for counted, _ in results:
        editions += counted
    total = each * words.threads
    rate = total / took
    print(f"{total} answers to {words.threads} threads in {took:.1f} s, {rate:.0f} a second")
    shares = sorted(editions.values())
    print(f"{len(editions)} editions answered, each {shares[0]} to {shares[-1]} times")
    held = [pair for _, sample in results for pair in sample]
    by = collections.Counter(hold(feed, *pair, days[pair[1].edition]) for pair in held)
    count = len({answer.edition for _, answer in held})
    print(f"answers by {count} editions are those of commands: {by['own']}, of `late` {by['late']}")


def hold(feed: str, question: Question, answer: Answer, day: Day) -> str:
    """Holds an answer against that of a command; by which one. None tells what others than `ask`
    are on an amended day.
    """
    date, updates = day
    if not updates:
        wanted = commanded(feed, question, *OPTIONS, date=date)
    elif isinstance(question, Ask):
        wanted = commanded_late(feed, question, updates, *OPTIONS, date=date)
    else:
        return "none"
    assert answer.values == wanted, f"{question}: {answer} in place of {wanted}"
    return "late" if updates else "own"


def run_killed(words: argparse.Namespace, feed: str, stops: list[str]) -> None:
    def ask_on(seed: int) -> None:
        drawn = random.Random(seed)
        while True:
            (_,) = router.answers([drawn_question(drawn, stops)])

    with Router(feed, DAY, mirror=True, program=PROGRAM) as router:
        with ThreadPoolExecutor(words.threads) as threads:
            asking = [threads.submit(ask_on, seed) for seed in range(words.threads)]
            time.sleep(1)
            os.kill(router.pid, signal.SIGKILL)
            ends = [future.exception(LONG) for future in asking]
    assert {type(end) for end in ends} == {ProcessEnded}, ends
    print(f"killed: {len({id(end) for end in ends})} threads got an exception each: {ends[0]}")


def main() -> None:
    parser = argparse.ArgumentParser(description=__doc__.partition("\n\n")[0])
    parser.add_argument("--threads", type=int, default=8)
    parser.add_argument("--requests", type=int, default=100_000)
    parser.add_argument("--patterns", type=int, default=300, help="of the made network")
    parser.add_argument("--pause", type=float, default=2.0, help="seconds between publications")
    parser.add_argument("--samples", type=int, default=15, help="of each thread")
    words = parser.parse_args()
    with tempfile.TemporaryDirectory() as feed:
        make_network(feed, words.patterns)
        stops = [stop.id for stop in read_stops(feed).values() if stop.is_station]
        run_right(words, feed, stops)
        run_killed(words, feed, stops)


if __name__ == "__main__":
    main()
