"""Feeds of trips that overtake, and of many patterns, which are dear to divide into lines. Each
function writes one with n trips into a folder, or with fewer where they are long, so that it has
some 2n to 6n rows.

Nobody boards or alights between the ends of a trip, so that few transfers come of it. A day has
360,000 seconds at most: trips are numbered by q and r, and where q is equal, r tells them apart.
"""
import random

from feeds import collisions, smallest
from harness import clock

TIMES = "trip_id,arrival_time,departure_time,stop_id,stop_sequence,pickup_type,drop_off_type\n"
# So many trips have one q.
TIED = 5


def rows_of(trip, calls):
    last = len(calls) - 1
    for place, (arrival, departure, stop) in enumerate(calls):
        closed = "1,1" if 0 < place < last else ","
        yield f"t{trip},{clock(arrival)},{clock(departure)},{stop},{place},{closed}\n"


def running(folder, count, calls_of, stops=""):
    """A feed of so many trips, each with the arrivals, departures and stops of the function, at A,
    B, C, D and further stops.
    """
    trips = (f"S,t{i}\n" for i in range(count))
    smallest.make(folder, f"stop_id\nA\nB\nC\nD\n{stops}", trips=trips)
    rows = (row for i in range(count) for row in rows_of(i, calls_of(i)))
    smallest.write_rows(folder, "stop_times.txt", TIMES, rows)


def stop_rows(count):
    return "".join(f"P{i}\n" for i in range(count))


def in_order(folder, n):
    """No trip overtakes another."""
    running(folder, n, lambda i: [(i // 2, i // 2, "A"), (180_000 + i // 2, 180_000 + i // 2, "B")])


def overtaking(folder, n):
    """Each later trip overtakes all before it, so that each has a line of its own."""

    def calls(i):
        q, r = divmod(i, TIED)
        return [(q, 100_000 + r, "A"), (300_000 - q, 359_999 - r, "B")]

    running(folder, n, calls)


def between(i):
    """The calls of a trip that overtakes all before it between its ends, and ends after them."""
    q, r = divmod(i, TIED)
    end = 240_000 + q
    middle = [(220_000 - q, 225_000 + r, "C"), (230_000 - r, 230_000, "D")]
    return [(q, q, "A"), *middle, (end, end, "B")]


def overtaking_between(folder, n):
    """Each later trip overtakes all before it, but they end in order."""
    running(folder, n, between)


def overtaking_with_equal_ends(folder, n):
    """All trips begin in one second, and end in one."""

    def calls(i):
        q, r = divmod(i, TIED)
        middle = [(q, 110_000 + r, "C"), (230_000 - q, 239_000 - r, "D")]
        return [(0, 0, "A"), *middle, (240_000, 240_000, "B")]

    running(folder, n, calls)


def overtaking_at_the_first_stop(folder, n):
    """The later a trip arrives at its first stop, the earlier it leaves it."""

    def calls(i):
        q, r = divmod(i, TIED)
        middle = [(225_000 + r, 229_000, "C"), (230_000 - r, 230_000, "D")]
        return [(q, 220_000 - q, "A"), *middle, (240_000 + q, 240_000 + q, "B")]

    running(folder, n, calls)


def overtaking_by_turns(folder, n):
    """In order at every second stop, and the other way round at the others."""

    def calls(i):
        q, r = divmod(i, TIED)
        rising, falling = (q * 6 // 10, 60_000 - q * 6 // 10)
        return [
            (rising, rising, "A"),
            (70_000 + falling, 130_000 + r, "C"),
            (140_000 + rising, 200_000, "D"),
            (210_000 + falling, 275_000 - r, "C"),
            (280_000 + rising, 345_000, "B"),
        ]

    running(folder, n, calls)


def early_of(period):
    """The calls of trips that overtake between their ends; of so many one is early at one stop, and
    one at another, so that the earliest times of as many lines don't tell whether one of them can
    be joined.
    """

    def calls(i):
        q, r = divmod(i, TIED)
        one, other = (240_000 - q, 242_000 + r), 310_000 - r
        if i % period == 0:
            one, other = (139_000 - q * 3 // 10, 242_000), 345_000
        if i % period == 1:
            one, other = (241_000, 242_000), 290_000 - q * 4 // 10
        return [(q, q, "A"), (*one, "C"), (other, 345_000, "D"), (359_000, 359_000, "B")]

    return calls


def overtaking_one_by_one(folder, n):
    """Two of each 64 trips are early."""
    running(folder, n, early_of(64))


def overtaking_seldom(folder, n):
    """Two of each 4,096 trips are early."""
    running(folder, n, early_of(4096))


def overtaking_where_lines_end_late(folder, n):
    """Half of the trips open lines, and each other one joins the first that none of these has joined,
    so that the lines behind which it comes begin early and end late.
    """

    def calls(i):
        first, (arrival, departure, stop), _, last = between(i)
        if i < n // 2:
            arrival, other = arrival - 60_000, 230_000 - i % TIED
        else:
            arrival, departure, other = arrival + n // 10, 228_000, 235_000 - i % TIED
        return [first, (arrival, departure, stop), (other, 235_000, "D"), last]

    running(folder, n, calls)


def random_between(folder, n):
    """At the stops between their ends trips stand in a random order."""
    drawn = random.Random(7)

    def calls(i):
        q = i // TIED
        one, other = 110_000 + drawn.randrange(110_000), 220_000 + drawn.randrange(15_000)
        middle = [(one, one, "C"), (other, 235_000, "D")]
        return [(q, q, "A"), *middle, (240_000 + q, 240_000 + q, "B")]

    running(folder, n, calls)


def random_throughout(folder, n):
    """At each stop trips stand in a random order."""
    drawn = random.Random(7)

    def calls(i):
        times = [stop * 85_000 + drawn.randrange(80_000) for stop in range(4)]
        return [(time, time, "ACDB"[stop]) for stop, time in enumerate(times)]

    running(folder, n, calls)


def random_on_long_trips(folder, n):
    """Trips of ten stops, at each of which but their ends they stand in a random order."""
    drawn = random.Random(7)

    def calls(i):
        times = [110_000 + stop * 15_000 + drawn.randrange(12_000) for stop in range(8)]
        middle = [(time, time, f"P{stop}") for stop, time in enumerate(times)]
        return [(i // TIED, i // TIED, "A"), *middle, (240_000 + i // TIED,) * 2 + ("B",)]

    running(folder, n // 2, calls, stop_rows(8))


def random_ends(folder, n):
    """Trips begin in order, and end in a random one."""
    drawn = random.Random(7)

    def calls(i):
        end = 200_000 + drawn.randrange(150_000)
        return [(i // TIED, i // TIED, "A"), (end, end, "B")]

    running(folder, n, calls)


def two_classes(folder, n):
    """Every second trip takes half as long."""

    def calls(i):
        begin = i * 200_000 // n
        end = begin + (50_000, 100_000)[i % 2]
        return [(begin, begin, "A"), ((begin + end) // 2,) * 2 + ("C",), (end, end, "B")]

    running(folder, n, calls)


def many_classes(folder, n):
    """As many travel times as trips of each."""
    classes = int(n**0.5)

    def calls(i):
        begin = i * 100_000 // n
        end = begin + 250_000 - i % classes * 200
        return [(begin, begin, "A"), ((begin + end) // 2,) * 2 + ("C",), (end, end, "B")]

    running(folder, n, calls)


def staircase(folder, n):
    """Groups of trips, each of which overtakes those before it of its group, between the ends."""
    size = int(n**0.5)

    def calls(i):
        group, place = divmod(i, size)
        begin, end = i // TIED, 250_000 + i // TIED
        one, other = 110_000 + group * 130_000 // size, 245_000 - place
        return [(begin, begin, "A"), (one, one, "C"), (other, 245_000, "D"), (end, end, "B")]

    running(folder, n, calls)


def falling_staircase(folder, n):
    """Groups of trips in order, each of which overtakes the groups before it, between the ends."""
    size = int(n**0.5)

    def calls(i):
        group, place = divmod(i, size)
        begin, end = i // TIED, 250_000 + i // TIED
        middle = 240_000 - group * 130_000 // size + place * 130_000 // size // size
        return [(begin, begin, "A"), (middle, middle, "C"), (end, end, "B")]

    running(folder, n, calls)


def zigzag(folder, n):
    """Every second trip is early between the ends, and each later one of them earlier."""

    def calls(i):
        q, r = divmod(i // 2, TIED)
        one = 110_000 + i % 2 * 60_000 + 50_000 - q
        middle = [(one, 235_000 + r, "C"), (239_999 - r, 239_999, "D")]
        return [(q, q, "A"), *middle, (240_000 + q, 240_000 + q, "B")]

    running(folder, n, calls)


def overtaking_late_on_long_trips(folder, n):
    """Trips of fifty stops, all in order but at the last stop but one."""

    def calls(i):
        first, *rest = between(i)
        begin = first[0] + 1
        ordered = [(begin + stop, begin + stop, f"P{stop}") for stop in range(46)]
        return [first, *ordered, *rest]

    running(folder, max(5, n // 16), calls, stop_rows(46))


def overtaking_in_rings(folder, n):
    """Trips that call at two stops in turn."""

    def calls(i):
        first, one, other, last = between(i)
        return [first, (100_000, 100_000, "B"), (101_000, 101_000, "A"), one, other, last]

    running(folder, n, calls)


def overtaking_in_many_patterns(folder, n):
    """As many patterns as trips of each, which overtake between their ends."""
    count = int(n**0.5)

    def calls(i):
        first, one, other, last = between(i // count)
        return [first, (*one[:2], f"P{i % count}"), other, last]

    running(folder, n, calls, stop_rows(count))


def patterns_of_two_stops(folder, n):
    """Trips of two stops each, no two of one pattern."""
    side = int(n**0.5) + 1

    def calls(i):
        return [(i // 2, i // 2, f"P{i % side}"), (359_999, 359_999, f"P{i // side}")]

    running(folder, n, calls, stop_rows(side))


def patterns_that_collide(folder, n):
    """The same, where all patterns fall into one bucket of line_split's hash."""
    stops, pairs = collisions.patterns(n)
    names = ["A", "B", "C", "D", *(f"P{i}" for i in range(stops - 4))]

    def calls(i):
        return [(i // 2, i // 2, names[pairs[i][0]]), (359_999, 359_999, names[pairs[i][1]])]

    running(folder, n, calls, stop_rows(max(0, stops - 4)))


def patterns_with_a_long_beginning(folder, n):
    """Trips of fifty stops that differ in the last one alone."""
    count = max(5, n // 16)

    def calls(i):
        alike = [(i // 2 + stop, i // 2 + stop, f"P{stop}") for stop in range(49)]
        return [*alike, (359_999, 359_999, f"P{49 + i}")]

    running(folder, count, calls, stop_rows(49 + count))


def patterns_that_go_on(folder, n):
    """Each trip has the stops of the one before it, and one more."""
    count = int((4 * n) ** 0.5)

    def calls(i):
        return [(stop, stop, f"P{stop}") for stop in range(i + 2)]

    running(folder, count, calls, stop_rows(count + 2))


def patterns_of_marks(folder, n):
    """Trips of twenty stops that differ in where one may board."""
    count = max(5, n // 6)

    def rows():
        for i in range(count):
            for place in range(20):
                mark = i >> place - 1 & 1 if place else 0
                time = clock(i + place)
                yield f"t{i},{time},{time},{'AB'[place % 2]},{place},{mark},1\n"

    smallest.make(folder, trips=(f"S,t{i}\n" for i in range(count)))
    smallest.write_rows(folder, "stop_times.txt", TIMES, rows())


OVERTAKING = (
    overtaking,
    overtaking_between,
    overtaking_with_equal_ends,
    overtaking_at_the_first_stop,
    overtaking_by_turns,
    overtaking_one_by_one,
    overtaking_seldom,
    overtaking_where_lines_end_late,
    random_between,
    random_throughout,
    random_on_long_trips,
    random_ends,
    two_classes,
    many_classes,
    staircase,
    falling_staircase,
    zigzag,
    overtaking_late_on_long_trips,
    overtaking_in_rings,
    overtaking_in_many_patterns,
)
SHAPES = (
    in_order,
    *OVERTAKING,
    patterns_of_two_stops,
    patterns_that_collide,
    patterns_with_a_long_beginning,
    patterns_that_go_on,
    patterns_of_marks,
)
