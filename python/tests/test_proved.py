"""Tests over the proved program, where it is there: answers that are worked out by hand, and what
the commands find in processes of their own.
"""
import csv
import itertools
import os
import random
import shutil
import subprocess
import sys
import tempfile
import unittest
from importlib.util import find_spec
from pathlib import Path

from . import HERE, TOP
from .proved import DAY, EXAMPLES, IS_THERE, PROGRAM, add_coordinates, commanded, make_network
from yuccadarts import (
    Ask,
    Choice,
    Delay,
    Departure,
    FeedRefused,
    Latest,
    LineRefused,
    Offer,
    ProcessEnded,
    Profile,
    Reach,
    Reached,
    Ride,
    Router,
    Spread,
    Times,
    TravelTimes,
    UnknownStop,
    Value,
)
from yuccadarts.isochrone import isochrone
from yuccadarts.stops import read_stops

sys.path.insert(0, str(TOP / "bench"))
T3 = (Ride("T3", "A", 29_100, "D", 31_800, 0),)
T1_T2 = (Ride("T1", "A", 28_800, "B", 29_400, 0), Ride("T2", "B", 29_520, "D", 30_600, 0))
HOUR = 3_600
DAY_AFTER = "20260303"


def router(feed=EXAMPLES / "f1", **options):
    return Router(feed, DAY, program=PROGRAM, **options)


@unittest.skipUnless(IS_THERE, "the proved program isn't there")
class Examples(unittest.TestCase):
    def test_those_of_the_documents(self):
        with router(change=0, close=False, mirror=True) as it:
            ask = it.ask("A", "D", "08:00:00")
            self.assertEqual((Choice(31_800, 1, T3), Choice(30_600, 2, T1_T2)), ask.values)
            profile = it.profile("A", "D", "07:00:00", "08:05:00")
            offers = Offer(29_100, 31_800, 1, T3), Offer(28_800, 30_600, 2, T1_T2)
            self.assertEqual(offers, profile.values)
            latest = it.latest("A", "D", "08:50:00")
            self.assertEqual((Departure(29_100, 1, T3),), latest.values)
            reach = it.reach("A", "08:00:00")
            best = Value(31_800, 1), Value(30_600, 2)
            self.assertEqual(Reached("D", best), reached(reach, "D"))
            self.assertEqual(Reached("E", ()), reached(reach, "E"))
            times = it.times("A", "07:55:00", "08:10:00", 300)
            spread = Spread("D", 3, 4, 1_800, 1_800, 1_800, 2_100, 2_700, None, None)
            self.assertEqual(spread, reached(times, "D"))
            direct = it.times("A", "07:55:00", "08:10:00", 300, rides=1)
            spread = Spread("D", 3, 4, 2_700, 2_700, 2_700, 3_000, 3_300, None, None)
            self.assertEqual(spread, reached(direct, "D"))
            cells = [*it.matrix(["A", "E"], "07:55:00", "08:10:00", 300)]
            self.assertEqual([*"ABCDEABCDE"], [cell.stop for cell in cells])
            self.assertEqual([4, 2, 2, 3, 0, 0, 0, 0, 0, 4], [cell.reached for cell in cells])
            times = {"A": 0, "B": 600, "C": 1_200, "D": 1_800}
            self.assertEqual([TravelTimes("A", 1, times)], [*it.travel_times(["A"], "08:00:00")])
            self.assertEqual(1, it.first_edition.number)
            self.assertEqual(3, it.first_edition.trips)

    def test_what_is_refused(self):
        with router() as it:
            with self.assertRaises(UnknownStop):
                it.ask("A", 'no "stop"', 0)
            with self.assertRaises(LineRefused) as line:
                it.ask("A" * 1_100, "D", 0)
            self.assertEqual("BadLine", line.exception.name)
            with self.assertRaises(LineRefused) as line:
                it.ask("A", "D", 360_000)
            self.assertEqual(1, it.ask("A", "D", 0).edition)
        with self.assertRaises(FeedRefused) as refused:
            router(EXAMPLES)
        self.assertEqual((1, "MissingFile"), (refused.exception.number, refused.exception.name))
        self.assertEqual("stops.txt", refused.exception.file)
        with self.assertRaises(ProcessEnded) as ended:
            router(lanes=65)
        self.assertEqual(2, ended.exception.status)

    def test_editions(self):
        with router() as it:
            self.assertEqual(1, it.ask("A", "D", "08:00:00").edition)
            valley = it.publish(EXAMPLES / "valley", DAY)
            self.assertEqual(2, valley.wait(20).number)
            with self.assertRaises(UnknownStop) as unknown:
                it.ask("A", "D", "08:00:00")
            self.assertEqual(2, unknown.exception.edition)
            with self.assertRaises(FeedRefused):
                it.publish(EXAMPLES, DAY).wait(20)
            self.assertEqual(2, it.ask("Mill", "Pier", "08:00:00").edition)

    def test_folders_that_need_quotes(self):
        for name in ('a "b"', "# é\\n", " ", "a@20260304", "-x", "late:x"):
            with tempfile.TemporaryDirectory() as folder:
                feed = shutil.copytree(EXAMPLES / "f1", Path(folder, name))
                with router(feed) as it:
                    self.assertEqual(2, it.publish(feed, DAY).wait(20).number)
                    self.assertEqual(2, it.ask("A", "D", "08:00:00").edition)

    def test_names_that_need_quotes(self):
        names = ['a "b"', "# c", "t\tab", "\u00e9\\n", "-x", "it's", "x,y", "--close", '""']
        calls = [(name, f"08:{at:02}:00", at) for at, name in enumerate(names)]
        with tempfile.TemporaryDirectory() as folder:
            write_rows(folder, "stops.txt", ["stop_id"], *([name] for name in names))
            write_rows(folder, "trips.txt", ["service_id", "trip_id"], ["S", 'T "1"'])
            columns = ["service_id", "date", "exception_type"]
            write_rows(folder, "calendar_dates.txt", columns, ["S", DAY, "1"])
            columns = ["trip_id", "stop_id", "arrival_time", "departure_time", "stop_sequence"]
            rows = (['T "1"', name, time, time, at] for name, time, at in calls)
            write_rows(folder, "stop_times.txt", columns, *rows)
            with router(folder) as it:
                for origin, destination in itertools.combinations(calls, 2):
                    (choice,) = it.ask(origin[0], destination[0], "08:00:00").values
                    leave, arrive = 8 * HOUR + 60 * origin[2], 8 * HOUR + 60 * destination[2]
                    ride = Ride('T "1"', origin[0], leave, destination[0], arrive, 0)
                    self.assertEqual(Choice(arrive, 1, (ride,)), choice)

    def test_journeys_over_midnight(self):
        """A late trip of the date, and a first trip of the day after."""
        night = Ride("L", "A", 85_200, "B", 86_100, 0), Ride("F", "B", 87_000, "D", 88_800, 1)
        with tempfile.TemporaryDirectory() as folder:
            make_night(folder)
            with router(folder, mirror=True) as it:
                self.assertEqual((), it.ask("A", "D", "23:30:00").values)
                self.assertEqual(Reached("D", ()), reached(it.reach("A", "23:30:00"), "D"))
            with router(folder, days=2, mirror=True) as it:
                (choice,) = it.ask("A", "D", "23:30:00").values
                self.assertEqual(Choice(88_800, 2, night), choice)
                (offer,) = it.profile("A", "D", "23:00:00", "23:59:59").values
                self.assertEqual(Offer(85_200, 88_800, 2, night), offer)
                (departure,) = it.latest("A", "D", "24:40:00").values
                self.assertEqual(Departure(85_200, 2, night), departure)
                reach = it.reach("A", "23:30:00")
                self.assertEqual(Reached("D", (Value(88_800, 2),)), reached(reach, "D"))
                times = {"A": 0, "B": 1_500, "D": 4_200}
                found = [*it.travel_times(["A"], "23:30:00")]
                self.assertEqual([TravelTimes("A", 1, times)], found)
                self.assertEqual(2, it.delays([Delay("F", 0, 300, day=1)]).wait(20).touched)
                (choice,) = it.ask("A", "D", "23:30:00").values
                self.assertEqual(89_100, choice.arrival)

    def test_the_lines_of_the_readme(self):
        """At the top of the clone, with this program, and without the table where pandas isn't."""
        readme = (HERE.parent / "README.md").read_text(encoding="utf-8")
        _, block, _, printed, *_ = readme.split("```")
        lines, table = block.removeprefix("python\n").split("import pandas")
        self.assertIn('program="./router"', lines)
        lines = lines.replace('"./router"', repr(str(PROGRAM)))
        wanted = printed.strip().splitlines()
        if find_spec("pandas"):
            lines += f"import pandas{table}"
        else:
            wanted = wanted[:2]
        env = os.environ | {"PYTHONPATH": str(HERE.parent / "src")}
        words = [sys.executable, "-c", lines]
        ended = subprocess.run(words, cwd=TOP, env=env, capture_output=True, text=True)
        self.assertEqual((0, ""), (ended.returncode, ended.stderr))
        self.assertEqual(wanted, ended.stdout.splitlines())


def make_night(folder):
    """Writes a feed: L runs from A to B before midnight on DAY, F from B to D after it."""
    write_rows(folder, "stops.txt", ["stop_id"], ["A"], ["B"], ["D"])
    write_rows(folder, "trips.txt", ["service_id", "trip_id"], ["S", "L"], ["T", "F"])
    columns = ["service_id", "date", "exception_type"]
    write_rows(folder, "calendar_dates.txt", columns, ["S", DAY, "1"], ["T", DAY_AFTER, "1"])
    late, first = [("A", "23:40:00"), ("B", "23:55:00")], [("B", "0:10:00"), ("D", "0:40:00")]
    columns = ["trip_id", "stop_id", "arrival_time", "departure_time", "stop_sequence"]
    rows = (
        [trip, stop, time, time, at]
        for trip, calls in (("L", late), ("F", first))
        for at, (stop, time) in enumerate(calls)
    )
    write_rows(folder, "stop_times.txt", columns, *rows)


def write_rows(folder, name, *rows):
    with open(Path(folder, name), "w", encoding="utf-8", newline="") as file:
        csv.writer(file).writerows(rows)


def reached(answer, stop):
    return next(each for each in answer if each.stop == stop)


@unittest.skipUnless(IS_THERE, "the proved program isn't there")
class Commands(unittest.TestCase):
    """What the package gives is what the commands find."""

    def hold(self, feed, asked, *options, **given):
        with router(feed, mirror=True, **given) as it:
            for question, answer in zip(asked, it.answers(asked)):
                self.assertEqual(commanded(feed, question, *options), answer.values, question)

    def test_small_feeds_by_chance(self):
        from fuzzing import made

        for seed in range(12):
            drawn = random.Random(seed)
            with tempfile.TemporaryDirectory() as folder:
                for name, data in made.feed(drawn).items():
                    Path(folder, name).write_bytes(data)
                stops = [*read_stops(folder)]
                asked = []
                for _ in range(2):
                    ends = drawn.choices(stops, k=2)
                    first, last = sorted(drawn.randrange(5 * HOUR, 10 * HOUR) for _ in "12")
                    asked += [Ask(*ends, first), Profile(*ends, first, last)]
                    asked += [Latest(*ends, last), Reach(ends[0], first)]
                    step, rides = drawn.randrange(60, 900), drawn.choice((None, 0, 1, 2))
                    asked.append(Times(ends[0], first, last, step, rides))
                days = 1 + seed % 3
                options = "--close", "--change=60", f"--days={days}"
                self.hold(folder, asked, *options, change=60, days=days)

    def test_a_made_network(self):
        with tempfile.TemporaryDirectory() as folder:
            make_network(folder, 20)
            add_coordinates(folder)
            stops = read_stops(folder)
            stations = [stop.id for stop in stops.values() if stop.is_station]
            drawn = random.Random(1)
            ends = [drawn.sample(stations, 2) for _ in range(5)]
            asked = [Ask(*pair, 8 * HOUR) for pair in ends]
            asked += [Profile(*pair, 8 * HOUR, 9 * HOUR) for pair in ends]
            asked += [Latest(*pair, 18 * HOUR) for pair in ends]
            asked += [Reach(pair[0], 8 * HOUR) for pair in ends]
            asked += [Times(pair[0], 8 * HOUR, 9 * HOUR, 300) for pair in ends]
            self.hold(folder, asked, "--close", "--change=120")
            with router(folder) as it:
                found = isochrone(it, stops, stations[0], 8 * HOUR, with_journeys=True)
            for place in found.places:
                journeys = tuple(Value(it.arrival, it.rides) for it in place.journeys)
                self.assertEqual(place.values, journeys, place.stop)
