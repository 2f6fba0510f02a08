"""Tests of times, of the lines that ask, and of what is read from replies."""
import unittest

from . import stand_in
from yuccadarts import Ask, FeedRefused, Latest, Profile, Reach, TravelTimes, clock, seconds
from yuccadarts import Cancellation, Delay, SkippedEvent
from yuccadarts import Times as Travel
from yuccadarts.answers import read_travel_times


class Times(unittest.TestCase):
    def test_there_and_back(self):
        for text, secs in (("00:00:00", 0), ("08:05:09", 29_109), ("99:59:59", 359_999)):
            self.assertEqual(secs, seconds(text))
            self.assertEqual(text, clock(secs))
        self.assertEqual("08:00:00", clock("8:00:00"))
        self.assertEqual("-00:10:05", clock(-605))
        self.assertEqual(7, seconds(7))
        with self.assertRaises(TypeError):
            seconds(7.5)

    def test_integers_of_other_kinds(self):
        class Seven:
            def __index__(self):
                return 7

        self.assertEqual("00:00:07", clock(Seven()))

    def test_no_times(self):
        for text in ("", "8:00", "08:60:00", "108:00:00", "08:00:00 ", "٠٨:00:00"):
            with self.assertRaises(ValueError):
                seconds(text)


class Replies(unittest.TestCase):
    def test_the_earliest_arrivals(self):
        values = [["D", [["", 90, 1], ["", 70, 2]]], ["E", []]]
        found = read_travel_times(Reach("A", 60), 60, {"edition": 3, "values": values})
        self.assertEqual(TravelTimes("A", 3, {"D": 10}), found)

    def test_faults(self):
        fault = FeedRefused({"number": 18, "name": "OpenFootpaths", "stops": ["A", "B b", "C"]})
        self.assertEqual("18 OpenFootpaths A B b C", str(fault))
        self.assertEqual(("A", "B b", "C"), fault.stops)
        self.assertIsNone(fault.file)
        fault = FeedRefused({"number": 20, "name": "TooMany", "quantity": "stops", "row": 100_002})
        self.assertEqual("20 TooMany stops row 100002", str(fault))
        self.assertEqual(("stops", 100_002, ()), (fault.quantity, fault.row, fault.stops))


class Lines(unittest.TestCase):
    def test_of_each_question(self):
        self.assertEqual("ask A D 08:00:00", Ask("A", "D", "8:00:00").line())
        self.assertEqual("profile A D 08:00:00 09:00:00", Profile("A", "D", 28_800, 32_400).line())
        self.assertEqual("latest A D 08:00:00", Latest("A", "D", 28_800).line())
        self.assertEqual("reach A 08:00:00", Reach("A", 28_800).line())
        times = Travel("A", "8:00:00", 30_000, 60)
        self.assertEqual("times A 08:00:00 08:20:00 60", times.line())
        times = Travel("A", "8:00:00", 30_000, 60, rides=0)
        self.assertEqual("times A 08:00:00 08:20:00 60 rides 0", times.line())
        with self.assertRaises(ValueError):
            Travel("A", 0, 1, 7.5).line()

    def test_of_each_update(self):
        for update, text in (
            (Delay("T 1", 0, -60), 'late "T 1" 0 -60'),
            (Delay("T1#08:00:00", 2, 60, day=-1), "late T1#08:00:00 2 60 day-before"),
            (Cancellation('"'), 'cancel """"'),
            (Cancellation("T1", day=1), "cancel T1 day-after"),
            (SkippedEvent("T1", 3), "skip T1 3"),
            (SkippedEvent("T1", 3, day=2), "skip T1 3 day+2"),
        ):
            self.assertEqual(text, update.line())

    def test_words_come_back(self):
        for word in ("A", "", "#", 'a "b"', "a\tb", '"', "a  b", "é\\n", "a\rb", "'"):
            said = Reach(word, 0).line()
            self.assertEqual(["reach", word, "00:00:00"], stand_in.words_of(said), said)

    def test_words_that_no_line_can_have(self):
        for word in ("a\nb", "\udc80"):
            with self.assertRaises(ValueError):
                Ask("A", word, 0).line()
