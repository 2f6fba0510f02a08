"""Tests of what the fuzzer takes for right of `check` and `--lenient`: the cases that were worked
out by hand are, and others aren't.
"""
import os
import tempfile
import unittest

from fuzzing.agreeing import disagreement, words_beside
from fuzzing.cases import Case, lay_out
from fuzzing.judging import Ended, Judge
from harness import DAY, FEEDS, example
from said import checks, feeds, left, warned, words
from tests import worked

UNKNOWN = "11 UnknownStop stop_times.txt row 3 column stop_id"
LAW = "18 OpenFootpaths A B C"
NONE = "warnings 0\n"


def questions():
    """The questions of the cases of what is left out, but for those with `--json`."""
    return [it for it in worked.questions("left_out", "left_kinds", "left_alone") if "--json" not in it.words]


class WorkedOut(unittest.TestCase):
    def test_what_the_cases_say(self):
        for it in questions():
            with self.subTest(it.title, words=it.words):
                self.assertIsNone(it.judged())

    def test_something_else(self):
        for it in questions():
            others = [{"status": 0 if it.status else 10}, {"err": f"{it.err}more\n"}]
            others += [{"out": it.out[it.out.index("\n") + 1 :]}] if it.out else []
            others += [{"err": ""}] if it.err else []
            for other in others:
                with self.subTest(it.title, words=it.words, other=other):
                    self.assertIsNotNone(it.judged(**other))

    def test_other_faults_of_a_check(self):
        found = [it for it in questions() if it.status == 10]
        self.assertTrue(found)
        for it in found:
            faults, warnings = checks.parted(it.out)
            lines = faults.splitlines(keepends=True)
            count = len(lines) - 1
            fewer = [*lines[1:-1], f"faults {count - 1}\n"]
            more = [*lines[:-1], f"{UNKNOWN}9\n", f"faults {count + 1}\n"]
            for other in (fewer, more, lines[:-1], [*lines[:-1], f"faults {count + 1}\n"]):
                with self.subTest(it.title, other=other):
                    self.assertIsNotNone(it.judged(out="".join([*other, warnings])))

    def test_other_warnings(self):
        found = [it for it in questions() if "check" in it.words and it.out]
        for it in found:
            faults, warnings = checks.parted(it.out)
            lines = warnings.splitlines(keepends=True)
            count = len(lines) - 1
            more = [*lines[:-1], "warning NoTrips\n", f"warnings {count + 1}\n"]
            others = [more, lines[:-1], [*lines[:-1], f"warnings {count + 1}\n"]]
            others += [[*lines[1:-1], f"warnings {count - 1}\n"]] if count else []
            for other in others:
                with self.subTest(it.title, other=other):
                    self.assertIsNotNone(it.judged(out="".join([faults, *other])))


class Feeds(unittest.TestCase):
    def test_what_is_left(self):
        with tempfile.TemporaryDirectory() as folder:
            feed = example(folder)
            with open(os.path.join(feed, "stops.txt"), "w", encoding="ascii") as file:
                file.write("stop_id,location_type\nA,\nB,7\nC,\nD,\n")
            with open(os.path.join(feed, "frequencies.txt"), "w", encoding="ascii") as file:
                file.write("trip_id,start_time,end_time,headway_secs\nT3,x,9:00:00,60\n")
            told, found, fault = left.left_of(folder, "f1")
            self.assertEqual([8, 11, 11, 6], [it.number for it in told])
            self.assertIsNone(fault)
            self.assertEqual(["A", "C", "D"], list(found.stops))
            self.assertEqual([0, 0, 2], [len(found.calls[trip]) for trip in ("T1", "T2", "T3")])
            self.assertEqual([["T3", "0:00:00", "0:00:00", "1", ""]], found.frequencies)
            self.assertEqual(8, left.whole(folder, "f1").fault.number)

    def test_a_feed_without_a_fault_stays_as_it_is(self):
        self.assertEqual(left.whole(FEEDS, "f1"), left.left_of(FEEDS, "f1"))
        self.assertEqual(feeds.check(FEEDS, "f1"), left.left_of(FEEDS, "f1").feed)


class Texts(unittest.TestCase):
    def test_a_check(self):
        faults = [UNKNOWN, "1 MissingFile trips.txt"]
        self.assertEqual(f"{UNKNOWN}\n1 MissingFile trips.txt\nfaults 2\n", checks.text_of(faults))
        self.assertEqual(faults, checks.told_in(checks.text_of(faults) + NONE))
        self.assertEqual("faults 0\n", checks.text_of([]))
        self.assertEqual([], checks.told_in(f"faults 0\n{NONE}"))

    def test_more_than_are_told(self):
        rows = range(2, 10_005)
        times = [f"6 BadTime stop_times.txt row {row} column arrival_time" for row in rows]
        text = checks.text_of([*times, *[UNKNOWN] * 10_002, LAW])
        sixes, elevens = "and 3 more of number 6\n", "and 2 more of number 11\n"
        self.assertEqual(f"{LAW}\n{sixes}{elevens}faults 20006\n", text[text.index(LAW) :])
        self.assertTrue([*times[:-3], *[UNKNOWN] * 10_000, LAW] == checks.told_in(text + NONE))
        for one, other in (
            ("and 3 more", "and 2 more"),
            (elevens, ""),
            ("number 6\n", "number 5\n"),
            (sixes + elevens, elevens + sixes),
            (f"{UNKNOWN}\n{LAW}", f"{UNKNOWN}\n{UNKNOWN}\n{LAW}"),
        ):
            changed = text.replace(one, other) + NONE
            self.assertTrue(checks.told_in(changed) is None, (one, other))

    def test_no_check(self):
        for text in (
            "",
            "\n",
            "faults 1\n",
            "faults 0",
            "faults 0\n\n",
            f"{UNKNOWN}\nfaults 2\n",
            f"{UNKNOWN}\n",
            "11 UnknownStop stop_times.txt row 3 column trip\nfaults 1\n",
            f"{UNKNOWN}\nand 1 more of number 11\nfaults 2\n",
        ):
            self.assertIsNone(checks.told_in(text + NONE), text)

    def test_warnings(self):
        stops = [f"UnservedStop stops.txt row {row}" for row in range(2, 10_005)]
        text = warned.text_of(["NoTrips", *stops, "LongHeadway frequencies.txt row 2"])
        more = "and 3 more of UnservedStop\n"
        self.assertIn(f"row 10001\n{more}warning LongHeadway", text)
        self.assertTrue(text.startswith("warning NoTrips\nwarning UnservedStop stops.txt row 2\n"))
        self.assertTrue(text.endswith("row 2\nwarnings 10005\n"))
        self.assertTrue(warned.has_form(text))
        for wrong in (
            text.replace(more, ""),
            text.replace("row 3\n", "row 3\nwarning UnservedStop stops.txt row 3\n"),
            "warnings 1\n",
            "warnings 0",
            "warning UnservedStop trips.txt row 2\nwarnings 1\n",
            "warning NoTrips row 2\nwarnings 1\n",
            "warning No\nwarnings 1\n",
            "and 1 more of NoTrips\nwarnings 1\n",
        ):
            self.assertFalse(warned.has_form(wrong), wrong[:60])
        closing = "warning Closing added 1 lowered 0\nwarnings 1\n"
        self.assertTrue(warned.is_right(closing, [None]))
        self.assertTrue(warned.is_right("warnings 0\n", [None]))
        self.assertFalse(warned.is_right(closing, []))

    def test_what_is_left_out(self):
        self.assertEqual("", checks.left_out([]))
        line = "router: left out trips for 1 row of stop_times.txt (see check)\n"
        self.assertEqual(line, checks.left_out([UNKNOWN]))
        stops = ["9 EmptyId stops.txt row 2 column stop_id"] * 2
        parts = "2 rows of stops.txt, trips for 1 row of stop_times.txt"
        line = f"router: left out {parts} (see check)\n"
        self.assertEqual(line, checks.left_out([UNKNOWN, *stops]))


class Agreeing(unittest.TestCase):
    def beside(self, line):
        found = words_beside([word.encode() for word in line.split()])
        return found and [b" ".join(words).decode() for words in found]

    def test_words_beside(self):
        check, strict = self.beside("--days 2 ask --lenient f 20260302 A --close D 8:00:00")
        self.assertEqual("--days=2 --close -- check f 20260302", check)
        self.assertEqual("--days=2 --close -- ask f 20260302 A D 8:00:00", strict)
        for line in (check, strict, "--lenient -- late f 20260302 -x A D 8:00:00"):
            self.assertTrue(words.are_valid([word.encode() for word in line.split()]), line)
        for line in (
            "ask f 20260302 A D 8:00:00",
            "ask -- f 20260302 A --lenient 8:00:00",
            "--lenient serve f@20260302",
            "--lenient check f 20260302",
            "--lenient city 2",
            "--lenient --lenient ask f 20260302 A D 8:00:00",
        ):
            self.assertIsNone(self.beside(line), line)

    def wrong(self, lenient, check, strict):
        return disagreement(*(Ended(*it, 0.01) for it in (lenient, check, strict)))

    def test_runs_beside_each_other(self):
        out = "no journey\n"
        line = "router: left out trips for 1 row of stop_times.txt (see check)\n"
        strict = 3, "", f"router: feed refused: {UNKNOWN}\n"
        check = 10, checks.text_of([UNKNOWN]) + NONE, ""
        ended = 10, checks.text_of([UNKNOWN, LAW]) + NONE, ""
        refused = 3, "", f"router: feed refused: {LAW}\n"
        whole = 0, checks.text_of([]) + NONE, ""
        for right in (
            ((0, out, ""), whole, (0, out, "")),
            ((0, out, line), check, strict),
            (refused, ended, strict),
            (refused, (10, checks.text_of([LAW]) + NONE, ""), refused),
            ((9, "", "router: journey refused: 4 TooLong\n"), check, strict),
            ((4, "", "router: read fault\n"),) * 3,
        ):
            self.assertIsNone(self.wrong(*right), right)
        for wrong in (
            ((0, out, ""), whole, (0, "yes\n", "")),
            ((0, out, line), whole, (0, out, "")),
            ((0, out, ""), check, strict),
            ((0, out, line.replace("1 row", "2 rows")), check, strict),
            ((0, out, line), check, (0, out, "")),
            (strict, check, strict),
            ((0, out, line), ended, strict),
            (strict, ended, strict),
            ((0, out, line), (4, "", "router: read fault\n"), strict),
        ):
            self.assertIsNotNone(self.wrong(*wrong), wrong)


if __name__ == "__main__":
    unittest.main()
