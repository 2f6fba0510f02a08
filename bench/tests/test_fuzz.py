"""Tests of the cases of the fuzzer, and of what the documents say, told again."""
import os
import tempfile
import unittest

from fuzzing.cases import COMMANDS, FEED_FILES, ByteMaker, Case, Maker, lay_out
from fuzzing.judging import Ended, Judge
from harness import BEST, DAY, FEEDS, SCRIPT
from said import answers, claims, feeds, replies, served, texts, words
from said.journeys import Options, Timetable


MATRIX = """from B
A 0/4 - - - - - - -
B 4/4 00:00:00 00:00:00 00:00:00 00:00:00 00:00:00 00:00:00 00:00:00
C 4/4 00:10:00 00:10:00 00:10:00 00:15:00 00:20:00 00:25:00 00:25:00
D 4/4 00:20:00 00:20:00 00:20:00 00:25:00 00:30:00 00:35:00 00:35:00
E 0/4 - - - - - - -

from X
unknown stop X

"""
TABLE = """from,to,reached,departures,least,p5,p25,p50,p75,p95,greatest
B,A,0,4,,,,,,,
B,B,4,4,0,0,0,0,0,0,0
B,C,4,4,600,600,600,900,1200,1500,1500
B,D,4,4,1200,1200,1200,1500,1800,2100,2100
B,E,0,4,,,,,,,
X,,,,,,,,,,
"""


class Cases(unittest.TestCase):
    def test_the_same_seed_makes_the_same_cases(self):
        one, other = ([Maker(seed).case(number) for number in range(50)] for seed in ("1", "1"))
        self.assertEqual(one, other)
        self.assertNotEqual(one, [Maker("2").case(number) for number in range(50)])

    def test_each_byte_in_each_file(self):
        maker, found = ByteMaker("1"), {}
        for target in range(0, maker.count, 256):
            case = maker.case(target + 255)
            lines = [*case.words, case.given, *case.files.values()]
            self.assertEqual(1, sum(b"\xff" in line for line in lines))
            command = next(word for word in case.words if word in map(str.encode, COMMANDS))
            found.setdefault(command.decode(), []).extend(
                name for name, data in case.files.items() if b"\xff" in data
            )
        for command in COMMANDS:
            self.assertEqual([f"f/{name}" for name in FEED_FILES], found[command][:7], command)
        others = sorted(name for names in found.values() for name in names[7:])
        self.assertEqual(["late"] * 3 + ["origins"], sorted(others, key=len))

    def test_each_case_can_be_laid_out(self):
        for number in range(200):
            with tempfile.TemporaryDirectory() as folder:
                lay_out(Maker("1").case(number), folder)


class Words(unittest.TestCase):
    def valid(self, line):
        return words.are_valid([word.encode() for word in line.split()])

    def test_a_command_line(self):
        self.assertTrue(self.valid("ask f 20260302 A D 08:00:00"))
        self.assertTrue(self.valid("--change=60 ask f --close 20260302 A --workers 2 D 8:00:00"))
        self.assertTrue(self.valid("--plain -- ask f 20260302 -A --close 8:00:00"))
        self.assertTrue(self.valid("serve a@b@20260302 f@20260303"))
        self.assertTrue(self.valid("build f 20240229 list"))
        self.assertTrue(self.valid("check f 20240229 --lenient --days=2"))

    def test_no_command_line(self):
        self.assertFalse(words.are_valid([]))
        self.assertFalse(words.are_valid([b"city", b"\xff"]))
        for line in (
            "ask f 20260229 A D 08:00:00",
            "ask f 20260302 A D 08:00",
            "--close --close ask f 20260302 A D 08:00:00",
            "--change ask f 20260302 A D 08:00:00",
            "--workers 65 city 2",
            "latest f 20260302 A D 76:00:00",
            "serve @20260302",
            "city 41",
            "check f",
            "check f 20260302 A",
            "--lenient=1 check f 20260302",
            "--help",
        ):
            self.assertFalse(self.valid(line), line)


class Texts(unittest.TestCase):
    def test_words_of_a_line(self):
        self.assertEqual(["a", 'b "c"', ""], texts.words_of(b' a\t"b ""c""" ""'))
        self.assertEqual([], texts.words_of(b"# x"))
        for line in (b'"a', b'"a"b', b"\xff", b"x" * 1025):
            self.assertIsNone(texts.words_of(line))

    def test_faults(self):
        self.assertIsNone(texts.script_fault(b"lane a\r\n\nsince 2 ask A B 8:00:00"))
        self.assertEqual("1 BadLine line 0", texts.script_fault(b""))
        self.assertEqual("1 BadLine line 1", texts.script_fault(b"ask A B 8:00:00\nlane a\n"))
        self.assertEqual("4 BadTime line 2", texts.script_fault(b"lane a\nask A B 8:00\n"))
        self.assertEqual("2 TooManyLanes line 65", texts.script_fault(b"lane a\n" * 65))
        self.assertIsNone(texts.late_fault(b"late T1 1 -120\nlate-before T1 0 60\ncancel T1"))
        self.assertIsNone(texts.late_fault(b"late T1 1 9 day-before\nskip day-before 2"))
        self.assertEqual("5 BadLine line 1", texts.late_fault(b"late-before T1 0 60 day-before"))
        self.assertEqual("5 BadLine line 2", texts.late_fault(b"\nlate T1 1 x\n"))
        self.assertIsNone(self.claim_fault(b"arrive 08:30:00 rides 1\nwalk A B 60\n"))
        self.assertEqual("1 BadLine line 1", self.claim_fault(b"walk A B 60\n"))

    def claim_fault(self, text):
        return texts.claim_fault(text, texts.worded(text))


class Feeds(unittest.TestCase):
    def fault_with(self, name, text):
        with tempfile.TemporaryDirectory() as folder:
            for it in os.listdir(os.path.join(FEEDS, "f1")):
                with open(os.path.join(FEEDS, "f1", it), "rb") as file:
                    data = text.encode() if it == name else file.read()
                with open(os.path.join(folder, it), "wb") as file:
                    file.write(data)
            try:
                feeds.check(folder, ".")
            except feeds.Fault as fault:
                return str(fault)

    def test_first_faults(self):
        self.assertIsNone(self.fault_with("", ""))
        self.assertEqual(
            "4 MissingColumn trips.txt row 1 column service_id", self.fault_with("trips.txt", "")
        )
        stops = 'stop_id\r\nA\r\n,\r\n"B"\r\nA\r\n'
        self.assertEqual(
            "10 DuplicateId stops.txt row 5 column stop_id", self.fault_with("stops.txt", stops)
        )

    def test_files_that_are_not_there(self):
        self.assertIsNone(feeds.bytes_of(os.path.join(FEEDS, "f1", "none.txt")))
        self.assertIsNone(feeds.bytes_of(FEEDS))
        with self.assertRaises(OSError):
            feeds.bytes_of(os.path.join(FEEDS, "f1\0"))

    def test_records(self):
        text = 'a,"b ""c"",d"e\n\n"x\ny",\r"'
        self.assertEqual([["a", 'b "c",de'], ["x\ny", ""], [""]], list(feeds.records(text)))


class Journeys(unittest.TestCase):
    def test_answers_of_the_example(self):
        timetable = Timetable(feeds.check(FEEDS, "f1"), DAY, Options())
        ends = ["A"], ["D"]
        values = [(8 * 3600 + 50 * 60, 1), (8 * 3600 + 30 * 60, 2)]
        self.assertEqual(values, timetable.values(*ends, 8 * 3600))
        self.assertEqual(values, replies.told("ask", BEST))
        self.assertEqual(values[0][0], timetable.direct(*ends, 8 * 3600))
        slots = [(8 * 3600 + 300, *values[0]), (8 * 3600, *values[1])]
        self.assertEqual(slots, timetable.slots(*ends, 7 * 3600, 8 * 3600 + 300))
        self.assertEqual([(8 * 3600 + 300, 1)], timetable.latest(*ends, values[0][0]))

    def test_delays(self):
        trips = Timetable(feeds.check(FEEDS, "f1"), DAY, Options()).trips
        self.assertEqual("1 UnknownTrip line 2", replies.amend(trips, b"#\nlate T9 0 1\n"))
        self.assertEqual("4 BadEvent line 1", replies.amend(trips, b"late T1 9 1\n"))
        self.assertEqual("2 TimeRunsBack line 1", replies.amend(trips, b"late T1 1 -9999\n"))
        self.assertIsNone(replies.amend(trips, b"late T1 1 120\nskip T1 0\ncancel T2"))
        boards = [[call.board for call in trip.calls] for trip in trips[:2]]
        self.assertEqual([[False, True, True], [False, False]], boards)


class Served(unittest.TestCase):
    def read(self, out):
        timetable = Timetable(feeds.check(FEEDS, "f1"), DAY, Options())
        items = [served.Item("f@1", True, timetable)]
        reader = served.Reader(out, items, lambda _, name: name in timetable.stops)
        reader.read(served.lanes_of(SCRIPT.encode()))

    def test_what_is_served(self):
        replies_of_lane = f"1 edition 1\n{BEST}2 edition 1\ndeferred 2\n"
        out = f"edition 1 f@1 trips 3 lines 3 kept 1\nlane a\n{replies_of_lane}"
        out += f"closing edition 1\nlane a\n{replies_of_lane}"
        self.read(out)
        for other in (out + "more\n", out.replace("08:30:00 rides", "08:31:00 rides"), out[:-11]):
            with self.assertRaises(served.Wrong):
                self.read(other)


class Claims(unittest.TestCase):
    def verdict(self, text, time=8 * 3600):
        timetable = Timetable(feeds.check(FEEDS, "f1"), DAY, Options())
        claim = claims.claim_of(timetable, texts.worded(text.encode()))
        if isinstance(claim, str):
            return claim
        return claims.verdict(timetable, claim, ["A"], ["D"], time)

    def test_verdicts(self):
        legs = "ride T1 A 08:00:00 B 08:10:00\nride T2 B 08:12:00 D 08:30:00\n"
        claim = f"arrive 08:30:00 rides 2\n{legs}"
        self.assertEqual("yes", self.verdict(claim))
        self.assertEqual("no TooEarly leg 0", self.verdict(claim, 8 * 3600 + 1))
        self.assertEqual("no Apart leg 2", self.verdict(claim + legs))
        self.assertEqual("no WrongEnd leg 0", self.verdict(claim[: claim.index("ride T2")]))
        self.assertEqual((8 * 3600 + 1800, 2), self.verdict(claim.replace("rides 2", "rides 3")))
        self.assertEqual("3 NoSuchRide line 2", self.verdict(claim.replace("T1", "T2")))
        self.assertEqual("2 UnknownStop line 3", self.verdict(claim.replace("D 08", "Z 08")))


class Judging(unittest.TestCase):
    def wrong(self, status, out, err):
        words = b"ask f 20260302 A D 08:00:00".split()
        files = {f"f/{name}": data for name, data in Maker("1").feeds[0].items()}
        with tempfile.TemporaryDirectory() as folder:
            case = Case(words, files, b"")
            lay_out(case, folder)
            return Judge(case, folder).wrong(Ended(status, out, err, 0.01))

    def matrix(self, out, *options):
        words = [*options, "matrix", f"{FEEDS}/f1", DAY, "-", "07:55:00", "08:10:00", "300"]
        with tempfile.TemporaryDirectory() as folder:
            case = Case([word.encode() for word in words], {}, b"B\nX\n")
            lay_out(case, folder)
            return Judge(case, folder).wrong(Ended(0, out, "", 0.01))

    def test_a_matrix(self):
        self.assertIsNone(self.matrix(MATRIX))
        self.assertIsNotNone(self.matrix(MATRIX.replace("00:25:00", "00:25:01")))
        self.assertIsNotNone(self.matrix(MATRIX.replace("from X\nunknown stop X\n\n", "")))
        self.assertIsNone(self.matrix(TABLE, "--csv"))
        self.assertIsNotNone(self.matrix(TABLE.replace("1500", "1501"), "--csv"))
        self.assertIsNotNone(self.matrix(TABLE))

    def test_what_may_come(self):
        self.assertIsNone(self.wrong(0, BEST, ""))
        for status, out, err in (
            ("SIGSEGV", "", ""),
            (0, "no journey\n", ""),
            (0, BEST[:-1], ""),
            (0, BEST, "more\n"),
            (3, "", "router: feed refused: 18 OpenFootpaths A B C\n"),
            (1, "", ""),
            (2, "", f"{answers.USAGE}\n"),
            (3, "", "router: feed refused: 1 MissingFile stops.txt\n"),
            (3, "x", "router: feed refused: 18 OpenFootpaths A B C\n"),
            (6, "", "router: out of memory\n"),
            (0, "arrive 09:00:00 rides 1\narrive 09:00:00 rides 2\n", ""),
        ):
            self.assertIsNotNone(self.wrong(status, out, err), (status, out, err))


if __name__ == "__main__":
    unittest.main()
