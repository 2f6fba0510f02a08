"""Tests of the client of `live`: with a stand-in, and with the proved program where it is built."""
import os
import sys
import tempfile
import unittest

from commands import live
from harness import BEST, DAY, BenchError, example, router
from living import Living
from said import lived, served

# Says that a day is published, and answers each line with words in the form that `live` has; tells
# of one more day ahead of the reply behind `publish`.
STAND_IN = """
import sys
print("edition 1 d", flush=True)
told = number = 0
for line in sys.stdin:
    print("edition 2 d\\n" * told, end="")
    told = line.startswith("publish")
    number += 1
    print(number, "queued" if told else "edition 1\\n" + line.strip(), end="\\n\\n", flush=True)
print("refused e 1 MissingFile stops.txt")
"""


class Nowhere:
    """A timetable without trips."""

    trips, stops = [], ["A"]

    def place(self, name):
        return [name]

    def values(self, *_):
        return []

    slots = latest = values


def has_program():
    try:
        return bool(router())
    except BenchError:
        return False


class Clients(unittest.TestCase):
    def test_replies_and_news(self):
        with Living(sys.executable, ["-c", STAND_IN]) as process:
            process.start()
            self.assertEqual(["1 edition 1", "a"], process.ask("a"))
            self.assertEqual(["2 queued"], process.ask("publish d"))
            self.assertEqual(["edition 1 d"], process.news)
            self.assertEqual(["3 edition 1", "b"], process.ask("b"))
            self.assertLess(0, process.timed("c"))
        self.assertEqual(0, process.status)
        news = ["edition 1 d", "edition 2 d", "refused e 1 MissingFile stops.txt"]
        self.assertEqual(news, process.news)

    def test_an_end_before_its_time(self):
        with self.assertRaisesRegex(BenchError, "has ended"):
            with Living(sys.executable, ["-c", ""]) as process:
                process.start()

    @unittest.skipUnless(has_program(), "the proved program isn't built")
    def test_the_program(self):
        with tempfile.TemporaryDirectory() as folder:
            day = f"{example(folder)}@{DAY}"
            with Living(router(), ["live", day]) as process:
                process.start()
                self.assertEqual([f"edition 1 {day} trips 3 lines 3 kept 1"], process.news)
                best = process.ask("ask A D 08:00:00")
                self.assertEqual(["1 edition 1", *BEST.splitlines()], best)
                self.assertEqual(["2 bad line"], process.ask("ask A D"))
                self.assertEqual(["3 queued"], process.ask(f"publish {day}"))
                process.send("# a comment\n")
                reply = process.ask("since 3 ask A D 08:00:00")
                self.assertRegex("\n".join(reply), "^4 edition [12]\ndeferred 3$")
                while len(process.news) < 2:
                    process.ask("reach A 08:00:00")
                self.assertRegex(process.ask("latest A D 08:50:00")[0], "bad line$")
                os.rename(os.path.join(folder, "f1"), os.path.join(folder, "f2"))
                self.assertRegex(process.ask(f"publish {day}")[0], "queued$")
            self.assertEqual(0, process.status)
            became = [f"edition 2 {day} trips 3 lines 3 kept 1"]
            became.append(f"refused {day} 1 MissingFile stops.txt")
            self.assertEqual(became, process.news[1:])


class Cells(unittest.TestCase):
    def test_of_seconds(self):
        self.assertEqual(["51.00", "100.00", "100.00"], live.shown(i / 1000 for i in range(1, 101)))

    def test_a_script_dealt_out(self):
        script = b"lane lane0\na\nc\nlane lane1\nb\n"
        self.assertEqual(script, live.script_of(2, ["a", "b", "c"]))


class Judged(unittest.TestCase):
    ITEMS = [
        served.Item("d", True, Nowhere()),
        served.Item("e", True, fault="1 MissingFile stops.txt"),
        served.Item("late:f", False, Nowhere()),
    ]
    GIVEN = b"ask A A 08:00:00\n# x\nlatest A A 08:00:00\n\nlate f\nsince 3 reach A 8\n"
    BEGIN = "edition 1 d trips 0 lines 0 kept 0\n1 edition 1\nno journey\n\n"
    END = "3 queued\n\nrefused e 1 MissingFile stops.txt\n4 bad time\n\n"
    LAST = "edition 2 late:f touched 0 kept 0\n"

    def judge(self, out, is_mirrored=False):
        reader = lived.Reader(out, self.ITEMS, lambda edition, name: True)
        reader.read_all(lived.lines_of(self.GIVEN), is_mirrored)

    def test_what_may_come(self):
        self.judge(f"{self.BEGIN}2 bad line\n\n{self.END}{self.LAST}")
        self.judge(f"{self.BEGIN}2 edition 1\nno journey\n\n{self.END}{self.LAST}", True)

    def test_what_may_not(self):
        bad = (
            f"{self.BEGIN}{self.END}{self.LAST}",
            f"{self.BEGIN}2 edition 1\nno journey\n\n{self.END}{self.LAST}",
            f"{self.BEGIN}2 bad line\n\n{self.END}",
            f"{self.BEGIN}2 bad line\n\n{self.LAST}{self.END}",
            f"{self.BEGIN}2 bad line\n\n{self.END}{self.LAST}{self.LAST}",
        )
        for out in bad:
            with self.assertRaises(served.Wrong):
                self.judge(out)
