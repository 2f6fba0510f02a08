"""Tests of what the fuzzer takes for right of `--json`: the cases that were worked out by hand are,
and others aren't.
"""
import unittest

from said import jsons, texts
from tests import worked

NAMES = ("json", "left_out", "left_kinds", "matrix", "live", "times")
CLAIM = b"""arrive 08:30:00 rides 2

walk A "B ""1""\" 60
ride T B 08:12:00 D 08:30:00 day-after
"""
JSON = (
    '{"arrive": "08:30:00", "rides": 2, "legs": ['
    '{"from": "A", "to": "B \\"1\\"", "seconds": 60}, '
    '{"trip": "T", "from": "B", "departure": "08:12:00", "to": "D", "arrival": "08:30:00", '
    '"day": 1}]}'
)


def questions():
    return [it for it in worked.questions(*NAMES) if "--json" in it.words]


class WorkedOut(unittest.TestCase):
    def test_what_the_cases_say(self):
        found = questions()
        self.assertGreater(len(found), 90)
        for it in found:
            with self.subTest(it.title, words=it.words):
                self.assertIsNone(it.judged())

    def test_something_else(self):
        for it in questions():
            # a name with a line feed may be anything in a text
            if any(b'"x\ny"' in data for data in it.files.values()):
                continue
            others = [{"status": 0 if it.status else 10}, {"err": f"{it.err}{{}}\n"}]
            others += [{"out": it.out[it.out.index("\n") + 1 :]}] if it.out else []
            others += [{"err": ""}] if it.err else []
            for kind, text in (("out", it.out), ("err", it.err)):
                others += [{kind: text.replace('":', '": ', 1)}] if '":' in text else []
            for other in others:
                with self.subTest(it.title, words=it.words, other=other):
                    self.assertIsNotNone(it.judged(**other))


class Texts(unittest.TestCase):
    def test_who_asks(self):
        for line, right in (
            ("--json ask f", True),
            ("ask f --json", True),
            ("--change --json ask f", True),
            ("ask -- --json", False),
            ("ask f", False),
        ):
            self.assertEqual(right, jsons.asks_json([word.encode() for word in line.split()]), line)
        self.assertTrue(jsons.asks_json([b"--json", b"\xff"]))
        self.assertFalse(jsons.asks_json([b"--", b"\xff", b"--json"]))

    def test_an_origin_that_is_no_place(self):
        found = jsons.text_of("matrix", '{"from":"X","unknown_stop":"X"}\n', b"X")
        self.assertEqual("from X\nunknown stop X\n\n", found)

    def test_other_forms(self):
        for line in (
            '{"arrive":"08:00:00","arrive_seconds":28801,"rides":0,"legs":[]}',
            '{"arrive":"08:00:00","rides":0,"legs":[],"arrive_seconds":28800}',
            '{"arrive":"08:00:00","arrive_seconds":28800,"rides":0,"legs":[{"day":1}]}',
            '{"arrive":"08:00:00","arrive_seconds":28800,"rides":0}',
            "[]",
            "1",
            "x",
        ):
            with self.assertRaises(jsons.Other, msg=line):
                jsons.text_of("ask", f"{line}\n", b"")
        with self.assertRaises(jsons.Other):
            jsons.error_text(3, '{"status":4,"message":"read fault"}\n')


class Claims(unittest.TestCase):
    def test_a_claim_both_ways(self):
        found = jsons.claim_of(CLAIM)
        self.assertEqual(JSON, found.decode())
        lines = [words for _, words in texts.worded(CLAIM) if words]
        self.assertEqual(lines, [words for _, words in jsons.claim_lines(found)])

    def test_what_is_no_json(self):
        deep = '{"arrive":"08:00:00","rides":1,"legs":[],"x":'
        for text in (
            "",
            "x",
            "NaN",
            '"\\ud800"',
            '{"\\ud800":1}',
            '{"x":"\\ud800","x":1}',
            "\ufeff{}",
            "[1 2]",
            "01",
            f"{deep}{'[' * 128}{']' * 128}}}",
            "[" * 5000,
        ):
            self.assertEqual([(0, None)], jsons.claim_lines(text.encode()), text[:60])
        self.assertEqual([(0, None)], jsons.claim_lines(b'"\xff"'))
        found = jsons.claim_lines(f"{deep}{'[' * 127}{']' * 127}}}".encode())
        self.assertEqual([(1, ["arrive", "08:00:00", "rides", "1"])], found)

    def test_lines_that_are_bad(self):
        for text in ("{}", "[]", "1", '{"arrive":1,"rides":1,"legs":[]}', '{"rides":"1"}'):
            self.assertEqual([(1, None)], jsons.claim_lines(text.encode()), text)
        legs = '1,{},{"trip":1},{"from":"A","to":"B","seconds":"1"}'
        claim = f'{{"arrive":"08:00:00","rides":1.5,"legs":[{legs}]}}'
        found = jsons.claim_lines(claim.encode())
        self.assertEqual([(1, ["arrive", "08:00:00", "rides", "1.5"])], found[:1])
        self.assertEqual([(number, None) for number in range(2, 6)], found[1:])
        self.assertEqual("1 BadLine line 1", texts.claim_fault(claim.encode(), found))


if __name__ == "__main__":
    unittest.main()
