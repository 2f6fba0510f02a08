"""Tests of what the commands share, with programs of the system in place of the proved ones."""
import argparse
import collections
import contextlib
import io
import os
import subprocess
import sys
import tempfile
import unittest

from commands import documents, hostile_shapes, refused_memory
from feeds import city, collisions, network, shapes
from harness import TOP, BenchError, Run, Table, commit, commit_of, done, limited, write


class Runs(unittest.TestCase):
    def test_what_a_run_wrote_and_took(self):
        run = Run("/bin/sh", ["-c", "cat; echo $A >&2; exit 3"], given=b"in\n", env={"A": "b c"})
        self.assertEqual((3, "in\n", "b c\n"), (run.status, run.out, run.err))
        self.assertEqual("b c", run.first_line())
        self.assertTrue(0 <= run.seconds and 0 < run.clock < 10)

    def test_a_signal(self):
        self.assertEqual("SIGKILL", Run("/bin/sh", ["-c", "kill -9 $$"]).status)

    def test_a_call_before(self):
        self.assertEqual(3, Run("/bin/sh", ["-c", "exit 3"], before=limited(10**9)).status)

    def test_memory_is_not_that_of_the_script(self):
        text = "x" * 200_000_000
        self.assertLess(Run("/bin/sh", ["-c", ":"]).megabytes, len(text) / 1e6 / 2)

    def test_a_run_without_the_answer(self):
        with self.assertRaisesRegex(BenchError, "sh -c exit 3 ended with 3: nothing"):
            done("/bin/sh", ["-c", "exit 3"])
        with self.assertRaises(BenchError):
            Run("/nowhere", [])


class Tables(unittest.TestCase):
    def test_the_form_of_the_documents(self):
        out = io.StringIO()
        with contextlib.redirect_stdout(out):
            Table("0123abc", "feed", "s").row("city", 1)
        stamp, *lines = out.getvalue().split("\n")
        self.assertRegex(stamp, r"^0123abc, \d{4}-\d\d-\d\d, .+, \d+ at work$")
        self.assertEqual(["", "| feed | s |", "|---|---|", "| city | 1 |", ""], lines)


    def test_the_commit_of_a_program(self):
        with tempfile.TemporaryDirectory() as folder:
            program = os.path.join(folder, "router")
            self.assertEqual(commit(), commit_of(program))
            for name, text in (("router", ""), ("router.built", "commit 0123abc\nsources 1\n")):
                write(folder, name, text)
            self.assertEqual("0123abc", commit_of(program))
            os.utime(program, ns=(2**61, 2**61))
            self.assertEqual(commit(), commit_of(program))


class RefusedMemory(unittest.TestCase):
    def test_what_may_come(self):
        ended = collections.namedtuple("Ended", "status out err")
        check, lenient = refused_memory.COMMANDS[-2:]
        told = ended(10, "8 BadCode stops.txt x\n11 x\n11 x\nfaults 3\nwarning x\nwarning x\nwarnings 2\n", "")
        answer = ended(0, lenient.answer, lenient.line)
        none = ended(6, "", "router: out of memory\n")
        silent = answer._replace(err="")
        for command, right in ((check, told), (lenient, answer), (lenient, silent)):
            for run in (right, none):
                self.assertTrue(refused_memory.is_allowed(run, command), run)
            for other in (right._replace(status=3), right._replace(out=""), none._replace(out="x")):
                self.assertFalse(refused_memory.is_allowed(other, command), other)


class Examples(unittest.TestCase):
    def test_commands_of_a_document(self):
        lines = ["A text", "", "    $ one", "    a", "      b", "    $ two", "", "    no command"]
        wanted = [("one", ["a", "  b"]), ("two", []), ("three", ["c"])]
        found = documents.examples([*lines, "", "    $ three", "    c"])
        self.assertEqual(wanted, list(found))

    def test_lines_of_a_command(self):
        self.assertEqual(["a", "", "b"], documents.run_command("printf 'a\\n\\nb\\n'"))


class Feeds(unittest.TestCase):
    def rows(self, make, *words, **named):
        """The number of lines of each file that is written, and the text of all files."""
        with tempfile.TemporaryDirectory() as folder:
            make(folder, *words, **named)
            texts = {}
            for name in sorted(os.listdir(folder)):
                with open(os.path.join(folder, name), encoding="ascii") as file:
                    texts[name] = file.read()
        return {name: text.count("\n") for name, text in texts.items()}, texts

    def test_the_same_words_give_the_same_bytes(self):
        self.assertEqual(self.rows(city.make, 100), self.rows(city.make, 100))
        self.assertNotEqual(self.rows(city.make, 100), self.rows(city.make, 100, seed=8))

    def test_halves_of_a_network(self):
        halves = [self.rows(network.make, 8, half=half)[0] for half in network.HALVES]
        frequencies, written, without = (half["trips.txt"] for half in halves)
        self.assertTrue(without < frequencies < written)
        self.assertIn("frequencies.txt", halves[0])

    def test_shapes_grow(self):
        for name, shape in shapes.SHAPES.items():
            small, large = (self.rows(shape.make, n)[1] for n in (200, 400))
            self.assertNotEqual(small, large, name)
            sizes = [sum(map(len, texts.values())) for texts in (small, large)]
            self.assertEqual(sorted(sizes), sizes, name)

    def test_names_and_numbers_that_collide(self):
        zero = collisions.zero_bits(1000)
        names, (_, pairs) = collisions.names(1000), collisions.pairs(1000)
        self.assertEqual(1000, len(set(names)))
        hashes = [collisions.name_hash(name) for name in names]
        hashes += [collisions.table_hash([(i * 100_000 + j, 8)]) for i, j in pairs]
        keys = collisions.sequences(1000)
        hashes += [collisions.table_hash([(trip, 4), (row, 4)]) for trip, row in keys]
        self.assertEqual([0] * 3000, [number & zero for number in hashes])

    def test_names_that_collide_don_t_by_another_start(self):
        groups = collisions.groups_of(1000)
        for start in range(1, 6):
            hashes = (collisions.name_hash(name, start) for name in collisions.names(1000))
            most = collections.Counter(number % groups for number in hashes).most_common(1)
            self.assertLess(most[0][1], 40)


class Hostile(unittest.TestCase):
    def faults(self, taken, reading):
        words = argparse.Namespace(most=2.3, reading=10)
        return list(hostile_shapes.faults_of(taken, reading, words))

    def test_what_is_too_slow(self):
        self.assertEqual([], self.faults([1, 2, 4], 0.5))
        self.assertEqual(["grew by more"], self.faults([1, 2, 5], 1))
        self.assertEqual(["took more beside reading"], self.faults([1, 2, 4], 0.3))
        self.assertEqual(2, len(self.faults([1, 2], 1)))
        self.assertEqual([], self.faults([0.01, 0.02, 0.1], 0.01))

    def test_a_name_for_several(self):
        for names in shapes.GROUPS.values():
            self.assertTrue(set(names) <= set(shapes.SHAPES))


class Words(unittest.TestCase):
    def ended(self, *words):
        command = [sys.executable, os.path.join(TOP, "bench"), *words]
        return subprocess.run(command, capture_output=True, text=True)

    def test_bad_words_end_in_a_line(self):
        for words in ([], ["beside"], ["queries", "--feed", "nope:3"], ["make", "city", "x", "0"]):
            run = self.ended(*words)
            self.assertEqual(2, run.returncode, words)
            self.assertIn("error: ", run.stderr)
            self.assertNotIn("Traceback", run.stderr)

    def test_help(self):
        self.assertEqual(0, self.ended("--help").returncode)
        self.assertIn("--seed", self.ended("make", "city", "--help").stdout)


if __name__ == "__main__":
    unittest.main()
