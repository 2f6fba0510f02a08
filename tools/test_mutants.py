"""Tests of the mutants that the gate leaves out, with a stand-in for the toolchain."""
import os
import stat
import tempfile
import unittest
from unittest import mock

import mutants

# Stands in for `rt`: notes what it is asked, and what it finds in the crate; refuses all but one.
STAND_IN = """#!/bin/sh
{ echo "$@"; cat crates/"$2"/src/lib.rt; ls crates/"$2"/must-fail crates; } >"$NOTES"
[ "$2" != accepted ]
"""


class MutantsTest(unittest.TestCase):
    def setUp(self):
        room = tempfile.TemporaryDirectory()
        self.addCleanup(room.cleanup)
        self.top = room.name
        for name in ("crates.txt", "HANDLES"):
            self.write(name, "")
        for crate in ("low", "high", "accepted"):
            self.write(f"crates/{crate}/src/lib.rt", f"text of {crate}\n")
        for crate in ("high", "accepted"):
            self.write(f"crates/{crate}/mutants/wrong.edit", "file: src/lib.rt\n")
        os.mkdir(f"{self.top}/.git")
        self.write("bin/rt", STAND_IN)
        os.chmod(f"{self.top}/bin/rt", stat.S_IRWXU)
        self.notes = f"{self.top}/notes"
        words = {"PATH": f"{self.top}/bin:{os.environ['PATH']}", "NOTES": self.notes}
        top = mock.patch.object(mutants, "TOP", self.top)
        for patch in (mock.patch.dict(os.environ, words), top):
            patch.start()
            self.addCleanup(patch.stop)

    def write(self, name, text):
        path = f"{self.top}/{name}"
        os.makedirs(os.path.dirname(path), exist_ok=True)
        with open(path, "w", encoding="utf-8") as file:
            file.write(text)

    def noted(self):
        with open(self.notes, encoding="utf-8") as file:
            return file.read().split("\n")

    def test_mutants_are_tried_beside_all_other_crates(self):
        self.assertEqual(mutants.main(["high"]), 0)
        lines = self.noted()
        self.assertEqual(lines[:2], ["ci high", "text of high"])
        self.assertIn("wrong.edit", lines)
        self.assertTrue({"accepted", "high", "low"} <= set(lines))
        self.assertFalse(os.path.exists(f"{self.top}/crates/high/must-fail"))

    def test_one_that_is_not_refused_is_told_by_the_status(self):
        self.assertEqual(mutants.main([]), 1)

    def test_a_crate_without_such_mutants_is_refused(self):
        with self.assertRaises(SystemExit), mock.patch("sys.stderr"):
            mutants.main(["low"])


if __name__ == "__main__":
    unittest.main()
