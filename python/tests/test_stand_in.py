"""Tests that what stands in for the process writes lines as the program does: by the schemas in
docs/schema. Needs python3-jsonschema.
"""
import subprocess
import sys
import unittest
import warnings
from importlib.util import find_spec

from . import STAND_IN, TOP, stand_in

sys.path.insert(0, str(TOP / "bench"))
LINES = """# what is no line, and what is one
ask before D 08:00:00

ask nowhere D 08:00:00
profile A D 08:00:00 09:00:00
latest A D 08:00:00
reach A 08:00:00
times A 08:00:00 09:00:00 300 rides 1
ask A
publish feed@20260303
publish broken@20260303
publish unread@20260303
ask go D 08:00:00
"""
DAYS = ("feed@20260302", "broken@20260303", "unread@20260303", "feed@20260303", None)


@unittest.skipUnless(find_spec("jsonschema"), "jsonschema isn't there")
class Schemas(unittest.TestCase):
    def faults(self, name, text):
        from commands import schema

        with warnings.catch_warnings():
            # its way to refer from file to file is an older one
            warnings.simplefilter("ignore", DeprecationWarning)
            return [*schema.faults(schema.validators()[name], text)]

    def test_what_it_writes(self):
        it = stand_in.StandIn()
        for day in DAYS:
            it.days.put(day)
        it.publish()
        text = it.take_turn(LINES.splitlines()).decode()
        self.assertEqual(4 + 11, len(text.splitlines()))
        self.assertEqual([], self.faults("live", text))

    def test_what_it_writes_on_standard_error(self):
        for day, line in (("broken@20260302", ""), ("feed@20260302", "ask die D 08:00:00\n")):
            words = [str(STAND_IN), "--json", "live", day]
            ended = subprocess.run(words, input=line, capture_output=True, text=True)
            self.assertIn(ended.returncode, (3, 6))
            self.assertEqual([], self.faults("refusal", ended.stderr))
