"""Tests of the scripts of studies, with a stand-in for the program, and by GNU parallel where it is."""
import os
import shutil
import subprocess
import tempfile
import unittest

from harness import TOP, write

# Answers as `matrix --json`; an origin `lost` ends it.
STAND_IN = """#!/usr/bin/env python3
import json, sys
*before, file, first, last, step = sys.argv[1:]
assert before == "--json --workers 2 --change 60 matrix f 20260302".split()
assert [first, last, step] == "08:00:00 08:59:00 60".split()
for line in open(file, encoding="utf-8"):
    assert line[0] + line[-2:] == '""\\n'
    name = line[1:-2].replace('""', '"')
    if name == "lost":
        sys.exit(6)
    row = {"from": name, "values": [[name, 4, 4, [0] * 7]]}
    print(json.dumps(row, ensure_ascii=False, separators=(",", ":")), flush=True)
"""


def said(name):
    return '{"from":"%s","values":[["%s",4,4,[0,0,0,0,0,0,0]]]}' % (name, name)


class Studies(unittest.TestCase):
    def setUp(self):
        folder = tempfile.TemporaryDirectory()
        self.addCleanup(folder.cleanup)
        self.study = os.path.join(folder.name, "study")
        os.mkdir(self.study)
        program = os.path.join(folder.name, "router")
        write(folder.name, "router", STAND_IN)
        os.chmod(program, 0o755)
        settings = f"ROUTER={program}\nFEED=f DATE=20260302 WORKERS=2 OPTIONS=(--change 60)\n"
        write(self.study, "settings", settings + "FIRST=08:00:00 LAST=08:59:00 STEP=60\n")

    def run_script(self, name, *words, given=""):
        command = [os.path.join(TOP, "studies", name), *words]
        ended = subprocess.run(command, input=given.encode(), capture_output=True)
        return ended.returncode, ended.stdout.decode(), ended.stderr.decode()

    def cut(self, origins, lines):
        given = "".join(f"{origin}\n" for origin in origins)
        return self.run_script("cut", self.study, str(lines), given=given)

    def rows(self):
        return self.run_script("join", self.study)[1].splitlines()

    def test_shards_and_their_rows(self):
        origins = ["A", 'b"c', "d,e", "", "ü", "#"]
        self.assertEqual((0, "2\n", ""), self.cut(origins, 4))
        self.assertEqual(1, self.cut(origins, 4)[0])
        self.assertEqual(0, self.run_script("shard", self.study, "00001")[0])
        status, rows, named = self.run_script("join", self.study)
        self.assertEqual((1, "", "00000"), (status, rows, named.split()[-1]))
        self.assertEqual(0, self.run_script("shard", self.study, "00000")[0])
        self.assertEqual([said(name.replace('"', '\\"')) for name in origins], self.rows())

    def test_a_shard_that_fails_leaves_nothing(self):
        self.cut(["A", "lost", *"BCDEFGH"], 9)
        self.assertNotEqual(0, self.run_script("shard", self.study, "00000")[0])
        self.assertEqual([], os.listdir(os.path.join(self.study, "rows")))
        self.assertEqual([], os.listdir(os.path.join(self.study, "parts")))

    @unittest.skipUnless(shutil.which("parallel"), "GNU parallel isn't installed")
    def test_lost_shards_by_parallel(self):
        names = [f"S{number}" for number in range(25)]
        self.cut(names, 10)
        words = "by_parallel", self.study, "--will-cite", "--sshlogin", ":"
        self.assertEqual(0, self.run_script(*words)[0])
        self.assertEqual([said(name) for name in names], self.rows())
        os.remove(os.path.join(self.study, "rows", "00001"))
        write(os.path.join(self.study, "origins"), "00001", '"lost"\n')
        self.assertEqual(1, self.run_script(*words)[0])
        self.assertEqual([], self.rows())
        write(os.path.join(self.study, "origins"), "00001", '"S10"\n')
        self.assertEqual(0, self.run_script(*words, "--resume-failed")[0])
        self.assertEqual(16, len(self.rows()))


if __name__ == "__main__":
    unittest.main()
