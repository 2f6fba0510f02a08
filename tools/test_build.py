"""Tests of the build with a stand-in for the toolchain: python3 -m unittest discover tools"""
import contextlib
import io
import os
import signal
import subprocess
import sys
import tempfile
import time
import types
import unittest
from unittest import mock

import build
import planned_ci
import progress
import sources

# Stands in for `rt ci`: notes when it begins with a crate and ends, and keeps what passed by its
# source and those below. A file of the folder `wants`, beside that of this script, has it do more
# at a crate: fail, or so beside others that end behind it, take long, wait for another run, change a
# file, or have the program run badly.
STAND_IN = """#!/usr/bin/env python3
import os, sys, time
HERE = os.path.dirname(os.path.dirname(os.path.realpath(__file__)))

def text_of(*path):
    path = os.path.join(*path)
    return open(path).read() if os.path.exists(path) else ""

def note(text):
    with open(HERE + "/events", "a") as file:
        file.write(text + chr(10))

def say(*lines):
    print(*lines, sep=chr(10), flush=True)

note(" ".join(sys.argv[1:]) + ": " + " ".join(sorted(os.listdir("."))))
os.makedirs(HERE + "/kept", exist_ok=True)
keys = {}
for line in open("crates.txt"):
    crate, _, libraries = line.partition("#")[0].partition(":")
    wants = lambda word: text_of(HERE, "wants", crate + "." + word)
    source = text_of("crates", crate, "src/lib.rt") + text_of("HANDLES")
    keys[crate] = source + "".join(keys.get(it, "") for it in libraries.split())
    if text_of(HERE, "kept", crate) == keys[crate]:
        say(f"rt: {crate} is kept: an earlier run on this machine proved the same files")
        continue
    if wants("waits"):
        say(f"rt: {crate}: another run on this machine is proving the same; waiting for it")
    note(f"begin {crate}")
    os.makedirs(f"crates/{crate}/out/rlib")
    time.sleep(60 if wants("sleeps") else 0.3)
    say(f"== {crate}", "fn f: proved", "fn g: proved, may wait")
    if wants("fails"):
        at = os.getcwd() + "/crates/" + crate
        others = wants("beside").split()
        for it in others:
            os.makedirs(f"crates/{it}/out/rlib")
        time.sleep(1 if others else 0)
        say(f"{at}/src/lib.rt:7:5: error: it is wrong", "statements core: modules loaded=1")
        say("logic=not-proved", f"rt: {crate} NOT PROVED", "0 passed, 1 failed")
        for it in others:
            time.sleep(1)
            note(f"end {it}")
            say(f"rt: {it} proved")
        time.sleep(60 if others else 0)
        sys.exit(1)
    if wants("edits"):
        open(wants("edits"), "a").write("// an edit meanwhile")
    say("logic=proved functions=1", f"rt: {crate} proved")
    open(HERE + "/kept/" + crate, "w").write(keys[crate])
    note(f"end {crate}")
os.makedirs("crates/router/out", exist_ok=True)
open("crates/router/out/router", "w").write("program")
if text_of(HERE, "wants", "router.run"):
    say("rt: router wrote something else", "rt: FAILED: router (run)", "3 passed, 1 failed")
    sys.exit(1)
say("4 passed, 0 failed")
"""


def write(folder, path, text):
    to = os.path.join(folder, path)
    os.makedirs(os.path.dirname(to), exist_ok=True)
    with open(to, "w", encoding="utf-8") as file:
        file.write(text)
    return to


class Checkout(unittest.TestCase):
    """A checkout of five crates, of which `other` isn't below the program."""

    def setUp(self):
        folder = tempfile.TemporaryDirectory()
        self.addCleanup(folder.cleanup)
        self.folder = os.path.realpath(folder.name)
        self.top = os.path.join(self.folder, "top")
        crates = "# NAME: libraries\nlow: csv\nmid: low\nside: low\nother: low\n"
        write(self.top, "crates.txt", crates + "router: mid side # a program\n")
        write(self.top, "HANDLES", "Handles allowed: none.\n")
        write(self.top, ".git/config", "")
        for name in ("low", "mid", "side", "other", "router"):
            write(self.top, f"crates/{name}/src/lib.rt", f"// {name}\n")
        write(self.top, "crates/low/must-fail/wrong.edit", "file: src/lib.rt\n")
        write(self.top, "crates/low/proofs/out/Answers.antt", "\n")
        write(self.top, "crates/router/data/f1/stops.txt", "stop_id\n")
        os.chmod(write(self.folder, "bin/rt", STAND_IN), 0o755)
        path = f"{self.folder}/bin:{os.environ['PATH']}"
        temporary = os.path.join(self.folder, "temporary")
        os.mkdir(temporary)
        home = {"PATH": path, "XDG_CACHE_HOME": f"{self.folder}/cache", "TMPDIR": temporary}
        environment = mock.patch.dict(os.environ, home)
        environment.start()
        self.addCleanup(environment.stop)
        place = mock.patch.object(tempfile, "tempdir", temporary)
        place.start()
        self.addCleanup(place.stop)

    def want(self, *names, text="x"):
        for name in names:
            write(self.folder, f"wants/{name}", text)

    def events(self):
        with contextlib.suppress(FileNotFoundError):
            with open(os.path.join(self.folder, "events"), encoding="utf-8") as file:
                return file.read().splitlines()
        return []

    def build(self):
        """What a build says, or why it failed."""
        out = io.StringIO()
        with contextlib.redirect_stdout(out):
            build.build(self.top)
        return out.getvalue()

    def why_not(self):
        with self.assertRaises(build.BuildError) as caught:
            self.build()
        return str(caught.exception)

    def left(self):
        """What builds left beside the sources and the folders `out`."""
        git = [it for it in os.listdir(f"{self.top}/.git") if it not in ("config", "rt-ci.lock")]
        return git + os.listdir(os.path.join(self.folder, "temporary"))


class Sources(Checkout):
    def test_crates_below(self):
        libraries = sources.read_crates(self.top)
        below = sources.crates_below("router", libraries)
        self.assertEqual(["low", "mid", "side", "router"], below)
        self.assertEqual(["low", "other"], sources.crates_below("other", libraries))

    def test_copy(self):
        copy = os.path.join(self.folder, "copy")
        write(self.top, "crates/low/out/incremental/old", "")
        sources.copy_sources(self.top, copy)
        lines = "low: csv\nmid: low\nside: low\nrouter: mid side # a program\n"
        with open(f"{copy}/crates.txt", encoding="utf-8") as file:
            self.assertEqual(lines, file.read())
        found = {it for it in sources.files_below(copy) if not it.endswith("lib.rt")}
        more = {"crates/low/proofs/out/Answers.antt", "crates/router/data/f1/stops.txt"}
        self.assertEqual({"crates.txt", "HANDLES", *more}, found)
        self.assertEqual(sources.sum_of_sources(self.top), sources.sum_of_sources(copy))

    def test_program_of_these_sources(self):
        self.assertFalse(sources.is_current(self.top))
        self.build()
        self.assertTrue(sources.is_current(self.top))
        write(self.top, "crates/other/src/lib.rt", "// no part of the program\n")
        write(self.top, "crates/low/must-fail/wrong.edit", "\n")
        self.assertTrue(sources.is_current(self.top))

    def test_program_of_an_older_state(self):
        self.build()
        more = write(self.top, "crates/low/src/more.rt", "// more\n")
        self.assertFalse(sources.is_current(self.top))
        os.remove(more)
        self.assertTrue(sources.is_current(self.top))
        write(self.top, "HANDLES", "Handles allowed: Threads.\n")
        self.assertFalse(sources.is_current(self.top))

    def test_stamp_is_as_old_as_the_sources_that_were_read(self):
        before = time.time()
        self.build()
        self.assertLess(os.stat(sources.stamp_file(self.top)).st_mtime, before)

    def test_program_that_something_else_built(self):
        self.build()
        os.utime(sources.built_program(self.top), ns=(2**61, 2**61))
        self.assertFalse(sources.is_current(self.top))

    def test_git_folder(self):
        self.assertEqual(f"{self.top}/.git", sources.git_folder(self.top))
        os.rename(f"{self.top}/.git", f"{self.folder}/of_worktree")
        self.assertIsNone(sources.git_folder(self.top))
        write(self.top, ".git", f"gitdir: {self.folder}/of_worktree\n")
        self.assertEqual(f"{self.folder}/of_worktree", sources.git_folder(self.top))


class Builds(Checkout):
    def test_tells_of_each_crate(self):
        said = self.build()
        self.assertRegex(said, r"1 of 4 proved, low \d+ s; \d+ s so far")
        self.assertRegex(said, r"4 of 4 proved, router \d+ s; \d+ s so far\n")
        self.assertIn("the proved program is built", said)
        self.assertTrue(os.access(sources.built_program(self.top), os.X_OK))
        self.assertEqual("ci: .git HANDLES crates crates.txt", self.events()[0])
        self.assertEqual(["begin low", "end low", "begin mid"], self.events()[1:4])
        self.assertEqual([], self.left())
        self.assertGreater(build.read_figures()["low"], 0.05)

    def test_what_is_proved_is_kept(self):
        self.build()
        write(self.top, "crates/side/src/lib.rt", "// changed\n")
        before = len(self.events())
        said = self.build()
        self.assertIn("1 of 4 proved, low in an earlier run", said)
        changed = ["begin side", "end side", "begin router", "end router"]
        self.assertEqual(changed, self.events()[before + 1 :])
        self.assertTrue(sources.is_current(self.top))

    def test_without_git(self):
        os.rename(f"{self.top}/.git", f"{self.top}/no_git")
        self.build()
        self.assertTrue(sources.is_current(self.top))
        self.assertEqual([], os.listdir(os.path.join(self.folder, "temporary")))

    def test_another_run_at_the_same_crate(self):
        self.want("mid.waits")
        self.assertIn("\nmid: another run on this machine is proving the same", self.build())

    def test_a_crate_that_fails(self):
        self.want("mid.fails", "side.sleeps")
        begin = time.monotonic()
        why = self.why_not()
        self.assertLess(time.monotonic() - begin, 30)
        self.assertIn("mid failed", why)
        last = f"{self.top}/crates/mid/src/lib.rt:7:5: error: it is wrong\n  logic=not-proved"
        self.assertTrue(why.endswith(f"build.log:\n  {last}"), why)
        self.assertFalse(sources.is_current(self.top))
        self.assertEqual([], self.left())

    def test_a_crate_that_fails_beside_others(self):
        self.want("mid.fails")
        self.want("mid.beside", text="side")
        out, begin = io.StringIO(), time.monotonic()
        with contextlib.redirect_stdout(out), self.assertRaises(build.BuildError) as caught:
            build.build(self.top)
        self.assertLess(time.monotonic() - begin, 30)
        self.assertIn("\nmid failed, and waits for side\n2 of 4 proved, side ", out.getvalue())
        self.assertIn("end side", self.events())
        self.assertIn("it is wrong", str(caught.exception))

    def test_a_run_that_fails(self):
        self.want("router.run")
        self.assertIn("rt: FAILED: router (run)", self.why_not())
        self.assertFalse(sources.is_current(self.top))

    def test_sources_that_change_meanwhile(self):
        self.want("router.edits", text=f"{self.top}/crates/low/src/lib.rt")
        self.assertIn("sources changed during the build", self.why_not())
        self.assertFalse(sources.is_current(self.top))
        self.assertFalse(os.path.exists(sources.built_program(self.top)))


class Stops(Checkout):
    """Builds by a process of their own, which is at `mid` for long."""

    STOPPED = "router: stopped, 1 of 4 proved; removing its copy of the sources\n"

    def begin(self):
        write(self.folder, "events", "")
        self.want("mid.sleeps")
        words = [sys.executable, build.__file__, "--top", self.top]
        how = {"stdout": subprocess.PIPE, "stderr": subprocess.STDOUT, "text": True}
        child = subprocess.Popen(words, **how)
        self.addCleanup(child.stdout.close)
        self.addCleanup(child.wait)
        self.addCleanup(child.kill)
        self.wait_until(lambda: "begin mid" in self.events())
        self.assertTrue(any(line.startswith("1 of 4 proved, low") for line in child.stdout))
        return child

    def wait_until(self, holds):
        end = time.monotonic() + 30
        while not holds() and time.monotonic() < end:
            time.sleep(0.1)
        self.assertTrue(holds())

    def at_work(self):
        """Whether a process has a folder of the checkout as its own."""
        for pid in filter(str.isdigit, os.listdir("/proc")):
            with contextlib.suppress(OSError):
                if os.readlink(f"/proc/{pid}/cwd").startswith(self.top):
                    return True
        return False

    def test_stopped_by_a_signal(self):
        for number in (signal.SIGINT, signal.SIGTERM):
            with self.subTest(number=number):
                child = self.begin()
                self.assertTrue(self.at_work())
                child.send_signal(number)
                said = child.communicate()[0]
                self.assertEqual(130, child.returncode)
                self.assertTrue(said.endswith(self.STOPPED), said)
                self.assertFalse(self.at_work())
                self.assertEqual([], self.left())

    def test_killed(self):
        child = self.begin()
        child.kill()
        self.wait_until(lambda: not self.at_work())
        os.remove(f"{self.folder}/wants/mid.sleeps")
        self.assertIn("low in an earlier run", self.build())
        self.assertEqual([], self.left())

    def test_two_builds(self):
        self.begin()
        with contextlib.redirect_stderr(io.StringIO()) as err:
            with mock.patch.object(sys, "argv", ["build.py", "--top", self.top]):
                self.assertEqual(1, build.main())
        self.assertIn("another --build or 'rt ci' of this checkout is at work", err.getvalue())


class Left(unittest.TestCase):
    LIBRARIES = {"low": [], "mid": ["low"], "side": ["low"], "router": ["mid", "side"]}
    LINES = {"low": 10, "mid": 20, "side": 20, "router": 10}

    def estimate(self, figures, processors=4):
        return progress.Estimate(self.LIBRARIES, self.LINES, figures, processors)

    def test_longest_chain(self):
        seconds = self.estimate({"low": 10, "mid": 20, "side": 30, "router": 5})
        self.assertEqual([45, 25, 35, 5], [seconds.behind(name) for name in self.LINES])
        self.assertEqual(45, seconds.left([], {}, {}))
        self.assertEqual(41, seconds.left([], {}, {"low": 4}))
        self.assertEqual(25, seconds.left(["low"], {}, {"side": 10, "mid": 90}))
        self.assertEqual(0, seconds.left(list(self.LINES), {}, {}))

    def test_one_processor(self):
        seconds = self.estimate({"low": 10, "mid": 20, "side": 30, "router": 5}, processors=1)
        self.assertEqual(65, seconds.left([], {}, {}))

    def test_a_slower_machine(self):
        seconds = self.estimate({"low": 10, "mid": 20, "side": 30, "router": 5})
        self.assertEqual(70, seconds.left(["low"], {"low": 20}, {}))

    def test_crates_that_never_ran(self):
        self.assertEqual(0, self.estimate({}).left([], {}, {}))
        self.assertEqual(40, self.estimate({"low": 10}).left([], {}, {}))
        self.assertEqual(60, self.estimate({}).left(["low"], {"low": 20}, {}))


class Planned(Checkout):
    """What the toolchain's script is run with."""

    KNOWN = "STORE = '/nowhere/kept'\ndef need(crate): return 9e9\n"
    KNOWN += "def in_lanes(tasks): return {it: call() for it, (*_, call) in tasks.items()}\n"
    KNOWN += "def processors(): return 4\ndef free(): return 9e9\n"
    KNOWN += "def main(words): "

    TASKS = [("low", "proof", 9), ("low", "tests", 0), ("mid", "tests", 0), ("side", "tests", 9)]

    def run_known(self, store):
        """What a script of the known make gives that is run by this user."""
        write(self.folder, "bin/rtlib.py", "")
        known = self.KNOWN.replace("/nowhere/kept", store) + "return words, need, STORE\n"
        write(self.folder, "bin/rt", known)
        with mock.patch.object(planned_ci, "end_with_parent"):
            return planned_ci.main([f"{self.folder}/own"])

    def test_keeps_where_it_can(self):
        kept = f"{self.folder}/kept"
        self.assertEqual((["ci"], planned_ci.memory, kept), self.run_known(kept))
        own = f"{self.folder}/own"
        write(self.folder, "file", "")
        self.assertEqual((["ci"], planned_ci.memory, own), self.run_known(f"{self.folder}/file/in"))
        self.assertTrue(os.path.isdir(own))

    def test_memory(self):
        low = types.SimpleNamespace(folder=f"{self.top}/crates/low", below=lambda: [])
        mid = types.SimpleNamespace(folder=f"{self.top}/crates/mid", below=lambda: [low])
        before = planned_ci.memory(mid)
        for crate in (low, mid):
            write(crate.folder, "src/more.rt", "\n" * 10)
        self.assertEqual(5.75e6, round(planned_ci.memory(mid) - before))

    def test_tests_that_are_not_there(self):
        tasks = {(name, what): ([], lines, 1, None) for name, what, lines in self.TASKS}
        tasks["mid", "edits"] = [("mid", "tests")], 0, 1, None
        ran = []
        run = planned_ci.without_empty(lambda given: ran.extend(given) or dict.fromkeys(given, 0))
        self.assertEqual({**dict.fromkeys(tasks, 0), ("low", "tests"): True}, run(tasks))
        self.assertEqual([it for it in tasks if it != ("low", "tests")], ran)

    def jobs(self, processors, free):
        """The jobs of each proof of four crates, of which the last stands on a chain of three."""
        tasks, call = {}, lambda given, jobs: jobs
        for name, below, lines in (("a", "", 5), ("b", "a", 20), ("c", "a", 30), ("d", "bc", 1)):
            waits = [(it, "proof") for it in below]
            tasks[name, "proof"] = waits, lines, 1e9, call
            tasks[name, "tests"] = waits, 99, 1e9, call
        in_lanes = lambda given: {it: task[3]({}, 1) for it, task in given.items()}
        found = planned_ci.with_more_jobs(in_lanes, lambda: processors, lambda: free)(tasks)
        self.assertEqual({1}, {jobs for (_, kind), jobs in found.items() if kind == "tests"})
        return [found[name, "proof"] for name in "abcd"]

    def test_jobs_of_the_longest_chain(self):
        self.assertEqual([3, 1, 3, 3], self.jobs(3, 9e9))
        self.assertEqual([4, 1, 4, 4], self.jobs(8, 9e9))
        self.assertEqual([2, 1, 2, 2], self.jobs(8, 1.7e9))
        self.assertEqual([1, 1, 1, 1], self.jobs(8, 5e8))

    def test_processors_for_the_longest_chain(self):
        words = [sys.executable, "-c", "import os; print(os.nice(0))"]
        call = lambda given, jobs: int(subprocess.run(words, capture_output=True).stdout)
        tasks = {("low", "proof"): ([], 9, 1, call), ("side", "proof"): ([], 5, 1, call)}
        in_lanes = lambda given: {it: task[3]({}, 1) for it, task in given.items()}
        run = planned_ci.with_more_jobs(in_lanes, lambda: 1, lambda: 1)
        own = os.nice(0)
        nicer = min(own + planned_ci.NICER, 19)
        self.assertEqual({("low", "proof"): own, ("side", "proof"): nicer}, run(tasks))
        self.assertEqual(own, os.nice(0))

    def test_no_tasks(self):
        self.assertEqual([], planned_ci.longest_chain({}))

    def test_a_script_of_another_make(self):
        path = write(self.folder, "other/rt", self.KNOWN + "pass\n")
        self.assertIsNone(planned_ci.load(path))
        write(self.folder, "other/rtlib.py", "")
        self.assertIsNotNone(planned_ci.load(path))
        for more in ("STORE = None\n", "def need(crate, jobs): pass\n", "main = None\n"):
            write(self.folder, "other/rt", self.KNOWN + "pass\n" + more)
            self.assertIsNone(planned_ci.load(path))


if __name__ == "__main__":
    unittest.main()
