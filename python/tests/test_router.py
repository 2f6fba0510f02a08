"""Tests of the router over a process that makes its answers up: whose answer is whose, and what
comes of a process that doesn't do what it should.
"""
import datetime
import gc
import multiprocessing
import os
import shutil
import signal
import subprocess
import sys
import tempfile
import threading
import time
import unittest
from concurrent.futures import ThreadPoolExecutor
from pathlib import Path
from unittest import mock

from . import HERE, STAND_IN, TOP
from yuccadarts import (
    Amended,
    Answer,
    Ask,
    Cancellation,
    Cell,
    Choice,
    Closed,
    Delay,
    Departure,
    Edition,
    Elsewhere,
    FeedRefused,
    LineRefused,
    NoProgram,
    NotPublished,
    Offer,
    ProcessConfused,
    ProcessEnded,
    Profile,
    Publication,
    Reach,
    Reached,
    Ride,
    Router,
    RouterError,
    Spread,
    TravelTimes,
    UnknownStop,
    UpdatesRefused,
    Value,
    Walk,
    process,
)
from yuccadarts.updates import remove, write_updates

LONG = 20.0
"""The seconds after which something hangs."""
INTERRUPTED = """
import signal, sys
sys.path.insert(0, sys.argv[1])
from yuccadarts import Router
# what runs beside a shell has it ignored
signal.signal(signal.SIGINT, signal.default_int_handler)
with Router("feed", "20260302", program=sys.argv[2]) as it:
    try:
        print("ready", flush=True)
        for _ in range(30):
            it.ask("pause", "D", 0)
    except KeyboardInterrupt:
        print(it.ask("A", "D", 0).values[0].arrival)
"""


def router(feed="feed", **options):
    return Router(feed, "20260302", program=STAND_IN, **options)


def legs(departure, arrival):
    return (Ride("A>D", "A", departure, "D", arrival, False), Walk("D", "A", 7))


class Answers(unittest.TestCase):
    def test_of_each_question(self):
        with router(mirror=True) as it:
            self.assertEqual(Edition(1, 5, 3, 1), it.first_edition)
            choice = Choice(28_860, 1, legs(28_800, 28_860))
            self.assertEqual(Answer(1, (choice,)), it.ask("A", "D", "08:00:00"))
            offer = Offer(28_800, 28_860, 1, legs(28_800, 28_860))
            self.assertEqual(Answer(1, (offer,)), it.profile("A", "D", 28_800, 30_000))
            departure = Departure(28_740, 1, legs(28_740, 28_800))
            self.assertEqual(Answer(1, (departure,)), it.latest("A", "D", 28_800))
            reached = it.reach("A", 0)
            self.assertEqual(Reached("stop 0", (Value(60, 1),)), reached.values[0])
            self.assertEqual(Reached("Z", ()), reached.values[-1])

    def test_a_ride_that_began_on_the_day_before(self):
        with router() as it:
            ride = it.ask("before", "D", 0).values[0].legs[0]
        self.assertEqual(Ride("before>D", "before", 0, "D", 60, -1), ride)

    def test_the_words_of_the_process(self):
        def words(**options):
            with router(**options) as it:
                return [word.stop for word in it.reach("words", 0)]

        day = f"{os.path.abspath('feed')}@20260302"
        last = ["live", day]
        self.assertEqual(["--json", "--change=120", "--lanes=4", "--close", *last], words())
        given = words(change=5, station=0, close=False, days=2, lanes=2, mirror=True)
        options = ["--change=5", "--lanes=2", "--station=0", "--mirror", "--days=2"]
        self.assertEqual(["--json", *options, *last], given)
        with Router(Path("feed"), datetime.date(2026, 3, 2), program=STAND_IN) as it:
            self.assertEqual(day, it.reach("words", 0).values[-1].stop)

    def test_many_at_once(self):
        with router() as it:
            asked = [Ask(f"a {number}", "D", number) for number in range(3_000)]
            asked[1] = Profile("b", "D", 5, 6)
            answers = [*it.answers(asked)]
        self.assertEqual(3_000, len(answers))
        self.assertEqual("b>D", answers[1].values[0].legs[0].trip)
        for number in (0, 2, 17, 2_999):
            self.assertEqual(f"a {number}>D", answers[number].values[0].legs[0].trip)
            self.assertEqual(number + 60, answers[number].values[0].arrival)

    def test_travel_times(self):
        with router() as it:
            rows = [*it.travel_times(["A", "B"], "08:00:00")]
            self.assertEqual(["A B"], [row.origin for row in it.travel_times("A B", 0)])
        seconds = {f"stop {number}": 60 for number in range(3)}
        self.assertEqual([TravelTimes("A", 1, seconds), TravelTimes("B", 1, seconds)], rows)

    def test_times(self):
        with router() as it:
            one = it.times("A", "08:00:00", "09:00:00", 300)
            self.assertEqual(Spread("stop", 13, 13, 60, *[None] * 6), one.values[0])
            self.assertEqual(Spread("Z", 0, 13, *[None] * 7), one.values[1])
            two = it.times("A", 0, 10, 3, rides=2)
            self.assertEqual(Spread("stop", 4, 4, 60, *[2] * 6), two.values[0])
            cells = [*it.matrix(["A", "B b"], "08:00:00", "09:00:00", 300)]
            self.assertEqual(["A B"] * 2, [cell.origin for cell in it.matrix("A B", 0, 10, 1)])
        ends = [("A", "stop"), ("A", "Z"), ("B b", "stop"), ("B b", "Z")]
        self.assertEqual(ends, [(cell.origin, cell.stop) for cell in cells])
        self.assertEqual(Cell("A", 1, "stop", 13, 13, 60, *[None] * 6), cells[0])

    def test_only_so_many_are_asked_ahead(self):
        drawn = []

        def origins():
            for number in range(100):
                drawn.append(number)
                yield str(number)

        with router(lanes=2) as it:
            next(it.travel_times(origins(), 0))
        self.assertEqual(16, len(drawn))

    def test_what_is_refused(self):
        with router() as it:
            with self.assertRaises(UnknownStop) as unknown:
                it.ask("nowhere", "D", 0)
            self.assertEqual(("nowhere", 1), (unknown.exception.stop, unknown.exception.edition))
            with self.assertRaises(LineRefused) as refused:
                it.ask("a" * 1_001, "D", 0)
            self.assertEqual((1, "BadLine"), (refused.exception.number, refused.exception.name))
            with self.assertRaises(ValueError):
                it.latest("A", "D", 0)
            with self.assertRaises(ValueError):
                it.ask("A\nask B", "D", 0)
            with self.assertRaises(ValueError):
                it.ask("A", "D", "soon")
            self.assertEqual(60, it.ask("A", "D", 0).values[0].arrival)


class Publications(unittest.TestCase):
    def test_a_day_that_becomes_an_edition(self):
        with router() as it:
            publication = it.publish("slow", "20260303")
            self.assertTrue(publication.day.endswith("/slow@20260303"))
            with self.assertRaises(TimeoutError):
                publication.wait(0)
            self.assertEqual(1, it.ask("A", "D", 0).edition)
            self.assertEqual(1, it.ask("go", "D", 0).edition)
            self.assertEqual(Edition(2, 5, 3, 1), publication.wait(LONG))
            self.assertEqual(Edition(2, 5, 3, 1), publication.wait(0))
            self.assertEqual(2, it.ask("A", "D", 0).edition)

    def test_what_becomes_of_each(self):
        with router() as it:
            days = ("slow", "broken", "feed", "unread", "feed")
            found = [it.publish(day, "20260303") for day in days]
            it.ask("go", "D", 0)
            self.assertEqual([2, 3, 4], [found[at].wait(LONG).number for at in (0, 2, 4)])
            with self.assertRaises(FeedRefused) as refused:
                found[1].wait()
            fault = refused.exception
            self.assertEqual((12, "UnknownTrip"), (fault.number, fault.name))
            place = fault.file, fault.row, fault.column
            self.assertEqual(("stop_times.txt", 5, "trip_id"), place)
            self.assertEqual("12 UnknownTrip stop_times.txt row 5 column trip_id", str(fault))
            with self.assertRaisesRegex(NotPublished, "read fault"):
                found[3].wait()

    def test_a_folder_that_no_line_can_name(self):
        with router() as it:
            with self.assertRaises(LineRefused):
                it.publish("a" * 1_001, "20260303")
            self.assertEqual(2, it.publish("feed", "20260303").wait(LONG).number)

    def test_the_first_day_is_refused(self):
        with self.assertRaises(FeedRefused) as refused:
            router("broken")
        self.assertEqual(5, refused.exception.row)

    def test_news_of_another_day(self):
        with router() as it, self.assertRaisesRegex(ProcessConfused, "other/"):
            it.publish("mixed", "20260303").wait(LONG)

    def test_whoever_waits_for_the_first_day_is_interrupted(self):
        with mock.patch.object(Publication, "wait", side_effect=KeyboardInterrupt):
            with self.assertRaises(KeyboardInterrupt):
                router()
        self.assertEqual(set(), process._alive)

    def test_the_process_ends_while_a_day_is_published(self):
        with router() as it:
            publication = it.publish("slow", "20260303")
            os.kill(it.pid, signal.SIGKILL)
            with self.assertRaises(ProcessEnded):
                publication.wait(LONG)


class Updates(unittest.TestCase):
    def setUp(self):
        """Whatever is written for a moment is written here."""
        self.folder = self.enterContext(tempfile.TemporaryDirectory())
        self.enterContext(mock.patch.object(tempfile, "tempdir", self.folder))

    def test_of_a_list(self):
        with router() as it:
            amendment = it.delays([Delay("T1", 1, 120), Cancellation("é")])
            self.assertEqual(1, len(os.listdir(self.folder)))
            text = "late T1 1 120cancel é"
            self.assertEqual(Amended(2, 2, len(text)), amendment.wait(LONG))
            self.assertEqual([], os.listdir(self.folder))
            self.assertEqual(2, it.ask("A", "D", 0).edition)
            self.assertEqual(Amended(3, 0, 0), it.delays([]).wait(LONG))
            self.assertEqual(Edition(4, 5, 3, 1), it.publish("feed", "20260303").wait(LONG))

    def test_of_a_file(self):
        path = Path(self.folder, "a file")
        path.write_text("late T1 1 120\n")
        with router() as it:
            self.assertEqual(Amended(2, 1, 13), it.delays(path).wait(LONG))
            amendment = it.delays(os.path.relpath(path))
            self.assertEqual(f"late:{path}", amendment.day)
            self.assertEqual(Amended(3, 1, 13), amendment.wait(LONG))
        self.assertTrue(path.exists())

    def test_what_is_refused(self):
        updates = [Delay("T1", 0, 1), Cancellation("unknown")]
        with router() as it:
            with self.assertRaises(UpdatesRefused) as refused:
                it.delays(updates).wait(LONG)
            fault = refused.exception
            self.assertEqual((1, "UnknownTrip", 2), (fault.number, fault.name, fault.line))
            self.assertEqual("1 UnknownTrip line 2", str(fault))
            with self.assertRaises(UpdatesRefused) as refused:
                it.delays("nowhere").wait(LONG)
            fault = refused.exception
            self.assertEqual(("MissingFile", None), (fault.name, fault.line))
            with self.assertRaises(LineRefused):
                it.delays("a" * 1_001)
            with self.assertRaises(ValueError):
                it.delays([Cancellation("a\nb")])
            self.assertEqual(1, it.ask("A", "D", 0).edition)
        self.assertEqual([], os.listdir(self.folder))

    def test_no_file_is_left_of_a_process_that_ended(self):
        with router() as it:
            it.publish("slow", "20260303")
            amendment = it.delays([Cancellation("T1")])
            os.kill(it.pid, signal.SIGKILL)
            with self.assertRaises(ProcessEnded):
                amendment.wait(LONG)
            with self.assertRaises(ProcessEnded):
                it.delays([Cancellation("T1")])
        del it, amendment
        gc.collect()
        self.assertEqual([], os.listdir(self.folder))

    def test_a_fork_leaves_the_file(self):
        path = write_updates([])
        remove(path, os.getpid() + 1)
        self.assertTrue(os.path.exists(path))
        remove(path, os.getpid())
        self.assertFalse(os.path.exists(path))


def state(pid):
    """What the system says that a process does: T, if it is stopped."""
    return Path(f"/proc/{pid}/stat").read_text().rpartition(")")[2].split()[0]


class Threads(unittest.TestCase):
    def test_each_gets_its_own_answers(self):
        def ask(thread):
            for number in range(400):
                choice = it.ask(f"{thread}.{number}", "D", number).values[0]
                self.assertEqual(f"{thread}.{number}>D", choice.legs[0].trip)

        with router() as it, ThreadPoolExecutor(8) as threads:
            for done in [threads.submit(ask, thread) for thread in range(8)]:
                done.result(LONG)

    def test_what_is_asked_at_a_time_is_one_turn(self):
        with router() as it, ThreadPoolExecutor(8) as threads:
            # a process that stands still reads what is there once it goes on
            os.kill(it.pid, signal.SIGSTOP)
            end = time.monotonic() + LONG
            while state(it.pid) != "T" and time.monotonic() < end:
                time.sleep(0.01)
            asked = [threads.submit(it.reach, "turn", 0) for _ in range(8)]
            end = time.monotonic() + LONG
            while len(it._process._written) < 8 and time.monotonic() < end:
                time.sleep(0.01)
            time.sleep(0.2)
            os.kill(it.pid, signal.SIGCONT)
            turns = {future.result(LONG).values[0].values[0].arrival for future in asked}
        self.assertEqual(1, len(turns))

    def test_no_pipe_stays_full(self):
        """Lines and replies of many megabytes each way, before the first reply is looked at."""
        with router() as it:
            word = "w" * 900
            few = [it._ask(Ask(word, str(number), number)) for number in range(5_000)]
            many = [it._ask(Reach("many", 0)) for _ in range(3)]
            self.assertEqual([20_001] * 3, [len(each.result(LONG)) for each in many])
            self.assertEqual(5_059, few[-1].result().values[0].arrival)


    def test_nor_does_standard_error(self):
        with router() as it:
            self.assertEqual(60, it.ask("shout", "D", 0).values[0].arrival)


class Ends(unittest.TestCase):
    def test_a_process_that_dies(self):
        with router() as it:
            with self.assertRaises(ProcessEnded) as ended:
                it.ask("die", "D", 0)
            self.assertEqual(6, ended.exception.status)
            self.assertIn("out of memory", str(ended.exception))
            with self.assertRaises(ProcessEnded):
                it.ask("A", "D", 0)
            with self.assertRaises(ProcessEnded):
                it.publish("feed", "20260303")

    def test_a_process_that_dies_in_the_middle_of_a_line(self):
        with router() as it, self.assertRaises(ProcessEnded) as ended:
            it.ask("cut", "D", 0)
        self.assertEqual(5, ended.exception.status)

    def test_a_process_that_closes_its_output(self):
        """It is ended if it doesn't end by itself soon."""
        with mock.patch.object(process, "PATIENCE", 0.2), router() as it:
            with self.assertRaisesRegex(ProcessEnded, "SIGKILL"):
                it.ask("quiet", "D", 0)

    def test_a_process_that_is_killed_under_load(self):
        """Each thread gets an exception of its own, and none hangs."""

        def ask(thread):
            while True:
                it.ask(str(thread), "D", 0)

        with router() as it, ThreadPoolExecutor(8) as threads:
            asking = [threads.submit(ask, thread) for thread in range(8)]
            time.sleep(0.3)
            os.kill(it.pid, signal.SIGKILL)
            ends = [each.exception(LONG) for each in asking]
        self.assertEqual({ProcessEnded}, {type(end) for end in ends})
        self.assertEqual(8, len({id(end) for end in ends}))
        self.assertIn("SIGKILL", str(ends[0]))
        self.assertEqual(-signal.SIGKILL, ends[0].status)

    def test_a_process_that_is_killed_while_lines_wait(self):
        """Lines that no pipe takes any more: whoever asked them gets an exception too."""
        with router() as it:
            asked = [it._ask(Ask("hang", "D", 0))]
            asked += [it._ask(Ask("w" * 900, "D", number)) for number in range(500)]
            time.sleep(0.2)
            self.assertLess(100, len(it._process._waiting))
            os.kill(it.pid, signal.SIGKILL)
            self.assertEqual({ProcessEnded}, {type(each.exception(LONG)) for each in asked})

    def test_what_is_no_reply(self):
        for word in ("babble", "skip", "odd"):
            with router() as it:
                for _ in range(2):
                    with self.assertRaises(ProcessConfused):
                        it.ask(word, "D", 0)

    def test_a_process_that_hangs_is_ended(self):
        begin = time.monotonic()
        it = router()
        hanging = it._ask(Ask("hang", "D", 0))
        it.close(0.2)
        self.assertLess(time.monotonic() - begin, LONG)
        self.assertIsInstance(hanging.exception(LONG), Closed)
        with self.assertRaises(Closed):
            it.ask("A", "D", 0)
        it.close()

    def test_a_program_that_hangs_behind_another(self):
        """It is ended with the one that started it."""
        with tempfile.TemporaryDirectory() as folder:
            before = Path(folder, "router")
            before.write_text(f'#!/bin/sh\n"{STAND_IN}" "$@"\nexit $?\n')
            before.chmod(0o755)
            it = Router("feed", "20260302", program=before)
        hanging = it._ask(Ask("hang", "D", 0))
        begin = time.monotonic()
        it.close(0.2)
        self.assertLess(time.monotonic() - begin, LONG)
        self.assertIsInstance(hanging.exception(LONG), Closed)

    def test_a_process_that_dies_while_it_is_closed(self):
        it = router()
        asked = it._ask(Ask("die", "D", 0))
        it.close(LONG)
        self.assertEqual(6, asked.exception(LONG).status)

    def test_what_was_asked_before_the_end_is_answered(self):
        it = router()
        asked = [it._ask(Ask("A", "D", number)) for number in range(2_000)]
        it.close(LONG)
        self.assertEqual(2_059, asked[-1].result(0).values[0].arrival)

    def test_nothing_is_left_behind(self):
        before = threading.active_count(), len(os.listdir("/proc/self/fd"))
        for _ in range(5):
            with router() as it:
                it.ask("A", "D", 0)
            with router() as it, self.assertRaises(RouterError):
                it.ask("die", "D", 0)
            with self.assertRaises(FeedRefused):
                router("broken")
        after = threading.active_count(), len(os.listdir("/proc/self/fd"))
        self.assertEqual(before, after)
        self.assertEqual(set(), process._alive)

    def test_a_fork_has_no_router(self):
        def in_fork(pipe):
            try:
                publication.wait()
            except Elsewhere:
                pipe.send("no publication")
            try:
                next(answers)
            except Elsewhere:
                pipe.send("no answer")
            try:
                it.ask("A", "D", 0)
            except Elsewhere as error:
                it.close()
                pipe.send(str(error))

        fork = multiprocessing.get_context("fork")
        with router() as it:
            publication = it.publish("slow", "20260303")
            answers = it.answers(Ask(origin, "D", 0) for origin in ("A", "pause"))
            next(answers)
            here, there = fork.Pipe(duplex=False)
            forked = fork.Process(target=in_fork, args=(there,))
            forked.start()
            forked.join(LONG)
            self.addCleanup(forked.kill)
            self.assertEqual(0, forked.exitcode)
            said = ["no publication", "no answer"]
            self.assertEqual(said, [here.recv() for _ in said])
            self.assertIn("forked", here.recv())
            it.ask("go", "D", 0)
            self.assertEqual(2, publication.wait(LONG).number)

    def test_a_fork_does_not_keep_the_process(self):
        """Its input ends though a fork has it too; so the process ends by itself."""
        fork = multiprocessing.get_context("fork")
        with router() as it:
            forked = fork.Process(target=time.sleep, args=(LONG,))
            forked.start()
            self.addCleanup(forked.join)
            self.addCleanup(forked.kill)
            it.close(LONG)
            self.assertTrue(forked.is_alive())
            with self.assertRaises(Closed):
                it.ask("A", "D", 0)
            self.assertFalse(it._process._killed)

    def test_an_interrupt_of_the_terminal(self):
        """It is for whoever asks; the process, and what is asked after it, go on."""
        words = [sys.executable, "-c", INTERRUPTED, str(HERE.parent / "src"), str(STAND_IN)]
        pipe = {"stdout": subprocess.PIPE, "stderr": subprocess.PIPE}
        with subprocess.Popen(words, start_new_session=True, text=True, **pipe) as asking:
            self.assertEqual("ready\n", asking.stdout.readline())
            os.killpg(asking.pid, signal.SIGINT)
            self.assertEqual(("60\n", ""), asking.communicate(timeout=LONG))
        self.assertEqual(0, asking.returncode)

    def test_the_program_that_the_environment_names(self):
        with mock.patch.dict(os.environ, ROUTER=str(STAND_IN)):
            with Router("feed", "20260302") as it:
                self.assertEqual(1, it.ask("A", "D", 0).edition)
        with mock.patch.dict(os.environ, PATH=str(STAND_IN.parent)):
            os.environ.pop("ROUTER", None)
            with self.assertRaisesRegex(NoProgram, "there is no program router"):
                Router("feed", "20260302")

    def test_no_program(self):
        with self.assertRaises(NoProgram):
            Router("feed", "20260302", program="/nowhere/router")
        with tempfile.NamedTemporaryFile() as file, self.assertRaises(NoProgram):
            os.chmod(file.name, 0o755)
            file.write(b"no program")
            file.file.close()
            Router("feed", "20260302", program=file.name)

    def test_the_launcher_without_a_proved_program(self):
        with tempfile.TemporaryDirectory() as folder:
            launcher = shutil.copy(TOP / "router", folder)
            with self.assertRaisesRegex(ProcessEnded, "for it: .*/router --build"):
                Router("feed", "20260302", program=launcher)
