#!/usr/bin/env python3
"""Proves and builds the program alone; `./router --build` runs this.

Runs the toolchain's `rt ci` in a copy of the crates below the program, without their mutants. Its
verdict is the one that it gives on the repository: handles, contracts that no call can meet and
terms that a tactic chose are looked at, and the program is run. It proves as many crates at once as
processors and memory allow, and keeps on this machine what passed, by checksum: a build that was
stopped goes on where it was, and `rt ci` in any checkout takes what was proved here, as this does
from there. What is left to `rt ci` are mutants and the other crates, among them those with tests.

The program then stands as crates/router/out/router beside a stamp of its sources.

With --is-current it builds nothing: it ends with 0 exactly when the program that stands there was
built by such a run, of the sources as they are now.
"""
import argparse
import contextlib
import fcntl
import json
import os
import re
import shutil
import signal
import subprocess
import sys
import tempfile
import time

import sources
from progress import Estimate, Progress, shown

HERE = os.path.dirname(os.path.realpath(__file__))
TOP = os.path.dirname(HERE)
# What the toolchain says of a crate, and of one that another run on this machine is at.
VERDICT = re.compile(r"rt: (\w+) (proved$|is kept: |NOT PROVED)")
WAITS = re.compile(r"rt: (\w+: another run on this machine .*)")
# How many of its lines are shown where it fails, and which not, since they say what went well.
LAST_LINES = 30
OF_NO_USE = re.compile(
    r"(statements|library|crate) \w+: modules |logic /|\w+ \S+: proved(, .*)?$|== \w+$"
    r"|empty contracts: 0 "
)


class BuildError(Exception):
    """Why there is no program, in words for the user."""


def number_in(file, pattern):
    try:
        with open(file, encoding="utf-8") as it:
            return int(re.search(pattern, it.read())[1])
    except (OSError, TypeError):
        return None


def processor_count():
    """The processors that this process may use, or fewer by the quota of its control group."""
    found = len(os.sched_getaffinity(0))
    quota = number_in("/sys/fs/cgroup/cpu.max", r"^(\d+)")
    period = number_in("/sys/fs/cgroup/cpu.max", r" (\d+)")
    return max(min(found, quota // period), 1) if quota and period else found


class Crates:
    """The crates that the program is made of, in an order in which each stands on earlier ones."""

    def __init__(self, top):
        libraries = sources.read_crates(top)
        if sources.PROGRAM not in libraries:
            raise BuildError(f"crates.txt has no line for {sources.PROGRAM}")
        self.top = top
        self.names = sources.crates_below(sources.PROGRAM, libraries)
        self.libraries = {it: [on for on in libraries[it] if on in libraries] for it in self.names}

    def folder(self, name):
        return os.path.join(self.top, "crates", name)

    def lines(self):
        folders = {name: self.folder(name) for name in self.names}
        return {name: sources.line_count(at, (".rt", ".antt")) for name, at in folders.items()}

    def is_begun(self, name):
        """Whether the toolchain has begun to prove the crate: it has made a folder for it."""
        made = ["out"] if name == sources.PROGRAM else ["out", "rlib"]
        return os.path.isdir(os.path.join(self.folder(name), *made))


class Run:
    """A run of `rt ci` in a copy of the sources of a checkout."""

    def __init__(self, copy, top, store):
        self.copy, self.top = copy, top
        out = os.path.dirname(sources.built_program(top))
        self.log_file, self.half_line = os.path.join(out, "build.log"), b""
        os.makedirs(out, exist_ok=True)
        words = [sys.executable, os.path.join(HERE, "planned_ci.py"), store]
        with open(self.log_file, "wb") as log:
            how = {"stdin": subprocess.DEVNULL, "stdout": log, "stderr": subprocess.STDOUT}
            self.child = subprocess.Popen(words, cwd=copy, start_new_session=True, **how)
        self.log = open(self.log_file, "rb")

    def new_lines(self):
        """What it has said since this was last asked for, with the paths of the checkout."""
        *lines, self.half_line = (self.half_line + self.log.read()).split(b"\n")
        return [it.decode(errors="replace").replace(self.copy, self.top) for it in lines]

    def has_ended(self):
        return self.child.poll() is not None

    def end(self):
        """Ends the run, where it still goes; the prover that it started ends with it."""
        for number in () if self.has_ended() else (signal.SIGTERM, signal.SIGKILL):
            with contextlib.suppress(ProcessLookupError):
                os.killpg(self.child.pid, number)
            with contextlib.suppress(subprocess.TimeoutExpired):
                self.child.wait(timeout=5)
        self.log.close()


class Build:
    """Follows a run of the toolchain, and tells of each crate."""

    def __init__(self, crates, run, estimate):
        self.crates, self.run = crates, run
        self.progress = Progress(estimate)
        # when each crate at work was first seen to be, and what was said since the last verdict
        self.begun, self.said = {}, []
        # crates with a verdict; of the first that failed why, and those at work then, whose proofs
        # would be lost if the run ended with it
        self.ended, self.failure, self.awaited = set(), None, set()

    def follow(self):
        try:
            has_ended = False
            while not has_ended and (self.failure is None or self.awaited):
                time.sleep(0.2)
                has_ended = self.run.has_ended()
                self.see_begun()
                for line in self.run.new_lines():
                    self.take(line)
                self.progress.look(self.seconds())
        finally:
            self.progress.clear()
            self.run.end()
        if self.failure is not None:
            raise BuildError(self.failure)
        if self.run.child.returncode:
            raise BuildError(self.complaint("the build"))

    def see_begun(self):
        for name in self.crates.names:
            if name not in self.ended and name not in self.begun:
                if self.crates.is_begun(name):
                    self.begun[name] = time.monotonic()

    def seconds(self):
        return {name: time.monotonic() - begun for name, begun in self.begun.items()}

    def take(self, line):
        verdict, waits = VERDICT.match(line), WAITS.fullmatch(line)
        if waits:
            self.progress.say(waits[1])
        elif not verdict:
            self.said.append(line)
        else:
            seconds = self.seconds().get(verdict[1], 0)
            self.begun.pop(verdict[1], None)
            self.ended.add(verdict[1])
            self.awaited.discard(verdict[1])
            if verdict[2] == "proved":
                self.progress.proved(verdict[1], seconds, self.seconds())
            elif verdict[2] == "NOT PROVED":
                self.fail(verdict[1])
            else:
                self.progress.kept(verdict[1])
            self.said = []

    def fail(self, name):
        if self.failure is None:
            self.failure, self.awaited = self.complaint(name), set(self.begun)
            more = f", and waits for {', '.join(self.begun)}" if self.begun else ""
            self.progress.say(f"{name} failed{more}")

    def complaint(self, name):
        lines = [it for it in self.said if it and not OF_NO_USE.match(it)]
        last = "\n".join(f"  {line}" for line in lines[-LAST_LINES:])
        return f"{name} failed; the toolchain's last words, of {self.run.log_file}:\n{last}"


def cache_folder():
    cache = os.environ.get("XDG_CACHE_HOME") or os.path.expanduser("~/.cache")
    return os.path.join(cache, "router-build")


def figures_file():
    return os.path.join(cache_folder(), "seconds.json")


def read_figures():
    """The seconds that each crate took when it was last proved on this machine."""
    try:
        with open(figures_file(), encoding="utf-8") as file:
            return {str(name): float(seconds) for name, seconds in json.load(file).items()}
    except (OSError, ValueError, AttributeError, TypeError):
        return {}


def write_figures(figures):
    with contextlib.suppress(OSError):
        os.makedirs(cache_folder(), exist_ok=True)
        sources.write_whole(figures_file(), json.dumps(figures, indent=1) + "\n")


@contextlib.contextmanager
def alone_in(top):
    """Keeps other builds of the checkout out, and `rt ci`, which would set aside what is built."""
    git = sources.git_folder(top)
    path = os.path.join(git, "rt-ci.lock") if git else top
    lock = os.open(path, os.O_RDONLY | (os.O_CREAT if git else 0))
    try:
        try:
            fcntl.flock(lock, fcntl.LOCK_EX | fcntl.LOCK_NB)
        except BlockingIOError:
            raise BuildError("another --build or 'rt ci' of this checkout is at work") from None
        yield
    finally:
        os.close(lock)


@contextlib.contextmanager
def copied(top):
    """A copy of the sources, gone at the end: among git's files, or else temporary ones."""
    git = sources.git_folder(top)
    room = os.path.join(git, "router-build") if git else tempfile.mkdtemp(prefix="router-build-")
    copy = os.path.join(os.path.realpath(room), "copy")
    try:
        # (a build that was killed left one)
        shutil.rmtree(copy, ignore_errors=True)
        sources.copy_sources(top, copy)
        # (the toolchain wants the top of a repository)
        os.mkdir(os.path.join(copy, ".git"))
        yield copy
    finally:
        shutil.rmtree(room, ignore_errors=True)


def prove(top, copy):
    """Proves and builds the program in the copy of the sources; returns the seconds it took."""
    crates, processors, figures = Crates(copy), processor_count(), read_figures()
    estimate = Estimate(crates.libraries, crates.lines(), figures, processors)
    work = Build(crates, Run(copy, top, os.path.join(cache_folder(), "kept")), estimate)
    progress = work.progress
    progress.say(f"router: proving {len(crates.names)} crates, up to {processors} at once")
    progress.say("Ctrl-C stops it, and the same command goes on from there")
    try:
        work.follow()
    except KeyboardInterrupt:
        progress.say(f"router: stopped, {progress.so_far()}; removing its copy of the sources")
        raise
    finally:
        write_figures({**figures, **progress.took})
    return time.monotonic() - progress.begin


def build(top):
    if not shutil.which("rt"):
        raise BuildError("the toolchain's command 'rt' isn't on the path")
    begun, commit = time.time(), sources.commit_of(top)
    with copied(top) as copy:
        total = sources.sum_of_sources(copy)
        seconds = prove(top, copy)
        if sources.sum_of_sources(top) != total:
            raise BuildError("sources changed during the build; for a program of them, build again")
        sources.take_program(copy, top)
    sources.write_stamp(top, commit, total, begun)
    print(f"router: the proved program is built, in {shown(seconds)}", flush=True)


def interrupt(*_):
    raise KeyboardInterrupt


def main():
    parser = argparse.ArgumentParser(prog="./router --build", description=__doc__.split("\n\n")[1])
    parser.add_argument("--is-current", action="store_true", help="build nothing, test the stamp")
    parser.add_argument("--top", default=TOP, help=argparse.SUPPRESS)
    arguments = parser.parse_args()
    top = os.path.abspath(arguments.top)
    if arguments.is_current:
        return 0 if sources.is_current(top) else 1
    for number in (signal.SIGTERM, signal.SIGHUP):
        # (under nohup the second is ignored)
        if signal.getsignal(number) is signal.SIG_DFL:
            signal.signal(number, interrupt)
    try:
        with alone_in(top):
            build(top)
    except (BuildError, OSError, shutil.Error) as error:
        print(f"router: {error}", file=sys.stderr)
        return 1
    except KeyboardInterrupt:
        return 130
    return 0


if __name__ == "__main__":
    sys.exit(main())
