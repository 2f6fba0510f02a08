"""What the commands share: the proved programs, runs of them, feeds, and tables."""
import argparse
import contextlib
import datetime
import os
import resource
import shutil
import signal
import subprocess
import sys
import tempfile

TOP = os.path.dirname(os.path.dirname(os.path.realpath(__file__)))
FEEDS = os.path.join(TOP, "crates", "trials", "data", "feeds")
DAY = "20260302"
# What the example answers.
BEST = """arrive 08:50:00 rides 1
  ride T3 A 08:05:00 D 08:50:00
arrive 08:30:00 rides 2
  ride T1 A 08:00:00 B 08:10:00
  ride T2 B 08:12:00 D 08:30:00
"""
SCRIPT = "lane a\nask A D 08:00:00\nsince 2 ask A D 08:00:00\n"


class BenchError(Exception):
    """Why a command stops, in words for the user."""


def built(crate, variable, how):
    """The path of a crate's proved program, or the one that a variable of the environment names."""
    path = os.environ.get(variable) or os.path.join(TOP, "crates", crate, "out", crate)
    if not os.access(path, os.X_OK):
        raise BenchError(f"there is no program {path}: {how}, or set {variable} to the path of one")
    return os.path.realpath(path)


def router():
    """The path of the proved program."""
    return built("router", "ROUTER", "'./router --build' makes it")


# The program that asks many questions within one process, and its words for that.
ASKING = "comparisons"


def asking():
    """The path of the program that asks many questions within one process."""
    how = f"'rt run' in crates/{ASKING} makes it"
    return built(ASKING, ASKING.upper(), how)


def asking_words(feed, count, method):
    """The words by which that program asks a feed so many questions by a method."""
    return [f"{method}:{count}:{feed}@{DAY}"]


# What a process holds at most counts from the one that it was forked of, and this one may hold the
# text of a feed: so a small one starts the program, and writes what that took.
STARTER = """
import os, resource, sys, time
report, limit, count, *words = sys.argv[1:]
os.set_inheritable(int(report), False)
if limit != "0":
    resource.setrlimit(resource.RLIMIT_CPU, (int(limit), int(limit) + 1))
env = dict(word.split("=", 1) for word in words[: int(count)])
words = words[int(count) :]
start = time.perf_counter()
child = os.posix_spawn(words[0], words, {**os.environ, **env})
_, status, used = os.wait4(child, 0)
took = time.perf_counter() - start, used.ru_utime + used.ru_stime, used.ru_maxrss
os.write(int(report), " ".join(map(str, (status, *took))).encode())
"""


def run_by_starter(command, env, limit, **how):
    """Runs a command, with at most so many seconds of processor time if the limit isn't 0, and
    returns its status as the system gives it, and what it took: seconds by the clock and of
    processor time, and kilobytes that it held at most.
    """
    given = [f"{name}={value}" for name, value in (env or {}).items()]
    with tempfile.TemporaryFile() as report:
        number = report.fileno()
        starter = [sys.executable, "-I", "-S", "-c", STARTER]
        words = [str(number), str(limit), str(len(given)), *given, *command]
        subprocess.run([*starter, *words], pass_fds=[number], **how)
        fields = text_of(report).split()
    if not fields:
        raise BenchError(f"{command[0]} can't be run")
    return int(fields[0]), float(fields[1]), float(fields[2]), int(fields[3])


def run_after(before, command, **how):
    """Runs a command after a call in the child, and returns its status as the system gives it."""
    child = subprocess.Popen(command, preexec_fn=before, **how)
    _, status = os.waitpid(child.pid, 0)
    child.returncode = 0
    return status


class Run:
    """A run that has ended: its status, or the name of the signal that killed it, and what it
    wrote; and where nothing is called in the child before it, seconds by the clock and of processor
    time, and the memory that it held at most, in units of 1,000 and of 1,024 kilobytes. Of memory
    that is told only from some ten megabytes on, which is what starts it.
    """

    def __init__(
        self, program, words, given=b"", cwd=None, out=None, env=None, before=None, limit=0
    ):
        with contextlib.ExitStack() as files:
            stdin, stdout, stderr = (files.enter_context(tempfile.TemporaryFile()) for _ in "012")
            stdin.write(given)
            stdin.seek(0)
            how = {"stdin": stdin, "stdout": out or stdout, "stderr": stderr, "cwd": cwd}
            if before:
                status = run_after(before, [program, *words], **how)
            else:
                status, *took = run_by_starter([program, *words], env, limit, **how)
                self.clock, self.seconds, kilobytes = took
                self.megabytes, self.mebibytes = kilobytes / 1000, kilobytes / 1024
            if os.WIFSIGNALED(status):
                self.status = signal.Signals(os.WTERMSIG(status)).name
            else:
                self.status = os.WEXITSTATUS(status)
            self.out, self.err = (text_of(file) for file in (stdout, stderr))

    def first_line(self):
        text = self.err or self.out
        return text.splitlines()[0] if text else "nothing"


def text_of(file):
    file.seek(0)
    return file.read().decode(errors="replace")


def limited(memory):
    """What a child calls before it runs, so that it gets no more than so many bytes."""
    return lambda: resource.setrlimit(resource.RLIMIT_AS, (memory, memory))


def done(program, words, **how):
    """A run that has to end with the answer; what it writes is let go, unless `out` is None."""
    run = Run(program, words, **{"out": subprocess.DEVNULL, **how})
    if run.status != 0:
        name = os.path.basename(program)
        raise BenchError(f"{name} {' '.join(words)} ended with {run.status}: {run.first_line()}")
    return run


def commit_of(program):
    """The commit that a program was built of, by the stamp that its build left, or else that of
    this checkout.
    """
    stamp = f"{program}.built"
    with contextlib.suppress(OSError, ValueError), open(stamp, encoding="utf-8") as file:
        name, found = file.readline().split()
        if name == "commit" and os.path.getmtime(stamp) >= os.path.getmtime(program):
            return found
    return commit()


def commit(top=TOP):
    """The commit of a checkout, with `-dirty` where files differ from it."""
    words = ["git", "-C", top, "describe", "--always", "--dirty", "--abbrev=12", "--exclude=*"]
    with contextlib.suppress(OSError):
        found = subprocess.run(words, capture_output=True, text=True).stdout.strip()
        if found:
            return found
    return "unknown commit"


def processor():
    """The name of the machine's processor, and how many there are to use."""
    name = "unknown processor"
    with contextlib.suppress(OSError), open("/proc/cpuinfo", encoding="utf-8") as file:
        names = [line.partition(":")[2] for line in file if line.startswith("model name")]
        name = " ".join(names[0].split()) if names else name
    return f"{name}, {len(os.sched_getaffinity(0))} at work"


class Table:
    """A table as the documents have them: its columns, and rows as they come. Above it stands a
    line with the commit of what is measured, the date and the processor.
    """

    def __init__(self, measured, *columns):
        print(f"{measured}, {datetime.date.today()}, {processor()}\n")
        self.row(*columns)
        print("|" + "---|" * len(columns), flush=True)

    def row(self, *cells):
        print(f"| {' | '.join(str(cell) for cell in cells)} |", flush=True)


def count(text):
    """The number that an argument gives, 1 and more."""
    if not text.isdecimal() or int(text) == 0:
        raise argparse.ArgumentTypeError(f"{text} is no number above 0")
    return int(text)


def known(names, every):
    """These names, if each is one of all, or all where none is given."""
    for name in names:
        if name not in every:
            raise BenchError(f"{name} is none of {' '.join(every)}")
    return names or list(every)


def outcome(is_right, text):
    """A cell with what came, marked where it isn't what was wanted."""
    return text if is_right else f"DIFFERS {text}"


def write(folder, name, text):
    with open(os.path.join(folder, name), "w", encoding="ascii") as file:
        file.write(text)


def write_lines(folder, name, lines):
    with open(os.path.join(folder, name), "w", encoding="ascii", buffering=1 << 20) as file:
        file.writelines(f"{line}\n" for line in lines)


def clock(secs):
    return f"{secs // 3600:02}:{secs // 60 % 60:02}:{secs % 60:02}"


def rows_of(folder, name):
    """The number of rows of a file of a feed, without its header."""
    with open(os.path.join(folder, name), encoding="utf-8") as file:
        return sum(1 for _ in file) - 1


def megabytes_of(*paths):
    """The megabytes of files, and of the files of folders."""
    folders = [path for path in paths if os.path.isdir(path)]
    inside = [os.path.join(folder, name) for folder in folders for name in os.listdir(folder)]
    files = [path for path in paths if path not in folders]
    return sum(os.path.getsize(path) for path in files + inside) / 1e6


def example(folder, name="f1"):
    """A copy of a feed of the cases, which may be changed; its path."""
    to = os.path.join(folder, name)
    shutil.copytree(os.path.join(FEEDS, name), to)
    return to
