"""Each call for memory refused once.

Runs some commands on the examples once for each of their calls for memory, and refuses that call. A
small library in front of the C library counts the calls and refuses one of them; it needs a C
compiler. Each run has to end with status 6 and nothing written, or with an answer that the command
may give. Prints how many calls there are and how the runs ended.
"""
import collections
import os
import re
import shutil
import subprocess
import sys
import tempfile
import typing

from harness import BEST, DAY, FEEDS, SCRIPT, TOP, BenchError, Run, Table, commit_of, router, write

SHIM = r"""
#define _GNU_SOURCE
#include <dlfcn.h>
#include <errno.h>
#include <fcntl.h>
#include <stdlib.h>
#include <sys/mman.h>
#include <unistd.h>
static unsigned long without_file, refused, *calls = &without_file;
static void *(*next_malloc)(size_t), *(*next_realloc)(void *, size_t);
__attribute__((constructor)) static void begin(void) {
    next_malloc = dlsym(RTLD_NEXT, "malloc");
    next_realloc = dlsym(RTLD_NEXT, "realloc");
    const char *name = getenv("CALLS_FILE"), *number = getenv("REFUSED_CALL");
    int file = name ? open(name, O_RDWR) : -1;
    void *page = MAP_FAILED;
    if (file >= 0) page = mmap(0, sizeof *calls, PROT_READ | PROT_WRITE, MAP_SHARED, file, 0);
    if (page != MAP_FAILED) calls = page;
    __atomic_store_n(calls, 0, __ATOMIC_SEQ_CST);
    refused = number ? strtoul(number, 0, 10) : 0;
}
static int fails(void) {
    return __atomic_add_fetch(calls, 1, __ATOMIC_SEQ_CST) == refused && (errno = ENOMEM);
}
void *malloc(size_t size) { return !next_malloc || fails() ? 0 : next_malloc(size); }
void *realloc(void *old, size_t size) {
    return !next_realloc || fails() ? 0 : next_realloc(old, size);
}
"""

BUILT = """stops 5 trips 3 events 7 footpaths 0
lines 3 generated 1 after_uturn 1 kept 1
T1@1 T2@0
"""
SLOTS = BEST.replace("arrive 08:5", "leave 08:05:00 arrive 08:5")
SLOTS = SLOTS.replace("arrive 08:3", "leave 08:00:00 arrive 08:3")
LATER = BEST.replace("08:30:00", "08:25:00")
FIRST = BEST[: BEST.index("arrive 08:30")]
# The replies by either edition, and whichever the closing ones are, as an expression.
SERVED = f"""edition 1 f1@20260302 trips 3 lines 3 kept 1
edition 2 f2@20260302 trips 3 lines 3 kept 1
lane a
(1 edition 1
{BEST}|1 edition 2
{LATER})(2 edition 1
deferred 2
|2 edition 2
{LATER})closing edition 2
lane a
1 edition 2
{LATER}(2 edition 2
{LATER})?"""
FAULTY = os.path.join(os.path.relpath(TOP, FEEDS), "examples", "faulty")
TOLD = r"8 BadCode stops\.txt .+\n11 .+\n11 .+\nfaults 3\nwarning .+\nwarning .+\nwarnings 2\n"
LEFT = "router: left out 1 row of stops.txt, trips for 2 rows of stop_times.txt (see check)\n"


class Command(typing.NamedTuple):
    """The words of a command, what it reads, what it may write, the status that it ends with, and
    what it writes to standard error if there is memory for that.
    """

    words: list
    given: bytes
    answer: str
    status: int = 0
    line: str = ""


ASK = [DAY, "A", "D", "08:00:00"]
COMMANDS = [
    Command(["ask", "f1", *ASK], b"", BEST),
    Command(["build", "f1", DAY, "list"], b"", BUILT),
    Command(["serve", f"f1@{DAY}", f"f2@{DAY}"], SCRIPT.encode(), SERVED),
    Command(["profile", "f1", DAY, "A", "D", "07:00:00", "08:05:00"], b"", SLOTS),
    Command(["check", FAULTY, DAY], b"", TOLD, status=10),
    Command(["--lenient", "ask", FAULTY, *ASK], b"", FIRST, line=LEFT),
]


def add_arguments(parser):
    pass


def is_allowed(run, command):
    if run.status == 6:
        return run.out == "" and run.err == "router: out of memory\n"
    is_end = run.status == command.status and run.err in ("", command.line)
    return is_end and re.fullmatch(command.answer, run.out) is not None


def library(folder):
    if not shutil.which("cc"):
        raise BenchError("there is no C compiler 'cc'")
    write(folder, "refuse.c", SHIM)
    words = ["cc", "-O1", "-shared", "-fPIC", "-o", "refuse.so", "refuse.c", "-ldl"]
    if subprocess.run(words, cwd=folder).returncode:
        raise BenchError("the C compiler doesn't compile the library that refuses memory")
    return os.path.join(folder, "refuse.so")


def calls_of(program, command, env):
    """How many calls for memory a run makes of which none is refused."""
    counts = env["CALLS_FILE"]
    with open(counts, "wb") as file:
        file.write(bytes(8))
    run = Run(program, command.words, command.given, cwd=FEEDS, env=env)
    if run.status == 6 or not is_allowed(run, command):
        raise BenchError(f"{' '.join(command.words)} ended with {run.status}: {run.first_line()}")
    with open(counts, "rb") as file:
        return int.from_bytes(file.read(8), sys.byteorder)


def run(words):
    bad = 0
    program = router()
    with tempfile.TemporaryDirectory() as folder:
        env = {"LD_PRELOAD": library(folder), "CALLS_FILE": os.path.join(folder, "calls")}
        table = Table(
            commit_of(program),
            "command",
            "calls for memory",
            "status 6, nothing written",
            "the answer all the same",
        )
        for command in COMMANDS:
            asked = " ".join(command.words)
            calls = calls_of(program, command, env)
            ended = collections.Counter()
            for number in range(1, calls + 1):
                how = {"cwd": FEEDS, "env": {**env, "REFUSED_CALL": str(number)}}
                one = Run(program, command.words, command.given, **how)
                ended[one.status] += 1
                if not is_allowed(one, command):
                    bad += 1
                    said = f"call {number} of {asked}: status {one.status}"
                    print(f"{said}\n{one.out}{one.err}", file=sys.stderr)
            table.row(f"`{asked}`", calls, ended[6], ended[command.status])
    return 1 if bad else 0
