"""What `rt ci` costs, crate by crate.

Runs `rt ci` at the top of this checkout, with `--anew` if the toolchain knows that word, so that
everything is proved from nothing. Prints a table: for each crate the processor seconds of its code,
of its tests and of its mutants, and the most memory that one prover held. With --watch it starts
nothing, and watches a run in another checkout until that ends. It samples the prover's processes
twice a second, and misses what a process uses after its last sample.
"""
import collections
import os
import shutil
import subprocess
import time

from harness import TOP, BenchError, Table, commit

TICKS = os.sysconf("SC_CLK_TCK")
KINDS = CODE, TESTS, EDITS = "code", "tests", "edits"


def read(path):
    try:
        with open(path, "rb") as file:
            return file.read()
    except OSError:
        return b""


def gate_words():
    """The words that prove everything from nothing: a toolchain that keeps what passed is told not
    to use it.
    """
    if not shutil.which("rt"):
        raise BenchError("the toolchain's command 'rt' isn't on the path")
    help_text = subprocess.run(["rt", "help"], capture_output=True, text=True).stderr
    return ["rt", "ci", "--anew"] if "--anew" in help_text else ["rt", "ci"]


def is_gate(pid, top):
    words = read(f"/proc/{pid}/cmdline").split(b"\0")
    return b"ci" in words and any(w.endswith(b"/rt") for w in words) and folder_of(pid) == top


def folder_of(pid):
    try:
        return os.path.realpath(os.readlink(f"/proc/{pid}/cwd"))
    except OSError:
        return ""


def parent_of(pid):
    fields = read(f"/proc/{pid}/stat").rpartition(b")")[2].split()
    return int(fields[1]) if fields else 0


def stands_under(pid, gate):
    while pid > 1 and pid != gate:
        pid = parent_of(pid)
    return pid == gate


def work_of(pid):
    """The crate and the kind of work of a prover, or None where the process is no prover."""
    words = [w.decode(errors="replace") for w in read(f"/proc/{pid}/cmdline").split(b"\0")]
    if not words or os.path.basename(words[0]) != "rattle" or "--crate-name" not in words:
        return None
    crate = words[words.index("--crate-name") + 1]
    if os.path.join("crates", crate) not in folder_of(pid) or "must" in folder_of(pid):
        return crate, EDITS
    return crate, TESTS if "--test" in words else CODE


def sample(gate, seen):
    for name in os.listdir("/proc"):
        if not name.isdigit():
            continue
        pid = int(name)
        work = work_of(pid)
        if work is None or not stands_under(pid, gate):
            continue
        fields = read(f"/proc/{pid}/stat").rpartition(b")")[2].split()
        if len(fields) < 22:
            continue
        seconds = (int(fields[11]) + int(fields[12])) / TICKS
        held = int(fields[21]) * os.sysconf("SC_PAGE_SIZE") / 1e6
        start = int(fields[19])
        old = seen.get((pid, start), (work, 0.0, 0.0))
        seen[pid, start] = (work, max(seconds, old[1]), max(held, old[2]))


def gate_in(top):
    for name in os.listdir("/proc"):
        if name.isdigit() and is_gate(int(name), top):
            return int(name)
    return None


def print_table(top, seen):
    rows = collections.defaultdict(lambda: {CODE: 0.0, TESTS: 0.0, EDITS: 0.0, "held": 0.0})
    for (crate, kind), seconds, held in seen.values():
        rows[crate][kind] += seconds
        rows[crate]["held"] = max(rows[crate]["held"], held)
    spent = {crate: sum(row[kind] for kind in KINDS) for crate, row in rows.items()}
    table = Table(commit(top), "crate", "code s", "tests s", "mutants s", "all s", "most MB")
    for crate in sorted(rows, key=lambda crate: -spent[crate]):
        seconds = (*(rows[crate][kind] for kind in KINDS), spent[crate], rows[crate]["held"])
        table.row(crate, *(f"{number:.0f}" for number in seconds))
    whole = [sum(row[kind] for row in rows.values()) for kind in KINDS]
    table.row("all", *(f"{number:.0f}" for number in (*whole, sum(whole))), "")


def add_arguments(parser):
    parser.add_argument("--watch", metavar="FOLDER", help="the top of the other checkout")


def run(words):
    if words.watch:
        top, child = os.path.realpath(words.watch), None
        gate = gate_in(top)
        if gate is None:
            raise BenchError(f"no gate runs in {top}")
    else:
        top, child = TOP, subprocess.Popen(gate_words(), cwd=TOP, stdout=subprocess.DEVNULL)
        gate = child.pid
    seen = {}
    while (child.poll() is None) if child else os.path.exists(f"/proc/{gate}"):
        sample(gate, seen)
        time.sleep(0.5)
    print_table(top, seen)
    return child.returncode if child else 0
