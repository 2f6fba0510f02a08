"""Runs the toolchain's `rt ci` in the current folder, and ends with whoever started it.

The toolchain begins a proof once the memory that it plans for it is free: two or three times what
proofs of this repository take. It leaves processors to the tests of a crate that has none, and one
job to a proof that begins when others can, also where all the rest waits for that proof. Here it
does none of that: proofs of the longest chain have as many jobs as processors and memory allow, and
processors before all others.

What passed it keeps beside itself, and nothing where this user can't write there: then in the
folder that the first word names. What is proved, and whether what was kept fits, is for it to say,
as ever. One whose script is made otherwise runs as it is.
"""
import concurrent.futures
import ctypes
import importlib.machinery
import importlib.util
import inspect
import os
import shutil
import signal
import sys

import sources

# Of prctl(2): the signal that comes when the parent ends.
PR_SET_PDEATHSIG = 1
# Functions of a toolchain's script that is made as those known here: what it runs, what memory it
# plans for a crate, and how it runs tasks side by side; and its numbers of processors and of free
# bytes.
KNOWN, NUMBERS = ("main", "need", "in_lanes"), ("processors", "free")
# The most jobs of one proof, and the memory of each further one in parts of what the first takes.
MOST_JOBS, MORE_MEMORY = 4, 0.6
# By how much work that nothing long waits for is nicer, as nice(1) has it.
NICER = 10


def end_with_parent():
    parent = os.getppid()
    ctypes.CDLL(None).prctl(PR_SET_PDEATHSIG, signal.SIGTERM)
    if os.getppid() != parent:
        sys.exit(1)


def memory(crate):
    """The bytes that a proof of a crate takes with one job: a little more than was seen."""
    code, proofs = (sources.line_count(crate.folder, it) for it in (".rt", ".antt"))
    below = sum(sources.line_count(it.folder, ".rt") for it in crate.below())
    return 1e6 * (1200 + 0.5 * code + 0.075 * below + 0.08 * proofs)


def without_empty(in_lanes):
    """Has the toolchain's tasks run without those of tests that aren't there, which end well."""

    def run(tasks):
        awaited = {it for task in tasks.values() for it in task[0]}
        lines = {key: task[1] for key, task in tasks.items() if key[1] == "tests"}
        empty = {key: True for key, count in lines.items() if not count and key not in awaited}
        return {**in_lanes({it: tasks[it] for it in tasks if it not in empty}), **empty}

    return run


def longest_chain(tasks):
    """The keys of the longest chain of proofs in which each waits for the one before."""
    lines, above = {}, {}
    # (a task stands behind those that it waits for)
    for key in reversed([it for it in tasks if it[1] == "proof"]):
        waits, own, *_ = tasks[key]
        lines[key] = lines.get(key, 0) + own
        for below in waits:
            if lines[key] > lines.get(below, -1):
                lines[below], above[below] = lines[key], key
    chain = [max(lines, key=lines.get)] if lines else []
    while chain and chain[-1] in above:
        chain.append(above[chain[-1]])
    return chain


def nicer(call):
    """Has what a task starts yield processors to others."""

    def run(given, jobs):
        # (a thread has a niceness of its own, which processes that it starts begin with)
        with concurrent.futures.ThreadPoolExecutor(1, "nicer", os.nice, (NICER,)) as pool:
            return pool.submit(call, given, jobs).result()

    return run


def with_more_jobs(in_lanes, processors, free):
    """Has the toolchain's tasks run with more jobs for the proofs of the longest chain, and with
    processors for these before all others.
    """

    def more(needs, call):
        def with_jobs(given, jobs):
            room = 1 + int((free() / needs - 1) / MORE_MEMORY)
            return call(given, max(jobs, min(MOST_JOBS, processors(), room)))

        return with_jobs

    def run(tasks):
        chain = longest_chain(tasks)
        others = {it: (*task[:3], nicer(task[3])) for it, task in tasks.items()}
        return in_lanes({**others, **{it: (*tasks[it][:3], more(*tasks[it][2:])) for it in chain}})

    return run


def can_keep(folder):
    """Whether the toolchain, run by this user, can keep there what passed."""
    try:
        os.makedirs(folder, 0o700, exist_ok=True)
        return os.stat(folder).st_uid == os.geteuid() and os.access(folder, os.W_OK)
    except OSError:
        return False


def takes(count, function):
    """Whether it is a function of so many values; others that it takes have one of their own."""
    if not callable(function):
        return False
    values = inspect.signature(function).parameters.values()
    return [it.default is it.empty for it in values].count(True) == count


def load(path):
    """The toolchain's script as a module, or None where it isn't made as the ones known here."""
    if not os.path.isfile(os.path.join(os.path.dirname(path), "rtlib.py")):
        return None
    loader = importlib.machinery.SourceFileLoader("rt_of_the_toolchain", path)
    module = importlib.util.module_from_spec(importlib.util.spec_from_loader(loader.name, loader))
    loader.exec_module(module)
    wanted = [*((1, name) for name in KNOWN), *((0, name) for name in NUMBERS)]
    is_known = all(takes(count, getattr(module, name, None)) for count, name in wanted)
    return module if is_known and isinstance(getattr(module, "STORE", None), str) else None


def main(words):
    end_with_parent()
    rt = shutil.which("rt")
    module = load(os.path.realpath(rt))
    if module is None:
        os.execv(rt, [rt, "ci"])
    in_lanes = with_more_jobs(module.in_lanes, module.processors, module.free)
    module.need, module.in_lanes = memory, without_empty(in_lanes)
    if not can_keep(module.STORE) and can_keep(words[0]):
        module.STORE = words[0]
    return module.main(["ci"])


if __name__ == "__main__":
    sys.exit(main(sys.argv[1:]))
