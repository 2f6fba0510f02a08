"""The program and real faults of the machine.

Runs the program over folders that may not be read, files that are folders, and links to nowhere;
onto a full disk, and to a reader that has gone; and with standard input or output closed. Prints
how each run ended beside what the documents say. The superuser may read everything, so for him the
runs are those of the user with the number 65534.
"""
import os
import tempfile

from harness import BEST, DAY, SCRIPT, Run, Table, commit_of, example, outcome, router

NOBODY = 65534
ASK = [DAY, "A", "D", "08:00:00"]


def add_arguments(parser):
    pass


def as_nobody(then=lambda: None):
    """What a child calls before it runs: it becomes nobody, and does something else."""

    def prepare():
        if os.getuid() == 0:
            os.setgid(NOBODY)
            os.setuid(NOBODY)
        then()

    return prepare


def in_place(folder, name, change):
    """A copy of the example that a function has changed."""
    inner = os.path.join(folder, name)
    os.mkdir(inner)
    feed = example(inner)
    change(feed)
    os.chmod(inner, 0o755)
    return feed


def folder_for_file(feed):
    os.remove(os.path.join(feed, "stops.txt"))
    os.mkdir(os.path.join(feed, "stops.txt"))


def link_to(target):
    """Has trips.txt be a link; what it was stands in `other`."""

    def change(feed):
        os.rename(os.path.join(feed, "trips.txt"), os.path.join(feed, "other"))
        os.symlink(target, os.path.join(feed, "trips.txt"))

    return change


def shut(name):
    """Has nobody read a file of the feed, or its folder."""
    return lambda feed: os.chmod(os.path.join(feed, name), 0)


def gone_reader():
    """The end of a pipe whose reader has gone."""
    reads, writes = os.pipe()
    os.close(reads)
    return os.fdopen(writes, "wb")


def reading(program, folder):
    """What is met, the status and the output that are wanted, and the run, of faults in reading."""

    def ask(feed):
        return Run(program, ["ask", feed, *ASK], before=as_nobody())

    for what, status, out, name, change in (
        ("the example", 0, BEST, "plain", lambda feed: None),
        ("a folder that may not be read", 4, "", "shut", shut("")),
        ("a file that may not be read", 4, "", "shut_file", shut("stop_times.txt")),
        ("a folder in place of stops.txt", 3, "", "folder", folder_for_file),
        ("a link to nowhere in place of trips.txt", 3, "", "nowhere", link_to("/nowhere/trips")),
        ("a link to itself in place of trips.txt", 4, "", "round", link_to("trips.txt")),
        ("a link to another file in place of trips.txt", 0, BEST, "elsewhere", link_to("other")),
    ):
        yield what, status, out, ask(in_place(folder, name, change))
    yield "a folder that isn't there", 3, "", ask(os.path.join(folder, "none"))
    file = os.path.join(folder, "plain", "f1", "stops.txt")
    yield "a file in place of the folder", 3, "", ask(file)
    yield "a path of 5,000 bytes", 4, "", ask("x" * 5000)


def streams(program, folder):
    """The same of faults of the standard streams."""
    feed = in_place(folder, "streams", lambda feed: None)
    ask, serve = ["ask", feed, *ASK], ["serve", f"{feed}@{DAY}"]
    nowhere = ["ask", os.path.join(folder, "none"), *ASK]

    def run(words, then=lambda: None, **how):
        return Run(program, words, before=as_nobody(then), **how)

    def closing(stream):
        return lambda: os.close(stream)

    with open("/dev/full", "wb") as full:
        yield "a full disk behind standard output", 5, "", run(ask, out=full)
        served = run(serve, given=SCRIPT.encode(), out=full)
        yield "a full disk behind a served script", 5, "", served
    with gone_reader() as gone:
        yield "a reader of standard output that has gone", 5, "", run(ask, out=gone)
    yield "standard output closed", 5, "", run(ask, closing(1))
    yield "standard error closed, and a refusal", 3, "", run(nowhere, closing(2))
    yield "standard input closed, and a script wanted", 4, "", run(serve, closing(0))
    yield "standard input closed, and no script wanted", 0, BEST, run(ask, closing(0))
    folder_as_input = run(serve, lambda: os.dup2(os.open("/", os.O_RDONLY), 0))
    yield "a folder as standard input", 4, "", folder_as_input


def run(words):
    bad = 0
    program = router()
    table = Table(commit_of(program), "what is met", "status", "wanted", "first line")
    with tempfile.TemporaryDirectory() as folder:
        os.chmod(folder, 0o755)
        for cases in (reading, streams):
            for what, status, out, ended in cases(program, folder):
                is_right = (ended.status, ended.out) == (status, out)
                bad += not is_right
                said = outcome(is_right, ended.first_line().replace(folder, ".."))
                table.row(what, ended.status, status, said)
    return 1 if bad else 0
